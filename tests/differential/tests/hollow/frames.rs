//! Frame makers that look right but are not: document 02, E1. Each is found out
//! in two ways, by its difference from the reference and by the laws alone.

use crate::frame_makers::{FrameFault, HollowMaker};
use pirkvezo_differential::engine::Reference;
use pirkvezo_differential::frame::call::FrameCall;
use pirkvezo_differential::frame::compare::compare;
use pirkvezo_differential::frame::laws;
use pirkvezo_differential::generate::frames::{disturb_lengths, random_frame_call};
use pirkvezo_differential::rng::Rng;
use pirkvezo_differential::seed::cases;

fn random_call(rng: &mut Rng) -> FrameCall {
    let mut call = random_frame_call(rng);
    if rng.one_in(3) {
        disturb_lengths(rng, &mut call);
    }
    call
}

#[test]
fn a_whole_frame_maker_agrees() {
    let maker = HollowMaker(FrameFault::None);
    for (case, mut rng) in cases("whole frame maker", 20_000) {
        let agreed = compare([&Reference, &maker], &random_call(&mut rng));
        agreed.unwrap_or_else(|difference| panic!("{case}: {difference}"));
    }
}

/// The laws leave one answer possible, so a maker breaks one wherever it differs
/// from the reference, and nowhere else.
#[test]
fn hollow_frame_makers_are_found_out() {
    for fault in FrameFault::HOLLOW {
        let maker = HollowMaker(fault);
        let mut found = 0;
        for (case, mut rng) in cases(&format!("hollow frames, {fault:?}"), 4_000) {
            let call = random_call(&mut rng);
            let (number, after) = call.made_by(&maker);
            let broken = laws::judge(&call, &after, number);
            let differs = (number, after) != call.made_by(&Reference);
            assert_eq!(broken.is_err(), differs, "{fault:?}, {case}: {broken:?}");
            found += u32::from(differs);
        }
        assert!(found > 0, "{fault:?} was not found out");
    }
}
