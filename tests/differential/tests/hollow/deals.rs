//! Engines that deal colours wrongly, or judge a plan wrongly by them: document
//! 02, E2.

use crate::dealers::{DealFault, Dealer};
use pirkvezo_differential::compare::{Difference, Pair};
use pirkvezo_differential::engine::{Engine, Reference};
use pirkvezo_differential::generate::disturb::disturb;
use pirkvezo_differential::generate::faults::faulty_text;
use pirkvezo_differential::generate::lists::{random_call, random_world};
use pirkvezo_differential::generate::sketch::Sketch;
use pirkvezo_differential::generate::whole::Whole;
use pirkvezo_differential::generate::write::Style;
use pirkvezo_differential::rng::Rng;
use pirkvezo_differential::seed::cases;
use pirkvezo_differential::world::{Call, World};

/// Three readings, and calls on a world that is disturbed before each.
fn compare(engine: &dyn Engine, rng: &mut Rng) -> Result<(), Difference> {
    let good = Sketch::random(rng).fitting_text(rng, Style::Tight);
    for text in [good, faulty_text(rng).0, Whole::random(rng).text] {
        let mut reading = Pair::new(&Reference, engine, World::blank(0));
        reading.call(&Call::Read(text))?;
    }
    let mut pair = Pair::new(&Reference, engine, random_world(rng));
    pair.call(&Call::FreshStart)?;
    for _ in 0..12 {
        let before = pair.world().clone();
        disturb(rng, pair.world_mut());
        let call = random_call(rng, pair.world());
        pair.call(&call)?;
        *pair.world_mut() = before;
    }
    Ok(())
}

#[test]
fn a_whole_dealer_agrees() {
    let engine = Dealer(DealFault::None);
    for (case, mut rng) in cases("whole dealer", 1_000) {
        let agreed = compare(&engine, &mut rng);
        agreed.unwrap_or_else(|difference| panic!("{case}: {difference}"));
    }
}

#[test]
fn hollow_dealers_are_found_out() {
    for fault in DealFault::HOLLOW {
        let engine = Dealer(fault);
        let mut tried = cases(&format!("hollow dealer, {fault:?}"), 200);
        let found = tried.any(|(_, mut rng)| compare(&engine, &mut rng).is_err());
        assert!(found, "{fault:?} was not found out");
    }
}
