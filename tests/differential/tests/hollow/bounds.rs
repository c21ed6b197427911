//! Bounders that look right but are not: document 02, E3. Each is found out in two
//! ways, by its difference from the reference and by the laws alone; one that
//! tells too little also by runs that do not keep to it.

use crate::bounders::{BoundFault, HollowBounder};
use crate::engines::{Fault, Hollow};
use pirkvezo_differential::bound::compare::compare;
use pirkvezo_differential::bound::laws;
use pirkvezo_differential::bound::runs::{walk, List};
use pirkvezo_differential::bound::subject::Subject;
use pirkvezo_differential::engine::{Bounder, Engine, Reference};
use pirkvezo_differential::generate::bounds::{narrow_world, random_bound_call, roomy_world};
use pirkvezo_differential::rng::Rng;
use pirkvezo_differential::seed::cases;

/// A bounder of the reference's runs.
fn subject(bounder: &dyn Bounder) -> Subject<'_> {
    Subject {
        engine: &Reference,
        bounder,
    }
}

#[test]
fn a_whole_bounder_agrees() {
    let subjects = [&Reference as &dyn Bounder, &HollowBounder(BoundFault::None)].map(subject);
    for (case, mut rng) in cases("whole bounder", 4_000) {
        let agreed = compare(subjects, &random_bound_call(&mut rng));
        agreed.unwrap_or_else(|difference| panic!("{case}: {difference}"));
    }
}

/// The laws leave one answer possible, so a bounder breaks one wherever it differs
/// from the reference, and nowhere else.
#[test]
fn hollow_bounders_are_found_out() {
    let mut found = [0; BoundFault::HOLLOW.len()];
    for (case, mut rng) in cases("hollow bounds", 3_000) {
        let call = random_bound_call(&mut rng);
        let due = laws::due(&Reference, &call).unwrap_or_else(|what| panic!("{case}: {what}"));
        let right = call.made_by(&Reference);
        for (fault, found) in BoundFault::HOLLOW.into_iter().zip(&mut found) {
            let made = call.made_by(&HollowBounder(fault));
            let broken = laws::judge(due, &call, &made.1, made.0);
            let differs = made != right;
            assert_eq!(broken.is_err(), differs, "{fault:?}, {case}: {broken:?}");
            *found += u32::from(differs);
        }
    }
    for (fault, found) in BoundFault::HOLLOW.into_iter().zip(found) {
        assert!(found > 0, "{fault:?} was not found out");
    }
}

/// Whether a run from a fresh start keeps to its bound.
fn keeps_to(subject: Subject, rng: &mut Rng) -> bool {
    let list = List::start(subject, roomy_world(rng));
    list.and_then(List::finish).is_ok()
}

#[test]
fn low_bounds_are_found_out_by_runs() {
    for fault in BoundFault::TOO_LOW {
        let hollow = HollowBounder(fault);
        let mut tried = cases(&format!("low bound, {fault:?}"), 400);
        let found = tried.any(|(_, mut rng)| !keeps_to(subject(&hollow), &mut rng));
        assert!(found, "{fault:?} was not found out");
    }
}

/// What the bound promises does not hold of every machine: one whose scripts do
/// not go on, and one whose ops take no time.
#[test]
fn engines_that_break_the_promises_are_found_out() {
    let staying = Subject {
        engine: &Hollow(Fault::StaysInPlace),
        bounder: &Reference,
    };
    let mut tried = cases("runs past their bound", 200);
    assert!(tried.any(|(_, mut rng)| !keeps_to(staying, &mut rng)));

    let walks = |engine: &dyn Engine, rng: &mut Rng| walk(engine, narrow_world(rng)).is_ok();
    let mut tried = cases("windows past their length", 200);
    assert!(tried.any(|(_, mut rng)| !walks(&Hollow(Fault::StopsTheClock), &mut rng)));
}
