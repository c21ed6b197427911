//! Runs that keep one domain's log and look right but are not: document 02, E8. Each is found
//! out beside the reference; one that is wrong in a call that must be accepted also by itself,
//! beside its own run with everyone's log.

use crate::board_faults::BoardFault;
use crate::boards::Board;
use crate::engines::{Fault, Hollow};
use crate::keepers::Keeper;
use crate::kept_faults::KeptFault;
use crate::touch_faults::TouchFault;
use crate::touchers::Toucher;
use pirkvezo_differential::compare::{Difference, Pair};
use pirkvezo_differential::engine::{Engine, Reference};
use pirkvezo_differential::generate::kept::{
    any_world, disturb_kept, disturb_part, kept_world, random_kept_call, random_limit, tight_world,
};
use pirkvezo_differential::generate::pairs::StorePair;
use pirkvezo_differential::isolation::{hold_together, Observer, Trail};
use pirkvezo_differential::kept::Beside;
use pirkvezo_differential::rng::Rng;
use pirkvezo_differential::seed::cases;
use pirkvezo_differential::timeline::Timeline;
use pirkvezo_differential::world::{Call, World};

/// A list of calls with one part, after two calls of which something is mostly wrong.
fn compare(engine: &dyn Engine, rng: &mut Rng) -> Result<(), Difference> {
    let (world, kept) = kept_world(rng);
    let mut pair = Pair::new(&Reference, engine, world);
    let lent = pair.world().clone();
    for _ in 0..2 {
        let mut other = kept;
        match rng.below(3) {
            0 => disturb_kept(rng, &lent, &mut other),
            1 => disturb_part(rng, pair.world_mut(), kept),
            _ => {
                disturb_kept(rng, &lent, &mut other);
                disturb_part(rng, pair.world_mut(), kept);
            }
        }
        pair.call(&Call::RunKept(other, random_limit(rng)))?;
        *pair.world_mut() = lent.clone();
    }
    for _ in 0..6 {
        let call = random_kept_call(rng, pair.world(), kept);
        pair.call(&call)?;
    }
    Ok(())
}

#[test]
fn a_whole_keeper_agrees() {
    let engines: [&dyn Engine; 4] = [
        &Keeper(KeptFault::None),
        &Hollow(Fault::None),
        &Board(BoardFault::None),
        &Toucher(TouchFault::None),
    ];
    for engine in engines {
        for (case, mut rng) in cases("whole keeper", 400) {
            let agreed = compare(engine, &mut rng);
            agreed.unwrap_or_else(|difference| panic!("{case}: {difference}"));
        }
    }
}

#[test]
fn hollow_keepers_are_found_out() {
    for fault in KeptFault::HOLLOW {
        let mut tried = cases(&format!("hollow keeper, {fault:?}"), 2_000);
        let found = tried.any(|(_, mut rng)| compare(&Keeper(*fault), &mut rng).is_err());
        assert!(found, "{fault:?} was not found out");
    }
}

/// Runs of any limits, each beside the same run with everyone's log.
fn beside(engine: &dyn Engine, rng: &mut Rng) -> Result<(), String> {
    let mut beside = Beside::new(engine, any_world(rng)).expect("domains");
    for _ in 0..4 {
        beside.run(random_limit(rng))?;
    }
    Ok(())
}

/// One run from a fresh start, where parts run full.
fn beside_fresh(engine: &dyn Engine, rng: &mut Rng) -> Result<(), String> {
    let mut beside = Beside::new(engine, tight_world(rng)).expect("domains");
    beside.fresh_start()?;
    beside.run(random_limit(rng))?;
    Ok(())
}

#[test]
fn a_whole_keeper_is_its_own_run() {
    let whole = Keeper(KeptFault::None);
    for (case, mut rng) in cases("whole keeper beside its run", 400) {
        let held = beside(&whole, &mut rng).and_then(|()| beside_fresh(&whole, &mut rng));
        held.unwrap_or_else(|what| panic!("{case}: {what}"));
    }
}

/// No second engine is needed for those that are wrong in a call that must be accepted.
#[test]
fn faulty_runs_are_found_out_beside_their_own() {
    for fault in KeptFault::RUNS {
        let mut tried = cases(&format!("keeper beside its run, {fault:?}"), 400);
        let found = tried.any(|(_, mut rng)| beside(&Keeper(*fault), &mut rng).is_err());
        assert!(found, "{fault:?} was not found out");
    }
}

/// All others are right in every such call.
#[test]
fn refusals_need_bad_input() {
    let is_other = |fault: &&KeptFault| !KeptFault::RUNS.contains(fault);
    for fault in KeptFault::HOLLOW.iter().filter(is_other) {
        for (case, mut rng) in cases(&format!("keeper of good input, {fault:?}"), 40) {
            let held = beside(&Keeper(*fault), &mut rng);
            held.unwrap_or_else(|what| panic!("{fault:?}, {case}: {what}"));
        }
    }
}

/// Why lists of calls and lent worlds are needed.
#[test]
fn some_leave_no_trace_from_a_fresh_start() {
    for fault in KeptFault::RUNS {
        let is_shown = !KeptFault::NOT_FRESH.contains(fault);
        let count = if is_shown { 400 } else { 100 };
        let mut tried = cases(&format!("keeper from a fresh start, {fault:?}"), count);
        let found = tried.any(|(_, mut rng)| beside_fresh(&Keeper(*fault), &mut rng).is_err());
        assert_eq!(found, is_shown, "{fault:?}");
    }
}

/// A machine that is wrong is wrong in its kept runs too.
#[test]
fn hollow_engines_are_found_out() {
    let of_runs = |fault: &Fault| *fault != Fault::RefusesAll;
    for fault in Fault::HOLLOW.into_iter().filter(of_runs) {
        let mut tried = cases(&format!("kept, hollow, {fault:?}"), 400);
        let found = tried.any(|(_, mut rng)| compare(&Hollow(fault), &mut rng).is_err());
        assert!(found, "{fault:?} was not found out");
    }
    for fault in BoardFault::HOLLOW {
        let mut tried = cases(&format!("kept, faulty board, {fault:?}"), 1_000);
        let found = tried.any(|(_, mut rng)| compare(&Board(*fault), &mut rng).is_err());
        assert!(found, "{fault:?} was not found out");
    }
    for fault in TouchFault::SWITCHES {
        let mut tried = cases(&format!("kept, faulty toucher, {fault:?}"), 2_000);
        let found = tried.any(|(_, mut rng)| compare(&Toucher(*fault), &mut rng).is_err());
        assert!(found, "{fault:?} was not found out");
    }
}

/// Runs two stores that are equal for the kept domain, whose log is all that is lent.
fn isolate(engine: &dyn Engine, rng: &mut Rng) -> Result<(), String> {
    let pair = StorePair::random(rng);
    let plan = pair.sketch.flat();
    let timeline = Timeline::of(&plan).expect("windows");
    let log = 8 * rng.pick(&[256, 40, 9]);
    let [first, second] = [0, 1].map(|at| {
        let world = World::new(&plan, &pair.stores[at], log);
        Trail::walk(engine, world, Observer::Keeping(pair.observer))
    });
    hold_together(&first?, &second?, &timeline, pair.observer).map(|_| ())
}

#[test]
fn leaks_are_found_out() {
    let whole = Keeper(KeptFault::None);
    for (case, mut rng) in cases("kept, whole", 100) {
        let held = isolate(&whole, &mut rng);
        held.unwrap_or_else(|what| panic!("{case}: {what}"));
    }
    for fault in KeptFault::LEAKS {
        let mut tried = cases(&format!("kept, leaking, {fault:?}"), 400);
        let found = tried.any(|(_, mut rng)| isolate(&Keeper(*fault), &mut rng).is_err());
        assert!(found, "{fault:?} was not found out");
    }
}
