//! Engines that look right but are not must be told from the reference, else
//! the comparison proves little. Document 01, "Four questions put to each
//! contract" and "Mistakes that look like savings".

mod board_faults;
mod boards;
mod bounders;
mod bounds;
mod canonical;
mod dealers;
mod deals;
mod engines;
mod faults;
mod frame_makers;
mod frames;
mod keepers;
mod kept;
mod kept_faults;
mod lateness_faults;
mod lateness_finders;
mod latest;
mod put_out;
mod touch_faults;
mod touchers;
mod touches;
mod write_faults;
mod writer_texts;
mod writers;

use engines::{Fault, Hollow};
use pirkvezo_differential::compare::{Difference, Pair};
use pirkvezo_differential::engine::{Engine, Reference};
use pirkvezo_differential::generate::lists::{random_call, random_world};
use pirkvezo_differential::generate::pairs::StorePair;
use pirkvezo_differential::generate::sketch::Sketch;
use pirkvezo_differential::generate::write::Style;
use pirkvezo_differential::isolation::{hold_together, Compared, Observer, Trail};
use pirkvezo_differential::rng::Rng;
use pirkvezo_differential::seed::cases;
use pirkvezo_differential::timeline::Timeline;
use pirkvezo_differential::world::{Call, World};

/// A reading and a list of calls with the reference and another engine.
fn compare(engine: &dyn Engine, rng: &mut Rng) -> Result<(), Difference> {
    let mut sketch = Sketch::random(rng);
    let text = sketch.fitting_text(rng, Style::Plain);
    let mut reading = Pair::new(&Reference, engine, World::blank(0));
    reading.call(&Call::Read(text))?;
    let mut pair = Pair::new(&Reference, engine, random_world(rng));
    pair.call(&Call::FreshStart)?;
    for _ in 0..12 {
        let call = random_call(rng, pair.world());
        pair.call(&call)?;
    }
    Ok(())
}

fn isolate(engine: &dyn Engine, rng: &mut Rng) -> Result<Compared, String> {
    let pair = StorePair::random(rng);
    let plan = pair.sketch.flat();
    let timeline = Timeline::of(&plan).expect("windows");
    let log = 8 * 256 * pair.sketch.members.len();
    let [first, second] = [0, 1].map(|at| {
        let world = World::new(&plan, &pair.stores[at], log);
        let trail = Trail::walk(engine, world, Observer::Asking(pair.observer));
        trail.unwrap_or_else(|what| panic!("no step is refused: {what}"))
    });
    hold_together(&first, &second, &timeline, pair.observer)
}

#[test]
fn a_whole_engine_agrees() {
    let engine = Hollow(Fault::None);
    for (case, mut rng) in cases("whole engine", 100) {
        let agreed = compare(&engine, &mut rng);
        agreed.unwrap_or_else(|difference| panic!("{case}: {difference}"));
        let isolated = isolate(&engine, &mut rng);
        isolated.unwrap_or_else(|what| panic!("{case}: {what}"));
    }
}

#[test]
fn hollow_engines_are_found_out() {
    for fault in Fault::HOLLOW {
        let engine = Hollow(fault);
        let mut tried = cases(&format!("hollow, {fault:?}"), 200);
        let found = tried.any(|(_, mut rng)| compare(&engine, &mut rng).is_err());
        assert!(found, "{fault:?} was not found out");
    }
}

#[test]
fn leaks_are_found_out() {
    for fault in Fault::LEAKS {
        let engine = Hollow(fault);
        let mut tried = cases(&format!("leaking, {fault:?}"), 200);
        let found = tried.any(|(_, mut rng)| isolate(&engine, &mut rng).is_err());
        assert!(found, "{fault:?} was not found out");
    }
}
