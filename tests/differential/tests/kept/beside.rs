//! The request's own words: handed the same otherwise, and a buffer equal to the part of
//! everyone's log, a kept run leaves what the run with everyone's log leaves. Asked of each
//! engine by itself, for every declared domain.

use pirkvezo_differential::engine::{under_test, Engine, Reference};
use pirkvezo_differential::generate::disturb::disturb;
use pirkvezo_differential::generate::kept::{any_world, random_limit, tight_world};
use pirkvezo_differential::generate::lists::random_world;
use pirkvezo_differential::generate::put_out::put_out_world;
use pirkvezo_differential::generate::scatter::scatter;
use pirkvezo_differential::kept::{room, Beside};
use pirkvezo_differential::rng::Rng;
use pirkvezo_differential::seed::cases;
use pirkvezo_differential::world::{Call, World};
use std::collections::BTreeMap;
use std::io::Write;

/// What was held beside what.
#[derive(Debug, Default)]
struct Count {
    /// Runs with everyone's log, by the number that they returned.
    runs: BTreeMap<u32, u64>,
    /// Kept runs beside them.
    kept: u64,
    /// Kept runs at the end of which another domain was idle for want of room.
    idle: u64,
}

impl Count {
    /// Makes a run with everyone's log, and one for each domain that keeps its log.
    fn run(&mut self, beside: &mut Beside, limit: u64) -> Result<(), String> {
        let number = beside.run(limit)?;
        *self.runs.entry(number).or_default() += 1;
        self.kept += u64::from(beside.whole().plan[2]);
        if number == 0 {
            self.idle += beside.idle_beside();
        }
        Ok(())
    }
}

/// Makes the same cases with each engine by itself.
fn each_alone(
    test: &str,
    count: u64,
    numbers: &[u32],
    each: impl Fn(&dyn Engine, &mut Rng, &mut Count) -> Result<(), String>,
) -> Count {
    let engines: [Box<dyn Engine>; 2] = [Box::new(Reference), under_test()];
    let mut counts = Count::default();
    for (case, rng) in cases(test, count) {
        for engine in &engines {
            let held = each(&**engine, &mut rng.clone(), &mut counts);
            held.unwrap_or_else(|what| panic!("{case}: {}: {what}", engine.name()));
        }
    }
    let _ = writeln!(std::io::stderr(), "{test}: {counts:?}");
    assert!(counts.runs.keys().eq(numbers), "{test}: {counts:?}");
    counts
}

fn beside(engine: &dyn Engine, world: World) -> Beside<'_> {
    Beside::new(engine, world).expect("a number of domains")
}

/// Where the run is refused, so is every kept run, with the same number.
#[test]
fn refused_together() {
    let numbers = [0, 11, 12, 13, 14];
    each_alone("beside, refused", 4_000, &numbers, |engine, rng, count| {
        let mut world = any_world(rng);
        disturb(rng, &mut world);
        if room(&world).is_none() {
            // Nobody knows then what a part would be.
            return Ok(());
        }
        count.run(&mut beside(engine, world), random_limit(rng))
    });
}

#[test]
fn from_fresh_starts() {
    each_alone("beside, fresh", 2_000, &[0], |engine, rng, count| {
        let mut beside = beside(engine, random_world(rng));
        beside.fresh_start()?;
        count.run(&mut beside, random_limit(rng))
    });
}

/// A run with everyone's log has come some way before the first kept run.
#[test]
fn from_reached_worlds() {
    each_alone("beside, reached", 2_000, &[0], |engine, rng, count| {
        let mut world = match rng.one_in(2) {
            true => random_world(rng),
            false => tight_world(rng),
        };
        let limit = rng.below(300);
        for call in [Call::FreshStart, Call::Run(limit)] {
            world.accept(engine, &call)?;
        }
        count.run(&mut beside(engine, world), random_limit(rng))
    });
}

/// Worlds that no run need have reached, with dirty lines to be put out among them.
#[test]
fn from_lent_worlds() {
    each_alone("beside, lent", 3_000, &[0], |engine, rng, count| {
        let mut world = match rng.below(3) {
            0 => random_world(rng),
            1 => tight_world(rng),
            _ => put_out_world(rng),
        };
        if rng.one_in(2) {
            scatter(rng, &mut world);
        } else {
            world.accept(engine, &Call::FreshStart)?;
        }
        count.run(&mut beside(engine, world), random_limit(rng))
    });
}

/// Parts with little room: most kept runs have idle domains beside the kept one.
#[test]
fn full_parts() {
    let counts = each_alone("beside, full", 2_000, &[0], |engine, rng, count| {
        let mut beside = beside(engine, tight_world(rng));
        beside.fresh_start()?;
        count.run(&mut beside, u64::MAX)
    });
    assert!(4 * counts.idle > 3 * counts.kept, "{counts:?}");
}

/// A list of runs, and for each domain the same list of kept runs.
#[test]
fn lists_beside_lists() {
    let counts = each_alone("beside, lists", 1_000, &[0], |engine, rng, count| {
        let mut beside = beside(engine, any_world(rng));
        for _ in 0..1 + rng.below(24) {
            match rng.one_in(20) {
                true => beside.fresh_start()?,
                false => {
                    let any = random_limit(rng);
                    count.run(&mut beside, rng.pick(&[1, 1, 2, 7, any]))?;
                }
            }
        }
        count.run(&mut beside, u64::MAX)
    });
    assert!(4 * counts.idle > counts.kept, "{counts:?}");
}
