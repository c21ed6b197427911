//! Lists of calls with one domain's part, from fresh starts and on lent worlds.

use crate::trial::Trial;
use pirkvezo_differential::engine::Kept;
use pirkvezo_differential::generate::kept::{kept_world, random_limit, tight_world};
use pirkvezo_differential::kept::{idle_domains, keep};
use pirkvezo_differential::rng::Rng;
use pirkvezo_differential::seed::cases;
use pirkvezo_differential::timeline::Timeline;
use pirkvezo_differential::world::{Call, World};

#[test]
fn lists_of_calls() {
    let mut trial = Trial::new();
    for (case, mut rng) in cases("kept, lists of calls", 6_000) {
        let (mut world, kept) = kept_world(&mut rng);
        for _ in 0..1 + rng.below(20) {
            let call = match rng.below(20) {
                0 => Call::FreshStart,
                1..=9 => Call::RunKept(kept, rng.below(4)),
                _ => Call::RunKept(kept, random_limit(&mut rng)),
            };
            trial.accept(&mut world, &call, &case);
        }
    }
    trial.finish("kept, lists of calls", &[0]);
}

/// Each call keeps another domain's log, in the same buffer.
#[test]
fn domains_by_turns() {
    let mut trial = Trial::new();
    for (case, mut rng) in cases("kept, domains by turns", 3_000) {
        let (mut world, mut kept) = kept_world(&mut rng);
        for _ in 0..1 + rng.below(20) {
            kept.domain = rng.below(world.plan[2].into()) as u32;
            let call = Call::RunKept(kept, random_limit(&mut rng).min(40));
            trial.accept(&mut world, &call, &case);
        }
    }
    trial.finish("kept, domains by turns", &[0]);
}

#[test]
fn runs_to_the_end() {
    let mut trial = Trial::new();
    for (case, mut rng) in cases("kept, runs to the end", 2_000) {
        let (mut world, kept) = kept_world(&mut rng);
        if rng.one_in(2) {
            trial.accept(&mut world, &Call::FreshStart, &case);
        }
        trial.accept(&mut world, &Call::RunKept(kept, u64::MAX), &case);
        assert_eq!(world.answer[3], 1, "{case}");
        for limit in [0, 1, u64::MAX] {
            trial.accept(&mut world, &Call::RunKept(kept, limit), &case);
            assert_eq!(world.answer[..], [0, 0, 0, 1], "{case}");
        }
    }
    trial.finish("kept, runs to the end", &[0]);
}

#[test]
fn pieces_add_up() {
    let mut trial = Trial::new();
    for (case, mut rng) in cases("kept, pieces add up", 600) {
        let (mut pieces, kept) = kept_world(&mut rng);
        let mut whole = pieces.clone();
        let mut left = rng.below(400);
        trial.accept(&mut whole, &Call::RunKept(kept, left), &case);
        while left > 0 {
            let any = 1 + rng.below(left);
            let limit = rng.pick(&[1, 1, any]);
            trial.accept(&mut pieces, &Call::RunKept(kept, limit), &case);
            left -= limit;
        }
        whole.answer = pieces.answer.clone();
        let row = pieces.first_difference(&whole);
        assert_eq!(row, None, "{case}: steps and one run differ");
    }
    trial.finish("kept, pieces add up", &[0]);
}

/// A fresh start of a world whose parts run full, with one domain's part.
fn tight_part(rng: &mut Rng) -> (World, Kept) {
    let world = tight_world(rng);
    keep(&world, rng.place(world.plan[2] as usize))
}

/// Where parts run full, step by step: another domain that is idle for want of room has a
/// switch at once in each of its windows, whatever is left of its script.
#[test]
fn others_go_idle() {
    let mut trial = Trial::new();
    let (mut idle_switches, mut runs) = (0, 0);
    for (case, mut rng) in cases("kept, others go idle", 600) {
        let (mut world, kept) = tight_part(&mut rng);
        let timeline = Timeline::of(&world.plan).expect("windows");
        runs += 1;
        loop {
            let before = world.clone();
            trial.accept(&mut world, &Call::RunKept(kept, 1), &case);
            if world.answer[2] == 0 {
                break;
            }
            let owner = timeline.window(before.state[0]).expect("a window").domain;
            if idle_domains(&before, kept.part).contains(&owner) {
                assert_eq!(
                    world.state[0],
                    before.state[0] + 1,
                    "{case}: an op was done"
                );
                idle_switches += u64::from(owner != kept.domain as usize);
            }
        }
    }
    assert!(idle_switches > 5 * runs, "{idle_switches} in {runs} runs");
    trial.finish("kept, others go idle", &[0]);
}
