//! Lists of calls, on worlds that a run reaches, on worlds that none reaches, and
//! on damaged ones. Document 01, "Window, switch, run" and "Two lists of calls".

use pirkvezo_differential::compare::{Difference, Pair};
use pirkvezo_differential::engine::{under_test, Reference};
use pirkvezo_differential::generate::disturb::disturb;
use pirkvezo_differential::generate::lists::{random_call, random_world};
use pirkvezo_differential::generate::scatter::scatter;
use pirkvezo_differential::rng::Rng;
use pirkvezo_differential::seed::{cases, Case};
use pirkvezo_differential::tally::Tally;
use pirkvezo_differential::world::{Call, World};

/// Two engines and the list so far, for the message of a difference.
struct Trial<'a> {
    pair: Pair<'a>,
    case: Case,
    tally: &'a mut Tally,
}

impl Trial<'_> {
    fn call(&mut self, call: &Call) -> u32 {
        let number = self.pair.call(call);
        let number = number.unwrap_or_else(|difference: Difference| {
            panic!("{}: {difference}", self.case);
        });
        self.tally.note(call, number);
        number
    }

    /// Makes a call that document 01 says is not refused.
    fn accept(&mut self, call: &Call) {
        let number = self.call(call);
        assert_eq!(number, 0, "{}: {call:?} was refused", self.case);
    }
}

/// Runs one test's cases, each on its own world.
fn trials(test: &str, count: u64, mut each: impl FnMut(&mut Trial, &mut Rng)) -> Tally {
    let other = under_test();
    let mut tally = Tally::default();
    for (case, mut rng) in cases(test, count) {
        let world = random_world(&mut rng);
        let mut trial = Trial {
            pair: Pair::new(&Reference, &*other, world),
            case,
            tally: &mut tally,
        };
        each(&mut trial, &mut rng);
    }
    tally.print(test);
    tally
}

#[test]
fn lists_of_calls() {
    let tally = trials("lists of calls", 6_000, |trial, rng| {
        trial.accept(&Call::FreshStart);
        for _ in 0..rng.below(30) {
            match random_call(rng, trial.pair.world()) {
                // A reading would change the plan, which stays the same in a list.
                Call::Read(_) => {}
                Call::Log(domain) if domain >= trial.pair.world().plan[2] => {
                    assert_eq!(trial.call(&Call::Log(domain)), 4);
                }
                call => trial.accept(&call),
            }
        }
    });
    for kind in ["fresh start", "step", "run"] {
        tally.assert_met(kind, &[0]);
    }
    tally.assert_met("log", &[0, 4]);
}

#[test]
fn runs_to_the_end() {
    trials("runs to the end", 2_000, |trial, _| {
        trial.accept(&Call::FreshStart);
        trial.accept(&Call::Run(u64::MAX));
        assert_eq!(trial.pair.world().answer[3], 1);
        for call in [Call::Run(0), Call::Step, Call::Run(u64::MAX)] {
            trial.accept(&call);
            assert_eq!(trial.pair.world().answer[..], [0, 0, 0, 1]);
        }
    });
}

#[test]
fn pieces_add_up() {
    trials("pieces add up", 600, |trial, rng| {
        trial.accept(&Call::FreshStart);
        let fresh = trial.pair.world().clone();
        let limit = rng.below(400);
        trial.accept(&Call::Run(limit));
        let mut whole = trial.pair.world().clone();
        *trial.pair.world_mut() = fresh;
        let mut left = limit;
        while left > 0 {
            let call = match rng.below(3) {
                0 => Call::Run(1 + rng.below(left)),
                _ => Call::Step,
            };
            left -= match call {
                Call::Run(limit) => limit,
                _ => 1,
            };
            trial.accept(&call);
        }
        let pieces = trial.pair.world();
        whole.answer = pieces.answer.clone();
        assert_eq!(
            pieces.first_difference(&whole),
            None,
            "{}: steps and one run differ",
            trial.case
        );
    });
}

#[test]
fn scattered_worlds() {
    let tally = trials("scattered worlds", 8_000, |trial, rng| {
        scatter(rng, trial.pair.world_mut());
        for _ in 0..1 + rng.below(6) {
            let limit = rng.pick(&[0, 1, 2, 30, 700, u64::MAX]);
            match rng.one_in(2) {
                true => trial.accept(&Call::Step),
                false => trial.accept(&Call::Run(limit)),
            }
        }
        let domains = trial.pair.world().plan[2];
        for domain in 0..domains {
            trial.accept(&Call::Log(domain));
        }
    });
    tally.assert_met("step", &[0]);
    tally.assert_met("run", &[0]);
}

#[test]
fn disturbed_worlds() {
    let tally = trials("disturbed worlds", 6_000, |trial, rng| {
        match rng.one_in(2) {
            true => scatter(rng, trial.pair.world_mut()),
            false => trial.accept(&Call::FreshStart),
        }
        for _ in 0..20 {
            let before = trial.pair.world().clone();
            disturb(rng, trial.pair.world_mut());
            for _ in 0..1 + rng.below(3) {
                let call = random_call(rng, trial.pair.world());
                trial.call(&call);
            }
            if rng.one_in(8) {
                continue_from(trial.pair.world_mut(), before);
                let limit = rng.below(50);
                trial.call(&Call::Run(limit));
            } else if !rng.one_in(6) {
                *trial.pair.world_mut() = before;
            }
        }
    });
    tally.assert_met("fresh start", &[0, 11, 12]);
    tally.assert_met("step", &[0, 11, 12, 13, 14]);
    tally.assert_met("run", &[0, 11, 12, 13, 14]);
    tally.assert_met("log", &[0, 4, 11, 12, 14]);
}

/// Puts the lengths and the plan right again but keeps what else was changed.
fn continue_from(world: &mut World, before: World) {
    world.state.set_length(18);
    world.cache.set_length(272);
    world.boxes.set_length(64);
    world.scripts.set_length(2_048);
    world.plan = before.plan;
    world.answer = before.answer;
}
