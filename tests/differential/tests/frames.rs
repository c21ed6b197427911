//! Frames by weights: every small one, random ones, and rows of another length.
//! Document 02, E1.

use pirkvezo_differential::engine::{frame_maker_under_test, FrameMaker, Reference};
use pirkvezo_differential::frame::call::FrameCall;
use pirkvezo_differential::frame::compare::compare;
use pirkvezo_differential::generate::frames::{disturb_lengths, random_frame_call, set_lengths};
use pirkvezo_differential::rng::Rng;
use pirkvezo_differential::seed::cases;
use pirkvezo_differential::tally::Tally;
use std::fmt::Display;

/// The library beside the reference, and what the calls so far came to.
struct Trial {
    library: Box<dyn FrameMaker>,
    tally: Tally,
}

impl Trial {
    fn new() -> Self {
        Trial {
            library: frame_maker_under_test(),
            tally: Tally::default(),
        }
    }

    /// Makes a call with both; gives the number that both returned.
    fn call(&mut self, call: &FrameCall, context: &dyn Display) -> u32 {
        match compare([&Reference, &*self.library], call) {
            Ok(number) => {
                self.tally.note_kind("frame", number);
                number
            }
            Err(difference) => panic!("{context}: {difference}"),
        }
    }

    /// Every count up to one past the most, with every choice of these weights
    /// for these domains, the others having 0.
    fn every_choice(&mut self, weights: &[u32], domains: &[usize]) {
        for choice in 0..weights.len().pow(domains.len() as u32) {
            let mut chosen = [0; 8];
            let mut rest = choice;
            for domain in domains {
                chosen[*domain] = weights[rest % weights.len()];
                rest /= weights.len();
            }
            for count in 0..=33 {
                self.call(&FrameCall::new(count, chosen), &"every choice");
            }
        }
    }

    /// Asserts that exactly these numbers were returned, and prints how often.
    fn finish(&self, test: &str, numbers: &[u32]) {
        self.tally.assert_met("frame", numbers);
        self.tally.print(test);
    }
}

/// What both makers leave of a frame, from an answer and a frame that hold
/// something else.
fn made(count: u32, first: &[u32]) -> [(u32, Vec<u32>); 2] {
    let mut weights = [0; 8];
    weights[..first.len()].copy_from_slice(first);
    let makers: [Box<dyn FrameMaker>; 2] = [Box::new(Reference), frame_maker_under_test()];
    makers.map(|maker| {
        let (number, after) = FrameCall::new(count, weights).made_by(&*maker);
        assert_eq!(after.answer[..], [u64::from(number), 0, 0, 0]);
        (number, after.frame.to_vec())
    })
}

#[test]
fn fixed_frames() {
    let turns = [
        &[0, 1, 2, 3][..],
        &[0, 1, 2].repeat(4),
        &[0, 1].repeat(5),
        &[0; 6],
    ];
    let frames: [(u32, &[u32], &[u32]); 6] = [
        (7, &[3, 2, 2], &[0, 1, 2, 0, 1, 2, 0]),
        (10, &[1; 3], &[0, 1, 2, 0, 1, 2, 0, 1, 2, 0]),
        (32, &[500, 300, 150, 50], &turns.concat()),
        (5, &[0, 0, 7, 0, 0, 0, 0, 1], &[2, 7, 2, 2, 2]),
        (1, &[1; 8], &[0]),
        (6, &[1_000, 1, 1], &[0; 6]),
    ];
    for (count, weights, laid) in frames {
        let mut frame = laid.to_vec();
        frame.resize(32, 0);
        for made in made(count, weights) {
            assert_eq!(made, (0, frame.clone()), "{count} by {weights:?}");
        }
    }
}

#[test]
fn fixed_refusals() {
    let refusals: [(u32, &[u32]); 8] = [
        (0, &[1]),
        (33, &[1]),
        (u32::MAX, &[1]),
        (1, &[]),
        (32, &[1_001]),
        (1, &[1, 0, 0, 0, 0, 0, 0, 1_001]),
        (1, &[1, u32::MAX]),
        (0, &[]),
    ];
    for (count, weights) in refusals {
        for made in made(count, weights) {
            assert_eq!(made, (15, vec![0; 32]), "{count} by {weights:?}");
        }
    }
}

#[test]
fn small_weights_of_all_domains() {
    let mut trial = Trial::new();
    trial.every_choice(&[0, 1, 2, 3], &[0, 1, 2, 3, 4, 5, 6, 7]);
    trial.finish("small weights of all domains", &[0, 15]);
}

#[test]
fn small_weights_of_some_domains() {
    let mut trial = Trial::new();
    trial.every_choice(&[0, 1, 2, 3, 4, 5, 6], &[0, 2, 5, 7]);
    trial.every_choice(&Vec::from_iter(0..=40), &[3, 4]);
    trial.finish("small weights of some domains", &[0, 15]);
}

#[test]
fn weights_at_their_limits() {
    let mut trial = Trial::new();
    trial.every_choice(&[0, 1, 3, 333, 500, 999, 1_000], &[1, 2, 4, 6]);
    trial.every_choice(&[0, 1, 999, 1_000, 1_001, u32::MAX], &[0, 4, 7]);
    for domain in 0..8 {
        trial.every_choice(&Vec::from_iter(0..=1_005), &[domain]);
    }
    trial.finish("weights at their limits", &[0, 15]);
}

#[test]
fn random_frames() {
    let mut trial = Trial::new();
    for (case, mut rng) in cases("random frames", 1_000_000) {
        trial.call(&random_frame_call(&mut rng), &case);
    }
    trial.finish("random frames", &[0, 15]);
}

#[test]
fn random_lengths() {
    let mut trial = Trial::new();
    for (case, mut rng) in cases("random lengths of rows", 60_000) {
        let mut call = random_frame_call(&mut rng);
        disturb_lengths(&mut rng, &mut call);
        let number = trial.call(&call, &case);
        assert_eq!(number == 11, !call.has_right_lengths(), "{case}");
    }
    trial.finish("random lengths of rows", &[0, 11, 15]);
}

/// Each row in turn, and several at once, shorter, longer and empty; with numbers
/// that give a frame and with numbers that are 15.
#[test]
fn other_lengths() {
    let mut trial = Trial::new();
    let mut rng = Rng::new(15);
    let numbers = [(7, 3), (32, 1_000), (0, 1), (33, 1), (7, 0), (7, 1_001)];
    for weights in [0, 1, 4, 7, 8, 9, 16, 32] {
        for frame in [0, 1, 8, 16, 31, 32, 33, 64] {
            for answer in [0, 1, 2, 3, 4, 5, 8, 32] {
                for (count, weight) in numbers {
                    let mut call = FrameCall::new(count, [weight; 8]);
                    set_lengths(&mut rng, &mut call, [weights, frame, answer]);
                    let right = [weights, frame, answer] == [8, 32, 4];
                    let number = trial.call(&call, &"other lengths");
                    assert_eq!(number == 11, !right);
                }
            }
        }
    }
    trial.finish("other lengths", &[0, 11, 15]);
}
