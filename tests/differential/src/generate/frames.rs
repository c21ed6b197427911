//! Calls of a frame maker: document 02, E1.

use super::length_near;
use crate::engine::{ANSWER, FRAME, WEIGHTS};
use crate::frame::call::FrameCall;
use crate::rng::Rng;
use std::array;

/// A call whose rows have the right lengths, and hold anything where they are
/// only written.
pub fn random_frame_call(rng: &mut Rng) -> FrameCall {
    let count = random_count(rng);
    let mut weights = random_weights(rng);
    if rng.one_in(12) {
        weights[rng.place(WEIGHTS)] = beyond_the_limit(rng);
    }
    let mut call = FrameCall::new(count, weights);
    fill(rng, &mut call);
    call
}

/// Gives some of a call's rows another length, now and then none.
pub fn disturb_lengths(rng: &mut Rng, call: &mut FrameCall) {
    let lengths = [WEIGHTS, FRAME, ANSWER].map(|right| length_near(rng, right));
    set_lengths(rng, call, lengths);
}

/// Gives a call's weights, frame and answer these lengths. A longer row of
/// weights goes on with weights, and frame and answer hold anything.
pub fn set_lengths(rng: &mut Rng, call: &mut FrameCall, lengths: [usize; 3]) {
    call.weights.set_length(lengths[0]);
    for weight in call.weights.iter_mut().skip(WEIGHTS) {
        *weight = rng.within(0..=1_001);
    }
    call.frame.set_length(lengths[1]);
    call.answer.set_length(lengths[2]);
    fill(rng, call);
}

fn fill(rng: &mut Rng, call: &mut FrameCall) {
    call.frame.iter_mut().for_each(|n| *n = rng.any() as u32);
    call.answer.iter_mut().for_each(|n| *n = rng.any());
}

fn random_count(rng: &mut Rng) -> u32 {
    match rng.below(20) {
        0 => rng.pick(&[0, 33]),
        1 => rng.pick(&[34, 64, 256, 257, 288, 65_536, 65_543, 1 << 31, u32::MAX]),
        2 => rng.any() as u32 >> rng.below(32),
        3 => rng.pick(&[1, 31, 32]),
        _ => rng.within(1..=32),
    }
}

/// Weights within their limits, at times all 0. Equal remainders are rare where
/// all weights are drawn evenly, so most styles are made to have them.
fn random_weights(rng: &mut Rng) -> [u32; WEIGHTS] {
    match rng.below(8) {
        0 => array::from_fn(|_| rng.within(0..=1_000)),
        1 => array::from_fn(|_| rng.pick(&[0, 1, 2, 499, 500, 501, 998, 999, 1_000])),
        2 => mostly_zeros(rng),
        3 => one_large(rng),
        4 => whole_quotas(rng),
        5 => {
            let base = rng.within(0..=998);
            array::from_fn(|_| base + rng.within(0..=2))
        }
        6 => {
            let few = [rng.within(0..=1_000), rng.within(0..=1_000), 0];
            array::from_fn(|_| rng.pick(&few))
        }
        _ => {
            let scale = rng.pick(&[1, 1, 7, 50, 125]);
            let most = rng.pick(&[1, 2, 3, 5, 8]);
            array::from_fn(|_| scale * rng.within(0..=most))
        }
    }
}

fn mostly_zeros(rng: &mut Rng) -> [u32; WEIGHTS] {
    array::from_fn(|_| match rng.one_in(4) {
        true => rng.within(0..=1_000),
        false => 0,
    })
}

/// One weight beside which the others come to less than a window.
fn one_large(rng: &mut Rng) -> [u32; WEIGHTS] {
    let mut weights = array::from_fn(|_| rng.within(0..=3));
    weights[rng.place(WEIGHTS)] = rng.within(990..=1_000);
    weights
}

/// Weights in proportion to a deal of some windows: a frame of as many windows
/// has no leftovers.
fn whole_quotas(rng: &mut Rng) -> [u32; WEIGHTS] {
    let windows = rng.within(1..=32);
    let factor = rng.within(1..=31);
    let mut weights = [0; WEIGHTS];
    for _ in 0..windows {
        weights[rng.place(WEIGHTS)] += factor;
    }
    weights
}

fn beyond_the_limit(rng: &mut Rng) -> u32 {
    let any = rng.any() as u32 >> rng.below(22);
    let edges = [1_001, 1_001, 1_002, 65_536, 65_537, 1 << 31, u32::MAX];
    match rng.one_in(4) {
        true => any.max(1_001),
        false => rng.pick(&edges),
    }
}
