//! Calls of a bounder, and worlds whose scripts run out or whose windows run full:
//! document 02, E3.

use super::disturb::disturb_plan;
use super::length_near;
use super::lists::log_length;
use super::sketch::{Act, Sketch};
use crate::bound::call::BoundCall;
use crate::engine::{ANSWER, PLAN, SCRIPTS};
use crate::rng::Rng;
use crate::world::World;

/// A call with a possible plan, and the bound that it must be told. The generator
/// knows it because it puts the scripts' ends where they are.
#[derive(Clone, Debug)]
pub struct KnownBound {
    pub call: BoundCall,
    pub bound: u64,
}

impl KnownBound {
    pub fn random(rng: &mut Rng) -> Self {
        let sketch = random_sketch(rng);
        let (store, ops) = known_store(rng);
        let mut call = BoundCall::new(&sketch.flat(), &store);
        fill_answer(rng, &mut call);
        KnownBound {
            call,
            bound: ops + u64::from(sketch.run) * sketch.windows.len() as u64,
        }
    }
}

/// A call with anything in its rows: another plan, other lengths, both, or neither.
pub fn random_bound_call(rng: &mut Rng) -> BoundCall {
    let mut call = KnownBound::random(rng).call;
    if rng.one_in(3) {
        spoil_plan(rng, &mut call.plan);
    }
    if rng.one_in(3) {
        disturb_lengths(rng, &mut call);
    }
    call
}

/// Changes a plan in one or two places, or puts one in that has too many ticks and
/// no other fault.
pub fn spoil_plan(rng: &mut Rng, plan: &mut [u32]) {
    if rng.one_in(8) {
        let mut sketch = Sketch::at_the_limit(rng);
        let shortest = sketch.windows.iter_mut().min_by_key(|window| window.1);
        shortest.expect("a window").1 += 1;
        plan.copy_from_slice(&sketch.flat());
        return;
    }
    for _ in 0..1 + rng.place(2) {
        disturb_plan(rng, plan);
    }
}

/// Gives some of a call's rows another length, now and then none.
pub fn disturb_lengths(rng: &mut Rng, call: &mut BoundCall) {
    let lengths = [PLAN, SCRIPTS, ANSWER].map(|right| length_near(rng, right));
    set_lengths(rng, call, lengths);
}

/// Gives a call's plan, scripts and answer these lengths. A longer store goes on
/// with ops, and an answer holds anything.
pub fn set_lengths(rng: &mut Rng, call: &mut BoundCall, lengths: [usize; 3]) {
    call.plan.set_length(lengths[0]);
    call.scripts.set_length(lengths[1]);
    for number in call.scripts.iter_mut().skip(SCRIPTS) {
        *number = edge_op(rng);
    }
    call.answer.set_length(lengths[2]);
    fill_answer(rng, call);
}

fn fill_answer(rng: &mut Rng, call: &mut BoundCall) {
    call.answer.iter_mut().for_each(|n| *n = rng.any());
}

/// A plan that the reader accepts, now and then one of very many windows.
fn random_sketch(rng: &mut Rng) -> Sketch {
    let mut sketch = match rng.one_in(8) {
        true => Sketch::at_the_limit(rng),
        false => Sketch::random(rng),
    };
    if rng.one_in(6) {
        let domains = sketch.members.len();
        let count = rng.pick(&[31, 32, 32]);
        let mut window = || (rng.place(domains) as u32, rng.within(1..=900));
        sketch.windows = (0..count).map(|_| window()).collect();
        sketch.run = rng.pick(&[990, 999, 1_000]);
        sketch.pad = rng.within(376..=500);
    }
    sketch
}

/// A store, and how many ops stand before the ends of its scripts.
fn known_store(rng: &mut Rng) -> (Vec<u32>, u64) {
    let mut store = vec![0; SCRIPTS];
    let style = rng.below(10);
    let ops = store.chunks_mut(256).map(|script| {
        let length = match (style, rng.below(5)) {
            (0, _) => 0,
            (1, _) | (_, 0) => 256,
            (2, _) | (_, 1) => 255,
            (_, 2) => rng.place(4),
            _ => rng.place(257),
        };
        fill_script(rng, script, length);
        length as u64
    });
    let ops = ops.sum();
    (store, ops)
}

/// Puts so many ops into a script, then an end, then anything.
fn fill_script(rng: &mut Rng, script: &mut [u32], length: usize) {
    let behind = rng.below(4);
    for (place, number) in script.iter_mut().enumerate() {
        *number = match (place, behind) {
            _ if place < length => edge_op(rng),
            _ if place == length => no_op(rng),
            (_, 0) => 0,
            (_, 1) => edge_op(rng),
            (_, 2) => no_op(rng),
            _ if rng.one_in(2) => edge_op(rng),
            _ => no_op(rng),
        };
    }
}

/// An op, often at a limit of its numbers.
pub(super) fn edge_op(rng: &mut Rng) -> u32 {
    let any = rng.within(0..=65_535);
    let word = rng.pick(&[0, 1, 4_095, 4_096, 32_768, 65_535, any, any]);
    let other = rng.within(0..=7);
    let ticks = rng.within(1..=200);
    let acts = [
        Act::Read(word),
        Act::Write(word),
        Act::Send(other, word),
        Act::Receive(other),
        Act::Compute(rng.pick(&[1, 2, 199, 200, ticks])),
    ];
    rng.pick(&acts).stored()
}

/// A number that no op gives, mostly close to one that some op gives.
pub(super) fn no_op(rng: &mut Rng) -> u32 {
    let any = rng.within(0..=65_535);
    let word = rng.pick(&[0, 1, 200, 65_535, any]);
    let value = rng.pick(&[1, 2, 256, 65_535, any.max(1)]);
    let beyond = rng.pick(&[0, 201, 202, 256, 456, 65_535, any.max(201)]);
    let ticks = rng.pick(&[1, 100, 200]);
    let other = rng.within(1..=15);
    let outside = rng.pick(&[8, 9, 15]);
    let numbers = [
        0,
        0,
        // No kind, or one past the five.
        rng.within(1..=0xf_ffff),
        rng.within(0x60_0000..=0xff_ffff),
        edge_op(rng) + (rng.within(1..=255) << 24),
        u32::MAX - rng.within(0..=9),
        // Another domain where there is none, or a domain past the eight.
        rng.pick(&[0x10_0000, 0x20_0000]) + (other << 16) + word,
        0x30_0000 + (outside << 16) + word,
        0x40_0000 + (outside << 16),
        0x50_0000 + (other << 16) + ticks,
        // A value where there is none, or ticks past their limits.
        0x40_0000 + (rng.within(0..=7) << 16) + value,
        0x50_0000 + beyond,
    ];
    rng.pick(&numbers)
}

/// A world whose run does all the ops that are stored: each domain has a window
/// with time for its script and room in the log, and no others have scripts.
pub fn roomy_world(rng: &mut Rng) -> World {
    let mut sketch = Sketch::random(rng);
    let domains = sketch.members.len();
    sketch.run = rng.within(1..=12);
    sketch.windows.truncate(32 - domains);
    let long = (0..domains as u32).map(|domain| (domain, 256 * 213));
    sketch.windows.extend(long);
    rng.shuffle(&mut sketch.windows);
    let (mut store, _) = known_store(rng);
    store[256 * domains..].fill(0);
    World::new(&sketch.flat(), &store, 8 * 256 * domains)
}

/// A world whose windows are short and whose ops are cheap, so that many of them
/// fit. It has few windows in all.
pub fn narrow_world(rng: &mut Rng) -> World {
    let mut sketch = Sketch::random(rng);
    sketch.run = rng.within(1..=4);
    let longest = rng.pick(&[1, 2, 9, 60, 300]);
    for window in &mut sketch.windows {
        window.1 = rng.within(1..=longest);
    }
    let mut store = vec![0; SCRIPTS];
    for script in store.chunks_mut(256) {
        fill_narrow_script(rng, script);
    }
    World::new(&sketch.flat(), &store, log_length(rng, &sketch))
}

/// Ops of mostly one tick each, so many as there are before an end.
fn fill_narrow_script(rng: &mut Rng, script: &mut [u32]) {
    let often = rng.pick(&[3, 40, 1_000]);
    let length = rng.pick(&[2, 100, 255, 256, 256, 256]);
    for number in &mut script[..length] {
        *number = match rng.one_in(often) {
            true => edge_op(rng),
            false => Act::Compute(1).stored(),
        };
    }
}

#[cfg(test)]
mod tests {
    use super::*;

    /// The largest bound comes up, and the least.
    #[test]
    fn large_and_small_bounds() {
        let bounds = (0..4_000).map(|seed| KnownBound::random(&mut Rng::new(seed)).bound);
        let (mut least, mut most) = (u64::MAX, 0);
        for bound in bounds {
            (least, most) = (least.min(bound), most.max(bound));
        }
        assert_eq!((least, most), (1, 34_048));
    }
}
