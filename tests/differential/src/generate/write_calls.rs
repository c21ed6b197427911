//! Calls of a writer: plans and stores that no text gives, texts of as many bytes as
//! there may be, buffers and rows of other lengths. Document 02, E4.

use super::bounds::{edge_op, no_op, spoil_plan};
use super::canonical::{canonical, short_sketch};
use super::length_near;
use super::sized::sketch_of_bytes;
use super::sketch::Sketch;
use super::stores::odd_number;
use super::write::LONGEST;
use crate::canonical::call::WriteCall;
use crate::engine::{ANSWER, PLAN, SCRIPTS};
use crate::rng::Rng;

/// A call with anything in its rows: a plan or a store that no text gives, other
/// lengths, a buffer without room, mostly one of them.
pub fn random_write_call(rng: &mut Rng) -> WriteCall {
    let sketch = short_sketch(rng);
    let mut call = lent_to_write(rng, &sketch);
    let [plan, store, lengths] = match rng.below(12) {
        0..=2 => [true, false, false],
        3..=6 => [false, true, false],
        7 | 8 => [false, false, true],
        9 => [(); 3].map(|()| rng.one_in(2)),
        _ => [false; 3],
    };
    if plan {
        spoil_plan(rng, &mut call.plan);
    }
    if store {
        spoil_store(rng, sketch.members.len(), &mut call.scripts);
    }
    if lengths {
        disturb_lengths(rng, &mut call);
    }
    call
}

/// A call that lends what a text of this sketch gives, and a buffer of a length that
/// is near the text's.
pub fn lent_to_write(rng: &mut Rng, sketch: &Sketch) -> WriteCall {
    let room = room_near(rng, canonical(sketch).len());
    let mut call = WriteCall::new(&sketch.flat(), &sketch.store(), room);
    fill(rng, &mut call);
    call
}

/// A call whose text has as many bytes as a text may have, or a few more or less.
pub fn call_near_the_limit(rng: &mut Rng) -> WriteCall {
    let over = rng.pick(&[-1, 0, 0, 0, 1, 1, 1, 2, 900]);
    let bytes = LONGEST.strict_add_signed(over);
    let sketch = sketch_of_bytes(rng, bytes);
    let room = rng.pick(&[0, bytes - 1, bytes, LONGEST, 40_000]);
    let mut call = WriteCall::new(&sketch.flat(), &sketch.store(), room);
    fill(rng, &mut call);
    call
}

/// A length of a buffer, where the text needs so many bytes: mostly enough.
fn room_near(rng: &mut Rng, needed: usize) -> usize {
    match rng.below(10) {
        0 => rng.pick(&[0, 1, needed / 2]),
        1 => needed - 1,
        2 => rng.place(needed),
        3..=5 => needed,
        6 => needed + 1,
        7 => rng.pick(&[LONGEST - 1, LONGEST, LONGEST + 1, 40_000]),
        _ => needed + rng.place(100),
    }
}

/// Puts a number into a store, or several, mostly where no text would put them.
pub fn spoil_store(rng: &mut Rng, domains: usize, store: &mut [u32]) {
    let count = rng.pick(&[1, 1, 1, 2, 3]);
    for _ in 0..count {
        let place = place_to_spoil(rng, domains, store);
        store[place] = match rng.below(8) {
            0 => odd_number(rng),
            1 => no_op(rng),
            2 => 0,
            3 | 4 => edge_op(rng),
            _ => almost_op(rng),
        };
    }
}

/// A place at a script's end or close behind it, the last place of a script, one of
/// an undeclared domain, or any.
fn place_to_spoil(rng: &mut Rng, domains: usize, store: &[u32]) -> usize {
    let part = 256 * rng.place(domains);
    let script = store[part..part + 256].iter();
    let end = part + script.take_while(|number| **number != 0).count();
    let last = part + 255;
    match rng.below(12) {
        0..=4 => last.min(end),
        5 => last.min(end + 1),
        6 => last.min(end + 2 + rng.place(9)),
        7 => last,
        8 => part + rng.place(end - part + 1).min(255),
        9 | 10 if domains < 8 => {
            let (domain, place) = (domains + rng.place(8 - domains), rng.place(256));
            256 * rng.pick(&[domains, 7, domain]) + rng.pick(&[0, 1, 255, place])
        }
        _ => rng.place(SCRIPTS),
    }
}

/// A number that is one step away from an op.
fn almost_op(rng: &mut Rng) -> u32 {
    let word = rng.within(0..=65_535);
    let (known, unknown) = (rng.within(0..=7) << 16, rng.within(8..=15) << 16);
    let other = rng.within(1..=15) << 16;
    let numbers = [
        0x10_0000 | other | word,
        0x20_0000 | other | word,
        0x30_0000 | unknown | word,
        0x40_0000 | unknown,
        0x40_0000 | known | word.max(1),
        0x50_0000,
        0x50_0000 | rng.pick(&[201, 256, 457, word.max(201)]),
        0x50_0000 | other | 1,
        0x60_0000 | rng.pick(&[0, 1, word]),
        0x100_0000 | edge_op(rng),
    ];
    rng.pick(&numbers)
}

/// Gives some of a call's rows another length, now and then none.
pub fn disturb_lengths(rng: &mut Rng, call: &mut WriteCall) {
    let lengths = [PLAN, SCRIPTS, ANSWER].map(|right| length_near(rng, right));
    set_lengths(rng, call, lengths);
}

/// Gives a call's plan, scripts and answer these lengths. A longer store goes on
/// with ops or with nothing.
pub fn set_lengths(rng: &mut Rng, call: &mut WriteCall, lengths: [usize; 3]) {
    call.plan.set_length(lengths[0]);
    call.scripts.set_length(lengths[1]);
    if rng.one_in(2) {
        for number in call.scripts.iter_mut().skip(SCRIPTS) {
            *number = edge_op(rng);
        }
    }
    call.answer.set_length(lengths[2]);
    fill(rng, call);
}

/// What buffer and answer held before must be kept or must not matter.
fn fill(rng: &mut Rng, call: &mut WriteCall) {
    call.out.iter_mut().for_each(|byte| *byte = rng.any() as u8);
    call.answer.iter_mut().for_each(|n| *n = rng.any());
}
