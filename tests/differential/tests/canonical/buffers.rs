//! Buffers of every length, and texts of as many bytes as there may be and of more.

use crate::trial::{assert_told, Trial, BACK, REFERENCE, TEXT};
use pirkvezo_differential::canonical::call::WriteCall;
use pirkvezo_differential::canonical::subject::Given;
use pirkvezo_differential::engine::{ANSWER, PLAN, SCRIPTS};
use pirkvezo_differential::generate::bounds::spoil_plan;
use pirkvezo_differential::generate::canonical::{canonical, short_sketch};
use pirkvezo_differential::generate::sized::sketch_of_bytes;
use pirkvezo_differential::generate::sketch::Act;
use pirkvezo_differential::generate::write::LONGEST;
use pirkvezo_differential::generate::write_calls::{
    call_near_the_limit, disturb_lengths, spoil_store,
};
use pirkvezo_differential::seed::cases;

/// The answer that is due to a plan and scripts whose text has so many bytes.
fn due(bytes: usize, room: usize) -> [u64; ANSWER] {
    match (bytes > LONGEST, room < bytes) {
        (true, _) => [12, 0, 0, 0],
        (_, true) => [17, bytes as u64, 0, 0],
        _ => [0, 0, bytes as u64, 0],
    }
}

#[test]
fn fixed_buffers() {
    for length in [0, 1, 100, 202] {
        assert_told(|call| call.out.set_length(length), [17, 203, 0, 0]);
    }
    for length in [203, 204, 1_000, 32_768, 40_000] {
        assert_told(|call| call.out.set_length(length), [0, 0, 203, 0]);
    }
    // One op more, and one op less.
    let more = |call: &mut WriteCall| call.scripts[3] = 0x30_5000;
    assert_told(more, [0, 0, 203 + 21, 0]);
    assert_told(|call| call.scripts[257] = 0, [0, 0, 203 - 17, 0]);
}

#[test]
fn every_length_of_a_buffer() {
    let mut trial = Trial::new();
    let Given { plan, scripts } = REFERENCE.read(TEXT.as_bytes()).expect("an accepted text");
    for room in 0..=300 {
        let call = WriteCall::new(&plan, &scripts, room);
        trial.answer(&call, due(BACK.len(), room), &room);
    }
    trial.finish("every length of a buffer", &[0, 17]);
}

/// Buffers close to what is needed. The generator knows how much that is.
#[test]
fn lengths_of_buffers() {
    let mut trial = Trial::new();
    for (case, mut rng) in cases("lengths of buffers", 1_000) {
        let sketch = short_sketch(&mut rng);
        let needed = canonical(&sketch).len();
        let (some, more) = (rng.place(needed), needed + 2 + rng.place(99));
        for room in [0, some, needed - 1, needed, needed + 1, more] {
            let call = WriteCall::new(&sketch.flat(), &sketch.store(), room);
            trial.answer(&call, due(needed, room), &case);
        }
    }
    trial.finish("lengths of buffers", &[0, 17]);
}

/// Texts of exactly the most bytes, and of some more and some less.
#[test]
fn texts_at_the_limit() {
    let mut trial = Trial::new();
    for (case, mut rng) in cases("texts at the limit", 6) {
        for bytes in LONGEST - 3..=LONGEST + 3 {
            let sketch = sketch_of_bytes(&mut rng, bytes);
            let (plan, store) = (sketch.flat(), sketch.store());
            for room in [0, 32_767, bytes - 1, bytes, 40_000] {
                let call = WriteCall::new(&plan, &store, room);
                trial.answer(&call, due(bytes, room), &case);
            }
            // The reader sets the same limit to the text itself.
            let text = canonical(&sketch);
            assert_eq!(trial.back(&text, &case).is_some(), bytes <= LONGEST);
        }
    }
    trial.finish("texts at the limit", &[0, 12, 17]);
}

#[test]
fn random_calls_near_the_limit() {
    let mut trial = Trial::new();
    for (case, mut rng) in cases("writings near the limit", 150) {
        let mut call = call_near_the_limit(&mut rng);
        match rng.below(8) {
            0 => spoil_plan(&mut rng, &mut call.plan),
            1 => spoil_store(&mut rng, 8, &mut call.scripts),
            2 => disturb_lengths(&mut rng, &mut call),
            _ => {}
        }
        trial.call(&call, &case);
    }
    trial.finish("writings near the limit", &[0, 11, 12, 17]);
}

/// Stores full of one op, of the shortest line and of longer ones, and the number
/// of scripts that fit. Domains, a window, pad and run take 246 bytes.
#[test]
fn full_stores() {
    let mut trial = Trial::new();
    let mut plan = [0; PLAN];
    plan[..4].copy_from_slice(&[376, 1, 8, 1]);
    plan[4..12].fill(99);
    (plan[20], plan[52]) = (7, 1);
    let masks = plan[84..].iter_mut().enumerate();
    masks.for_each(|(domain, mask)| *mask = 1 << domain);
    let ops = [
        (Act::Read(9), 15),
        (Act::Write(0), 16),
        (Act::Receive(7), 18),
        (Act::Compute(200), 20),
        (Act::Send(7, 65_535), 21),
    ];
    for (act, size) in ops {
        for scripts in 0..=8 {
            let mut store = [0; SCRIPTS];
            store[..256 * scripts].fill(act.stored());
            let bytes = 246 + 256 * scripts * size;
            for room in [0, 32_768, 65_536] {
                let call = WriteCall::new(&plan, &store, room);
                trial.answer(&call, due(bytes, room), &bytes);
            }
        }
    }
    trial.finish("full stores", &[0, 12, 17]);
}
