//! Lists of calls: document 01, "Two lists of calls".

use super::sketch::Sketch;
use super::stores::random_store;
use super::write::Style;
use crate::rng::Rng;
use crate::world::{Call, World};

/// A world with an accepted plan, its scripts, and rows that hold anything until
/// a fresh start.
pub fn random_world(rng: &mut Rng) -> World {
    let sketch = match rng.one_in(20) {
        true => Sketch::at_the_limit(rng),
        false => Sketch::random(rng),
    };
    let scripts = match rng.one_in(2) {
        true => sketch.store(),
        false => random_store(rng, &sketch),
    };
    let mut world = World::new(&sketch.flat(), &scripts, log_length(rng, &sketch));
    let anything = |number: &mut u64| *number = rng.any();
    world.state.iter_mut().for_each(anything);
    world.cache.iter_mut().for_each(|n| *n = rng.any() as u16);
    world.boxes.iter_mut().for_each(|n| *n = rng.any() as u32);
    world.log.iter_mut().for_each(|n| *n = rng.any() as u8);
    world
}

/// Lengths with much room, little room, none, and some bytes left over.
pub(super) fn log_length(rng: &mut Rng, sketch: &Sketch) -> usize {
    let records = match rng.below(6) {
        0 => 0,
        1 => rng.place(4),
        2 => 256,
        3 => 255,
        _ => rng.place(300),
    };
    8 * sketch.members.len() * records + rng.place(8 * sketch.members.len())
}

/// One call that a user may make at any time.
pub fn random_call(rng: &mut Rng, world: &World) -> Call {
    match rng.below(24) {
        0 => Call::FreshStart,
        1..=7 => Call::Step,
        8..=10 => Call::Run(rng.below(8)),
        11..=13 => Call::Run(rng.below(60)),
        14 => Call::Run(rng.below(1_000)),
        15 => Call::Run(rng.pick(&[0, 1])),
        16 => Call::Run(rng.pick(&[34_048, 1 << 32, u64::MAX - 1, u64::MAX])),
        17 => Call::Read(some_text(rng)),
        18 => Call::Log(rng.any() as u32),
        19 => Call::Log(world.plan.get(2).copied().unwrap_or(9)),
        _ => Call::Log(rng.within(0..=8)),
    }
}

/// A text to read into a world that is in use.
fn some_text(rng: &mut Rng) -> Vec<u8> {
    let mut sketch = Sketch::random(rng);
    let mut text = sketch.fitting_text(rng, Style::Tight);
    if rng.one_in(2) {
        super::mutate::mutate(rng, &mut text);
    }
    text
}
