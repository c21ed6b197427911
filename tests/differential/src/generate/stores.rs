//! Script stores that no text need have given: document 01, "The plan text".

use super::habits::Habits;
use super::sketch::Sketch;
use crate::engine::SCRIPTS;
use crate::rng::Rng;

/// A store whose numbers are mostly ops of the sketch's domains.
pub fn random_store(rng: &mut Rng, sketch: &Sketch) -> Vec<u32> {
    let mut store = vec![0; SCRIPTS];
    let oddity = rng.pick(&[0, 0, 40, 8]);
    for domain in 0..8 {
        fill_script(rng, sketch, domain, &mut store, oddity);
    }
    store
}

/// Writes one domain's script, with an odd number once in so many ops, never for
/// 0.
pub fn fill_script(rng: &mut Rng, sketch: &Sketch, domain: usize, store: &mut [u32], oddity: u64) {
    let script = &mut store[256 * domain..][..256];
    script.fill(0);
    let length = match rng.below(4) {
        0 => 256,
        1 => rng.place(8),
        _ => rng.place(257),
    };
    let habits = Habits::of(rng, sketch, domain.min(sketch.members.len() - 1));
    for place in &mut script[..length] {
        *place = match oddity > 0 && rng.one_in(oddity) {
            true => odd_number(rng),
            false => habits.act(rng).stored(),
        };
    }
}

/// A number close to those that ops give, or any.
pub fn odd_number(rng: &mut Rng) -> u32 {
    if rng.one_in(8) {
        return rng.any() as u32;
    }
    let any = rng.within(0..=65_535);
    let kind = rng.pick(&[0, 1, 2, 3, 4, 5, 5, 6, 7, 8, 17, 4_095]);
    let other = rng.pick(&[0, 0, 0, 1, 7, 8, 15]);
    let value = rng.pick(&[0, 0, 1, 3, 199, 200, 201, 65_535, any]);
    kind << 20 | other << 16 | value
}
