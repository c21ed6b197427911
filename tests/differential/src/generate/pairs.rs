//! Pairs of script stores that are equal for one domain: document 01, "Two lists
//! of calls".

use super::habits::Habits;
use super::sketch::Sketch;
use super::stores::{fill_script, odd_number, random_store};
use crate::rng::Rng;

#[derive(Clone, Debug)]
pub struct StorePair {
    pub sketch: Sketch,
    pub observer: usize,
    pub stores: [Vec<u32>; 2],
}

impl StorePair {
    pub fn random(rng: &mut Rng) -> Self {
        let mut sketch = Sketch::random(rng);
        sketch.run = sketch.run.min(rng.within(1..=6));
        let observer = rng.place(sketch.members.len());
        let messages = rng.below(4);
        if messages == 0 {
            // Nobody may send to the observer, so that its boxes stay empty.
            let senders = sketch.members.iter_mut();
            senders.for_each(|member| member.may.retain(|to| *to != observer as u32));
        }
        let first = random_store(rng, &sketch);
        let mut second = first.clone();
        for domain in (0..8).filter(|domain| *domain != observer) {
            match messages {
                0 => fill_script(rng, &sketch, domain, &mut second, 20),
                1 => replace_all(rng, &mut second[256 * domain..][..256]),
                _ => vary(rng, &sketch, domain, observer, &mut second),
            }
        }
        StorePair {
            sketch,
            observer,
            stores: [first, second],
        }
    }
}

fn replace_all(rng: &mut Rng, script: &mut [u32]) {
    script
        .iter_mut()
        .for_each(|number| *number = odd_number(rng));
}

/// Changes ops of one domain, but none that sends to the observer, and puts none
/// in that does: often the observer then finds equal boxes all the same.
fn vary(rng: &mut Rng, sketch: &Sketch, domain: usize, observer: usize, store: &mut [u32]) {
    let to_observer = |number: u32| number >> 16 == 3 << 4 | observer as u32;
    let habits = Habits::of(rng, sketch, domain.min(sketch.members.len() - 1));
    let often = rng.pick(&[1, 2, 10]);
    for number in &mut store[256 * domain..][..256] {
        let new = habits.act(rng).stored();
        if *number != 0 && !to_observer(*number) && !to_observer(new) && rng.one_in(often) {
            *number = new;
        }
    }
}
