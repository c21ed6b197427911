//! Pairs of lent worlds that are equal for one domain, the observer: document 01, "Two
//! lists of calls", and document 02, E7 and E9. What the others have there puts dirty lines
//! out of L1, other ones in each world, and makes the next switch take long in one of them.

use super::put_out::{arrange_any, unsettle, world_of, write_script};
use super::sketch::Sketch;
use super::stores::odd_number;
use crate::rng::Rng;
use crate::timeline::Timeline;
use crate::world::World;

#[derive(Clone, Debug)]
pub struct WorldPair {
    pub observer: usize,
    pub worlds: [World; 2],
}

impl WorldPair {
    pub fn random(rng: &mut Rng) -> Self {
        let mut sketch = Sketch::random(rng);
        while sketch.members.len() < 2 {
            sketch = Sketch::random(rng);
        }
        sketch.run = rng.within(1..=3);
        let observer = rng.place(sketch.members.len());
        if rng.one_in(2) {
            // Nobody may send to the observer, so that its boxes stay empty.
            let senders = sketch.members.iter_mut();
            senders.for_each(|member| member.may.retain(|to| *to != observer as u32));
        }
        let first = world_of(rng, sketch);
        let mut second = first.clone();
        vary_others(rng, &mut second, observer);
        WorldPair {
            observer,
            worlds: [first, second],
        }
    }
}

/// Changes all that is not the observer's: the others' scripts, positions, records, boxes
/// and L2 sets. In a window of another domain also the clock, L1 and the kernel's sets,
/// which are all the same at the observer's next window.
fn vary_others(rng: &mut Rng, world: &mut World, observer: usize) {
    let timeline = Timeline::of(&world.plan).expect("a possible plan");
    let span = timeline.window(world.state[0]).expect("a window");
    let domains = world.plan[2] as usize;
    let room = world.log.len() / (8 * domains);
    for other in (0..domains).filter(|domain| *domain != observer) {
        world.state[2 + other] = rng.below(257);
        world.state[10 + other] = rng.below(room as u64 + 1);
        let part = &mut world.log[8 * room * other..][..8 * room];
        part.iter_mut().for_each(|byte| *byte = rng.any() as u8);
        let script = &mut world.scripts[256 * other..][..256];
        let often = rng.pick(&[1, 20]);
        for number in script {
            if rng.one_in(often) {
                *number = odd_number(rng);
            }
        }
        for recipient in (0..domains).filter(|domain| *domain != observer) {
            if world.plan[12 + other] >> recipient & 1 == 1 {
                world.boxes[8 * other + recipient] = rng.pick(&[0, 1, 78, 65_536]);
            }
        }
    }
    let own = world.plan[84 + observer];
    for set in (0..60).filter(|set| own >> (set / 4) & 1 == 0) {
        arrange_any(rng, world, set);
    }
    if span.domain != observer {
        world.state[1] = match rng.one_in(6) {
            true => span.end + rng.pick(&[212, 212, 211, 0]),
            false => span.start + rng.below(span.end - span.start),
        };
        world.state[2 + span.domain] = rng.below(200);
        world.state[10 + span.domain] = rng.below(room.div_ceil(2) as u64);
        unsettle(rng, world, span.domain);
        write_script(rng, world, span.domain);
    }
}
