//! Worlds in which parts of the log run full, and calls that keep one domain's log:
//! document 02, E8.

use super::disturb::disturb;
use super::late_switch::late_switch_world;
use super::lists::random_world;
use super::put_out::put_out_world;
use super::scatter::scatter;
use super::sketch::Sketch;
use super::stores::random_store;
use crate::engine::Kept;
use crate::kept::keep;
use crate::rng::Rng;
use crate::world::{Call, World};

/// A world with everyone's log, whose parts are full before the scripts end: there are many
/// ops, time for them, and little room for their records.
pub fn tight_world(rng: &mut Rng) -> World {
    let mut sketch = Sketch::random(rng);
    let longest = rng.pick(&[30, 300, 3_000]);
    for window in &mut sketch.windows {
        window.1 = rng.within(1..=longest);
    }
    sketch.run = rng.within(1..=20);
    let mut scripts = random_store(rng, &sketch);
    // Each domain has some ops at least.
    for script in scripts.chunks_mut(256) {
        for number in &mut script[..4] {
            *number = 0x50_0001 + rng.below(200) as u32;
        }
    }
    let records = rng.pick(&[0, 1, 2, 3, 3, 5, 9, 20]);
    let left_over = rng.place(8 * sketch.members.len());
    let log = 8 * sketch.members.len() * records + left_over;
    let mut world = World::new(&sketch.flat(), &scripts, log);
    world.log.iter_mut().for_each(|n| *n = rng.any() as u8);
    world
}

/// A world with everyone's log that runs are accepted in: fresh ones, ones that no run need
/// have reached, ones whose ops put lines out of L1, and ones whose switch takes long.
pub fn any_world(rng: &mut Rng) -> World {
    let mut world = match rng.below(7) {
        0 | 1 => random_world(rng),
        2 | 3 => tight_world(rng),
        4 | 5 => return put_out_world(rng),
        _ => return late_switch_world(rng),
    };
    match rng.one_in(2) {
        true => scatter(rng, &mut world),
        false => {
            world.state.fill(0);
            world.cache.fill(0);
            world.boxes.fill(0);
        }
    }
    world
}

/// Such a world with the part of one of its domains for its log, and what keeps it.
pub fn kept_world(rng: &mut Rng) -> (World, Kept) {
    let world = any_world(rng);
    keep(&world, rng.place(world.plan[2] as usize))
}

/// Few steps, many, or all.
pub fn random_limit(rng: &mut Rng) -> u64 {
    match rng.below(6) {
        0 => rng.pick(&[0, 1]),
        1 | 2 => rng.below(8),
        3 => rng.below(60),
        4 => rng.below(1_000),
        _ => rng.pick(&[34_048, 1 << 32, u64::MAX - 1, u64::MAX]),
    }
}

/// A number that may be a domain's: one that is declared, one past the last, one past the
/// eighth, or one whose low bits are a declared one's.
pub fn odd_domain(rng: &mut Rng, world: &World) -> u32 {
    let domains = world.plan.get(2).map_or(1, |count| (*count).clamp(1, 8));
    let declared = rng.below(domains.into()) as u32;
    let above = rng.pick(&[8, 16, 256, 65_536, 1 << 31]);
    let any = rng.any() as u32;
    let edges = [
        declared,
        domains - 1,
        domains,
        domains + 1,
        7,
        8,
        declared + above,
        u32::MAX,
        any,
    ];
    rng.pick(&edges)
}

/// A number that may be a part's: near what a log of this length holds, or so large that eight
/// times it is cut to that length by a number of 32 or 64 bits.
pub fn odd_part(rng: &mut Rng, length: usize) -> u64 {
    let right = length as u64 / 8;
    let above = rng.pick(&[1 << 29, 1 << 32, 1 << 61, 1 << 62, 1 << 63, 7 << 61]);
    let any = rng.any() >> rng.below(64);
    let edges = [
        right,
        right + above,
        right + above,
        right + 1,
        right.wrapping_sub(1),
        length as u64,
        right / 8,
        0,
        u64::MAX,
        any,
    ];
    rng.pick(&edges)
}

/// Makes one of the two numbers another one, or both.
pub fn disturb_kept(rng: &mut Rng, world: &World, kept: &mut Kept) {
    let which = rng.below(3);
    if which != 0 {
        kept.domain = odd_domain(rng, world);
    }
    if which != 1 {
        kept.part = odd_part(rng, world.log.len());
    }
}

/// Changes what is lent beside these numbers: mostly the part's length or a count of records,
/// which are judged by them, else anything.
pub fn disturb_part(rng: &mut Rng, world: &mut World, kept: Kept) {
    match rng.below(4) {
        0 => {
            let length = world.log.len();
            let edges = [
                0,
                length.saturating_sub(1),
                length.saturating_sub(8),
                length + 1,
                length + 7,
                length + 8,
                length * 8,
            ];
            world.log.set_length(rng.pick(&edges));
        }
        1 if world.state.len() == 18 => {
            let part = kept.part;
            let edges = [part, part, part.wrapping_add(1), part.wrapping_mul(8), 256];
            world.state[10 + rng.place(8)] = rng.pick(&edges);
        }
        _ => disturb(rng, world),
    }
}

/// A call that a user of one part may make at any time, with these numbers or others.
pub fn random_kept_call(rng: &mut Rng, world: &World, mut kept: Kept) -> Call {
    if rng.one_in(24) {
        return Call::FreshStart;
    }
    if rng.one_in(8) {
        disturb_kept(rng, world, &mut kept);
    }
    Call::RunKept(kept, random_limit(rng))
}

#[cfg(test)]
mod tests {
    use super::*;
    use crate::engine::Reference;
    use crate::kept::{idle_domains, room};

    /// In most tight worlds some domain goes idle, in many of them more than one.
    #[test]
    fn tight_worlds_make_domains_idle() {
        let mut counts = [0; 3];
        for seed in 0..1_000 {
            let mut world = tight_world(&mut Rng::new(seed));
            let part = room(&world).unwrap() as u64;
            for call in [Call::FreshStart, Call::Run(u64::MAX)] {
                world.accept(&Reference, &call).unwrap();
            }
            counts[idle_domains(&world, part).len().min(2)] += 1;
        }
        assert!(counts[0] < 200 && counts[2] > 500, "{counts:?}");
    }

    /// Every world is one that a run is accepted in.
    #[test]
    fn kept_worlds_are_taken() {
        for seed in 0..2_000 {
            let (mut world, kept) = kept_world(&mut Rng::new(seed));
            let made = world.accept(&Reference, &Call::RunKept(kept, 5));
            made.unwrap_or_else(|what| panic!("{seed}: {what}"));
        }
    }
}
