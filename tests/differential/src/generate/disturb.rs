//! Changes from outside to what is lent: damaged tables, impossible states,
//! other plans, rows of another length.

use super::shares::{colours_of, crowded_shares, masks_of};
use super::sketch::Sketch;
use super::stores::odd_number;
use crate::rng::Rng;
use crate::timeline::Timeline;
use crate::world::World;

/// Makes one to three changes.
pub fn disturb(rng: &mut Rng, world: &mut World) {
    for _ in 0..1 + rng.place(3) {
        match rng.below(8) {
            0 | 1 => disturb_cache(rng, world),
            2 => disturb_boxes(rng, world),
            3 | 4 => disturb_state(rng, world),
            5 => disturb_plan(rng, &mut world.plan),
            6 => disturb_scripts(rng, world),
            _ => disturb_length(rng, world),
        }
    }
}

fn disturb_cache(rng: &mut Rng, world: &mut World) {
    if world.cache.len() < 272 {
        return;
    }
    let place = match rng.one_in(3) {
        true => rng.place(16),
        false => 16 + rng.place(256),
    };
    let home = match place {
        0..16 => place as u16 + 16 * rng.below(4) as u16,
        _ => (place as u16 - 16) / 4,
    };
    let near = home + 64 * rng.below(64) as u16 + 1;
    let edges = [
        0,
        near,
        near,
        near,
        32_768 + near,
        near + 1,
        1,
        4_096,
        4_097,
        32_767,
        32_768,
        32_769,
        65_535,
    ];
    match rng.below(7) {
        0 => world.cache[place] = rng.any() as u16,
        1 if place >= 16 => {
            let set = (place - 16) / 4 * 4 + 16;
            world.cache.swap(set + rng.place(4), set + rng.place(4));
        }
        2 if place >= 16 => {
            let set = (place - 16) / 4 * 4 + 16;
            world.cache[set + rng.place(4)] = world.cache[place];
        }
        // Line 60, which a switch touches: in L1, in front of its set, in both or in neither.
        3 => {
            world.cache[12] = rng.pick(&[0, 61, 61, 32_768 + 61]);
            let ways = &mut world.cache[16 + 4 * 60..][..4];
            match rng.below(3) {
                0 => ways.copy_from_slice(&[61, 0, 0, 0]),
                1 => ways.fill(0),
                _ => {}
            }
        }
        _ => world.cache[place] = rng.pick(&edges),
    }
}

fn disturb_boxes(rng: &mut Rng, world: &mut World) {
    if !world.boxes.is_empty() {
        let place = rng.place(world.boxes.len());
        let edges = [0, 1, 2, 65_535, 65_536, 65_537, 131_072, u32::MAX];
        world.boxes[place] = rng.pick(&edges);
    }
}

fn disturb_state(rng: &mut Rng, world: &mut World) {
    if world.state.len() < 18 {
        return;
    }
    let any = rng.any() >> rng.below(64);
    match (rng.below(4), Timeline::of(&world.plan)) {
        (0, Some(timeline)) => {
            let (now, count) = (world.state[0], timeline.count());
            let edges = [
                0,
                now.wrapping_sub(1),
                now.wrapping_add(1),
                count.wrapping_sub(1),
                count,
                count + 1,
                u64::MAX,
                any,
            ];
            world.state[0] = rng.pick(&edges);
            if let (true, Some(span)) = (rng.one_in(2), timeline.window(world.state[0])) {
                world.state[1] = span.start + rng.below(3);
            }
        }
        (1, Some(timeline)) => {
            let ends = match timeline.window(world.state[0]) {
                Some(span) => [span.start, span.end, span.end + 212, span.next],
                None => [timeline.ticks(); 4],
            };
            let nudged = rng.pick(&ends).wrapping_add(rng.below(5)).wrapping_sub(2);
            let edges = [nudged, nudged, nudged, 0, 1 << 32, u64::MAX, any];
            world.state[1] = rng.pick(&edges);
        }
        (2, _) => {
            let edges = [0, 1, 255, 256, 257, 1 << 32, u64::MAX, any];
            world.state[2 + rng.place(8)] = rng.pick(&edges);
        }
        _ => {
            let domains = (world.plan.get(2).map_or(1, |count| *count as usize)).clamp(1, 8);
            let room = (world.log.len() / (8 * domains)) as u64;
            let edges = [
                0,
                1,
                room,
                room + 1,
                room.saturating_sub(1),
                1 << 32,
                u64::MAX,
                any,
            ];
            world.state[10 + rng.place(8)] = rng.pick(&edges);
        }
    }
}

/// Changes a plan, mostly so that the reader could not give it any more.
pub fn disturb_plan(rng: &mut Rng, plan: &mut [u32]) {
    if plan.len() < 92 {
        return;
    }
    let any = (rng.any() as u32) >> rng.below(32);
    let domains = plan[2].clamp(1, 8) as usize;
    let windows = plan[3].clamp(1, 32) as usize;
    let edges = [
        0,
        1,
        33,
        34,
        99,
        100,
        276,
        375,
        376,
        1_000,
        1_001,
        65_535,
        65_536,
        1_000_000,
        1_000_001,
        u32::MAX,
    ];
    let edge = rng.pick(&edges);
    match rng.below(13) {
        0 => {
            let other = match rng.one_in(3) {
                true => Sketch::at_the_limit(rng),
                false => Sketch::random(rng),
            };
            plan[..92].copy_from_slice(&other.flat());
            plan[52 + rng.place(32)] += rng.pick(&[0, 0, 1]);
        }
        1 => plan[rng.place(92)] = edge,
        2 => plan[rng.place(92)] = any,
        3 => plan[rng.place(92)] ^= 1 << rng.below(32),
        4 => plan[rng.place(4)] = rng.pick(&[0, 1, 2, 8, 9, 32, 33, 376, 377, any]),
        5 => {
            let share = &mut plan[4 + rng.place(domains)];
            let near = [share.wrapping_sub(1), share.wrapping_add(1)];
            *share = match rng.one_in(2) {
                true => rng.within(0..=1_001),
                false => rng.pick(&near),
            };
        }
        6 => plan[12 + rng.place(domains)] ^= 1 << rng.below(9),
        7 => {
            let window = rng.place(windows);
            plan[20 + window] = rng.within(0..=8);
            plan[52 + window] = rng.pick(&[0, 1, 300, 1_000_000, 1_000_001]);
        }
        8 => {
            let domain = rng.place(domains);
            let mask = plan[84 + domain];
            let changed = [
                mask << 1,
                mask >> 1,
                mask | 1 << 15,
                mask | 1 << 16,
                mask.wrapping_add(65_536),
            ];
            plan[84 + domain] = rng.pick(&changed);
        }
        9 | 10 => crowd(rng, plan),
        // Nothing else is changed, so that the pad alone decides.
        11 => {
            let short = rng.within(276..=375);
            plan[0] = rng.pick(&[275, 276, 375, 375, 376, 377, short]);
        }
        _ => plan.fill(0),
    }
}

/// Puts in shares that give more colours than there are, with the masks that they
/// would have if there were more, or with those cut off at some colour.
fn crowd(rng: &mut Rng, plan: &mut [u32]) {
    let count = plan[2].clamp(2, 8);
    plan[2] = count;
    let shares = crowded_shares(rng, count);
    let masks = masks_of(shares.iter().map(|share| colours_of(*share)));
    let kept = rng.pick(&[u32::MAX, 0xffff, 0x7fff, 0]);
    for (domain, (share, mask)) in shares.into_iter().zip(masks).enumerate() {
        plan[4 + domain] = share;
        plan[84 + domain] = mask & kept;
    }
}

fn disturb_scripts(rng: &mut Rng, world: &mut World) {
    if !world.scripts.is_empty() {
        for _ in 0..rng.place(20) {
            let place = rng.place(world.scripts.len());
            world.scripts[place] = odd_number(rng);
        }
    }
}

fn disturb_length(rng: &mut Rng, world: &mut World) {
    let mut near = |length: usize| {
        let edges = [
            0,
            1,
            length / 2,
            length.saturating_sub(1),
            length + 1,
            length + 4,
            2 * length,
        ];
        rng.pick(&edges)
    };
    let lengths = [
        near(world.plan.len()),
        near(world.scripts.len()),
        near(world.state.len()),
        near(world.cache.len()),
        near(world.boxes.len()),
        near(world.answer.len()),
        near(world.log.len()),
    ];
    let logs = [
        0, 1, 7, 8, 15, 16, 17, 63, 64, 65, 127, 128, 4_096, lengths[6],
    ];
    match rng.below(9) {
        0 => world.plan.set_length(lengths[0]),
        1 => world.scripts.set_length(lengths[1]),
        2 => world.state.set_length(lengths[2]),
        3 => world.cache.set_length(lengths[3]),
        4 => world.boxes.set_length(lengths[4]),
        5 => world.answer.set_length(lengths[5]),
        _ => world.log.set_length(rng.pick(&logs)),
    }
}
