//! What is refused: lengths, plans, tables, states and domains, each by itself, any of them
//! together, and drawn by chance.

use crate::trial::Trial;
use pirkvezo_differential::engine::{Kept, ANSWER};
use pirkvezo_differential::generate::disturb::disturb;
use pirkvezo_differential::generate::kept::{
    disturb_kept, disturb_part, kept_world, odd_domain, random_kept_call, random_limit,
};
use pirkvezo_differential::generate::lists::random_call;
use pirkvezo_differential::generate::shares::fitting_shares;
use pirkvezo_differential::generate::sketch::Sketch;
use pirkvezo_differential::rng::Rng;
use pirkvezo_differential::seed::cases;
use pirkvezo_differential::world::{Call, World};

/// A fresh start of a plan of so many domains, with a part of so many records that hold
/// anything.
fn fresh(rng: &mut Rng, domains: u32, records: usize) -> World {
    let shares = fitting_shares(rng, domains);
    let sketch = Sketch::of_shares(rng, &shares);
    let mut world = World::new(&sketch.flat(), &sketch.store(), 8 * records);
    world.log.iter_mut().for_each(|n| *n = rng.any() as u8);
    world
}

/// Every length near the right one, for a few parts, and a domain that is declared or not.
#[test]
fn parts_of_other_lengths() {
    let mut trial = Trial::new();
    let mut rng = Rng::new(1);
    for records in [0, 1, 2, 3, 5, 256] {
        let right = 8 * records;
        let world = fresh(&mut rng, 3, records);
        for length in (right.saturating_sub(17)..=right + 17).chain([3 * right, 8 * right]) {
            let mut world = world.clone();
            world.log.set_length(length);
            for (domain, number) in [(0, 0), (2, 0), (3, 4)] {
                let part = records as u64;
                let due = if length == right { number } else { 11 };
                trial.runs(&world, Kept { domain, part }, due, &length);
            }
        }
    }
    trial.finish("parts of other lengths", &[0, 4, 11]);
}

/// Eight times such a number of records is more than 64 bits hold; what they hold of it, or
/// 32 bits of it, is the length that was lent.
#[test]
fn parts_that_no_buffer_has() {
    let mut trial = Trial::new();
    let mut rng = Rng::new(2);
    for records in [0, 1, 2, 3, 8, 255, 256, 257] {
        let world = fresh(&mut rng, 2, records);
        let records = records as u64;
        let wrapped = (1..8).map(|times| records + (times << 61));
        let cut = (1..8).map(|times| records + (times << 29));
        let high = [32, 33, 48, 58, 59, 60].map(|bit| records + (1 << bit));
        let most = [u64::MAX, u64::MAX - 7, u64::MAX / 8, u64::MAX / 8 + 1];
        let half = [
            i64::MAX as u64,
            1 << 63,
            (1 << 63) - 1,
            (1 << 61) - 1,
            1 << 61,
        ];
        let parts = wrapped.chain(cut).chain(high).chain(most).chain(half);
        for part in parts.filter(|part| *part != records) {
            for domain in [0, 1, 2, u32::MAX] {
                trial.runs(&world, Kept { domain, part }, 11, &part);
            }
        }
        let (domain, part) = (1, records);
        trial.runs(&world, Kept { domain, part }, 0, &part);
    }
    trial.finish("parts that no buffer has", &[0, 11]);
}

/// Cuts a row of a world, or makes it longer.
type SetLength = fn(&mut World, usize);

/// Each of the other rows in turn, shorter, longer and empty, beside a part that is right or
/// not, and a plan that is possible or not.
#[test]
fn rows_of_other_lengths() {
    let mut trial = Trial::new();
    let mut rng = Rng::new(3);
    let rows: [(usize, SetLength); 6] = [
        (92, |world, length| world.plan.set_length(length)),
        (2_048, |world, length| world.scripts.set_length(length)),
        (18, |world, length| world.state.set_length(length)),
        (272, |world, length| world.cache.set_length(length)),
        (64, |world, length| world.boxes.set_length(length)),
        (4, |world, length| world.answer.set_length(length)),
    ];
    for (right, set_length) in rows {
        for length in [0, 1, right / 2, right - 1, right + 1, 2 * right] {
            for part in [4, 5] {
                let mut world = fresh(&mut rng, 4, 4);
                if rng.one_in(2) {
                    world.plan.fill(0);
                }
                set_length(&mut world, length);
                for domain in [3, 4] {
                    trial.runs(&world, Kept { domain, part }, 11, &length);
                }
            }
        }
    }
    trial.finish("rows of other lengths", &[11]);
}

/// Every number of domains, and numbers of which the low bits are a declared one's.
#[test]
fn undeclared_domains() {
    let mut trial = Trial::new();
    let mut rng = Rng::new(4);
    for domains in 1..=8 {
        for records in [0, 1, 7] {
            let world = fresh(&mut rng, domains, records);
            let above =
                [8, 16, 128, 256, 65_536, 1 << 24, 1 << 31].map(|above| above + domains - 1);
            let numbers = (0..=17).chain(above).chain([255, u32::MAX - 1, u32::MAX]);
            for domain in numbers {
                let part = records as u64;
                let due = if domain < domains { 0 } else { 4 };
                trial.runs(&world, Kept { domain, part }, due, &domains);
            }
        }
    }
    trial.finish("undeclared domains", &[0, 4]);
}

/// Each domain's count of records, up to what its part would hold and over it; and the counts
/// of undeclared ones.
#[test]
fn counts_of_records() {
    let mut trial = Trial::new();
    let mut rng = Rng::new(5);
    for domains in [1, 2, 3, 8] {
        for records in [0, 1, 2, 30, 300] {
            let part = records as u64;
            for counted in 0..8 {
                let world = fresh(&mut rng, domains, records);
                let is_declared = counted < domains as usize;
                let counts = [part.wrapping_sub(1), part, part + 1, 2 * part + 1];
                for count in counts
                    .into_iter()
                    .chain([0, 256, 1 << 32, 1 << 61, u64::MAX])
                {
                    let mut world = world.clone();
                    world.state[10 + counted] = count;
                    let is_possible = count == 0 || is_declared && count <= part;
                    for domain in [0, domains - 1, domains] {
                        let due = match (is_possible, domain < domains) {
                            (false, _) => 14,
                            (true, false) => 4,
                            (true, true) => 0,
                        };
                        trial.runs(&world, Kept { domain, part }, due, &count);
                    }
                }
            }
        }
    }
    trial.finish("counts of records", &[0, 4, 14]);
}

/// The refusals in their order.
const ORDER: [u32; 5] = [11, 12, 13, 14, 4];

/// Puts something into a world, or into the numbers, that is refused with this number.
fn spoil(rng: &mut Rng, world: &mut World, kept: &mut Kept, number: u32) {
    let domains = world.plan[2];
    match number {
        11 => match rng.below(5) {
            0 => world.scripts.set_length(rng.pick(&[0, 2_047, 2_049])),
            1 => world.cache.set_length(rng.pick(&[0, 271, 273])),
            2 => world.boxes.set_length(rng.pick(&[0, 63, 65])),
            3 => world.log.set_length(world.log.len() + rng.pick(&[1, 7, 8])),
            _ => kept.part += rng.pick(&[1, 1 << 29, 1 << 61, 1 << 63]),
        },
        12 => match rng.below(4) {
            0 => world.plan.fill(0),
            1 => world.plan[0] = 375,
            2 => world.plan[2] = rng.pick(&[0, 9, u32::MAX]),
            _ => world.plan[84] += 65_536,
        },
        13 => match rng.below(3) {
            0 => world.cache[rng.place(16)] = 32_768,
            1 => world.cache[16 + rng.place(256)] = rng.pick(&[4_097, 32_769]),
            _ => world.boxes[9 * rng.place(8)] = 1,
        },
        14 => match rng.below(4) {
            0 => world.state[1] = u64::MAX,
            1 => world.state[2 + rng.place(domains as usize)] = 257,
            2 => {
                let counted = rng.place(domains as usize);
                world.state[10 + counted] = kept.part + 1;
            }
            _ => world.state[2 + rng.place(16)] = u64::MAX,
        },
        _ => kept.domain = rng.pick(&[domains, 8, domains + 8, u32::MAX]),
    }
}

/// Any of the five together: the first in order is returned.
#[test]
fn every_choice_of_refusals() {
    let mut trial = Trial::new();
    for (case, mut rng) in cases("kept, refusals together", 200) {
        let (lent, kept) = kept_world(&mut rng);
        for choice in 0..32 {
            let chosen = ORDER.iter().enumerate();
            let chosen = chosen.filter(|(place, _)| choice >> place & 1 == 1);
            let chosen: Vec<u32> = chosen.map(|(_, number)| *number).collect();
            let (mut world, mut other) = (lent.clone(), kept);
            // The later ones first: they need to know the domains and the part.
            for number in chosen.iter().rev() {
                spoil(&mut rng, &mut world, &mut other, *number);
            }
            let due = chosen.first().copied().unwrap_or(0);
            trial.runs(&world, other, due, &case);
        }
    }
    trial.finish("kept, refusals together", &[0, 4, 11, 12, 13, 14]);
}

/// Calls with other numbers, and calls that are lent something else. Most changes are taken
/// back after a call or two, else nothing but refusals would come.
#[test]
fn disturbed_worlds() {
    let mut trial = Trial::new();
    for (case, mut rng) in cases("kept, disturbed worlds", 6_000) {
        let (mut world, kept) = kept_world(&mut rng);
        for _ in 0..12 {
            let before = world.clone();
            let mut other = kept;
            if rng.one_in(2) {
                disturb_kept(&mut rng, &world, &mut other);
            }
            match rng.below(4) {
                0 => disturb(&mut rng, &mut world),
                1 | 2 => disturb_part(&mut rng, &mut world, other),
                _ => {}
            }
            for _ in 0..1 + rng.below(2) {
                let call = random_kept_call(&mut rng, &world, other);
                trial.call(&mut world, &call, &case);
            }
            if world.answer.len() != ANSWER || !rng.one_in(6) {
                world = before;
            }
        }
    }
    trial.finish("kept, disturbed worlds", &[0, 4, 11, 12, 13, 14]);
}

/// Domains and parts alone are others, and so are the calls in between.
#[test]
fn other_numbers() {
    let mut trial = Trial::new();
    for (case, mut rng) in cases("kept, other numbers", 6_000) {
        let (mut world, mut kept) = kept_world(&mut rng);
        for _ in 0..8 {
            let right = kept;
            match rng.below(4) {
                0 => kept.domain = odd_domain(&mut rng, &world),
                1 => disturb_kept(&mut rng, &world, &mut kept),
                _ => {}
            }
            let call = match rng.one_in(6) {
                true => random_call(&mut rng, &world),
                false => Call::RunKept(kept, random_limit(&mut rng)),
            };
            trial.call(&mut world, &call, &case);
            kept = right;
        }
    }
    trial.finish("kept, other numbers", &[0, 4, 11, 12, 13, 14]);
}
