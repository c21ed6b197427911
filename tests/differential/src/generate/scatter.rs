//! Worlds that no run need have reached but that every call must take: document
//! 01, clauses 13 and 14 of "The plan text".

use crate::rng::Rng;
use crate::timeline::Timeline;
use crate::world::World;

/// Puts a world of a possible plan into a possible state with sound tables.
pub fn scatter(rng: &mut Rng, world: &mut World) {
    let timeline = Timeline::of(&world.plan).expect("a possible plan");
    scatter_state(rng, world, &timeline);
    scatter_l2(rng, world);
    scatter_l1(rng, world, &timeline);
    scatter_boxes(rng, world);
}

fn scatter_state(rng: &mut Rng, world: &mut World, timeline: &Timeline) {
    let domains = world.plan[2] as usize;
    let room = (world.log.len() / (8 * domains)) as u64;
    world.state.fill(0);
    let completed = match rng.below(8) {
        0 => 0,
        1 => timeline.count() - 1,
        2 => timeline.count(),
        _ => rng.below(timeline.count()),
    };
    world.state[0] = completed;
    world.state[1] = match timeline.window(completed) {
        None => timeline.ticks(),
        Some(span) => match rng.below(4) {
            0 => rng.pick(&[span.start, span.end - 1, span.end, span.end + 212]),
            1 => span.end - 1 - rng.below((span.end - span.start).min(300)),
            _ => span.start + rng.below(span.end + 213 - span.start),
        },
    };
    for domain in 0..domains {
        world.state[2 + domain] = match rng.below(4) {
            0 => rng.pick(&[0, 255, 256]),
            _ => rng.below(257),
        };
        world.state[10 + domain] = match rng.below(4) {
            0 => rng.pick(&[0, room]),
            1 => room.saturating_sub(1),
            _ => rng.below(room + 1),
        };
    }
}

fn scatter_l2(rng: &mut Rng, world: &mut World) {
    let often = rng.pick(&[1, 2, 8]);
    for (set, ways) in world.cache[16..].chunks_mut(4).enumerate() {
        ways.fill(0);
        if rng.one_in(often) {
            let mut above: Vec<u16> = (0..rng.pick(&[5, 7, 64])).collect();
            rng.shuffle(&mut above);
            let held = rng.place(5);
            for (way, above) in ways.iter_mut().zip(above).take(held) {
                *way = 64 * above + set as u16 + 1;
            }
        }
    }
}

fn scatter_l1(rng: &mut Rng, world: &mut World, timeline: &Timeline) {
    let running = timeline.window(world.state[0]);
    let colours = running.map_or(0, |span| world.plan[84 + span.domain] | 1 << 15);
    let often = rng.pick(&[1, 2, 8]);
    for index in 0..16 {
        let sets: Vec<u16> = (0..4)
            .map(|above| 16 * above + index as u16)
            .filter(|set| colours >> (set / 4) & 1 == 1)
            .collect();
        world.cache[index] = match sets.is_empty() || !rng.one_in(often) {
            true => 0,
            false => {
                let most = rng.pick(&[5, 7, 64]);
                let above = rng.below(most) as u16;
                rng.pick(&[0, 32_768]) + 64 * above + rng.pick(&sets) + 1
            }
        };
    }
}

fn scatter_boxes(rng: &mut Rng, world: &mut World) {
    for place in 0..64 {
        let (from, to) = (place / 8, place % 8);
        let may = world.plan[12 + from] >> to & 1 == 1;
        world.boxes[place] = match may && rng.one_in(2) {
            true => rng.pick(&[1, 2, 78, 65_535, 65_536]),
            false => 0,
        };
    }
}
