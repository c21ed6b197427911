//! Worlds that no run need have reached, in which ops are about to put dirty lines out of
//! L1 that are not in front of their L2 sets, or not in them at all: document 02, E7. In a
//! run from a fresh start each line of L1 is in front of its set, and E7 shows nowhere.

use super::scatter::scatter;
use super::shares::fitting_shares;
use super::sketch::{Act, Sketch};
use super::stores::random_store;
use crate::rng::Rng;
use crate::timeline::{Span, Timeline};
use crate::world::World;

/// The lines of a set that are in use, by how far they are above its first one: more than
/// it holds, and few enough to meet again.
const ABOVE: [u16; 7] = [0, 1, 2, 3, 4, 31, 63];
pub(super) const DIRTY: u16 = 32_768;
pub(super) const KERNEL: u32 = 1 << 15;
/// The set of all boxes' lines.
const BOXES: u16 = 61;

/// A world of a plan that the reader accepts, in a window in which ops begin. L1 holds
/// dirty lines, and the script of the domain that runs replaces them one by one.
pub fn put_out_world(rng: &mut Rng) -> World {
    // Of a few domains each has several sets for one L1 index.
    let count = rng.pick(&[1, 2, 2, 3, 5, 8]);
    let shares = fitting_shares(rng, count);
    let sketch = Sketch::of_shares(rng, &shares);
    world_of(rng, sketch)
}

/// Such a world of this plan, but for the lengths of its windows.
pub fn world_of(rng: &mut Rng, mut sketch: Sketch) -> World {
    let lengths = rng.pick(&[[1, 300, 3_000], [3_000, 20_000, 20_000]]);
    for (_, length) in &mut sketch.windows {
        *length = rng.pick(&lengths);
    }
    sketch.fit_ticks();
    let scripts = random_store(rng, &sketch);
    let room = rng.pick(&[1, 20, 256, 300]);
    let log = 8 * sketch.members.len() * room + rng.place(8);
    let mut world = World::new(&sketch.flat(), &scripts, log);
    world
        .log
        .iter_mut()
        .for_each(|byte| *byte = rng.any() as u8);
    scatter(rng, &mut world);
    let span = begin_op(rng, &mut world);
    unsettle(rng, &mut world, span.domain);
    write_script(rng, &mut world, span.domain);
    world
}

/// Puts the state into a window, mostly near its start, with room for ops and records;
/// gives the window.
fn begin_op(rng: &mut Rng, world: &mut World) -> Span {
    let timeline = Timeline::of(&world.plan).expect("a possible plan");
    let completed = rng.below(timeline.count());
    let span = timeline.window(completed).expect("a window");
    let length = span.end - span.start;
    world.state[0] = completed;
    world.state[1] = match rng.one_in(8) {
        true => span.end - 1,
        false => span.start + rng.below(length.min(50)),
    };
    let room = (world.log.len() / (8 * world.plan[2] as usize)) as u64;
    world.state[2 + span.domain] = rng.below(200);
    world.state[10 + span.domain] = rng.below(room.div_ceil(2));
    span
}

/// Fills L1 with lines of this domain and of the kernel, mostly dirty, and arranges their
/// sets so that few of them are in front.
pub fn unsettle(rng: &mut Rng, world: &mut World, domain: usize) {
    let colours = world.plan[84 + domain] | KERNEL;
    world.cache[..16].fill(0);
    for index in 0..16 {
        let sets = sets_at(index, colours);
        if sets.is_empty() {
            continue;
        }
        for set in &sets {
            let lines = lines_of(&world.plan, domain, *set);
            arrange(rng, world, *set, lines);
        }
        let set = rng.pick(&sets);
        let mut others = lines_of(&world.plan, domain, set);
        let line = others.swap_remove(rng.place(others.len()));
        arrange(rng, world, set, others);
        if rng.one_in(2) {
            insert_behind(rng, world, set, line);
        }
        let dirty = if rng.one_in(10) { 0 } else { DIRTY };
        world.cache[usize::from(index)] = dirty + line + 1;
    }
}

/// The L2 sets of these colours whose lines have this L1 index.
pub(super) fn sets_at(index: u16, colours: u32) -> Vec<u16> {
    let sets = (0..4).map(|above| 16 * above + index);
    sets.filter(|set| colours >> (set / 4) & 1 == 1).collect()
}

/// The lines of a set that are in use. Of the boxes' lines they are those of boxes that
/// this domain may use, and others where these are too few.
fn lines_of(plan: &[u32], domain: usize, set: u16) -> Vec<u16> {
    let mut above = ABOVE.to_vec();
    if set == BOXES {
        above = (0..64).collect();
        above.sort_by_key(|number| !may_use(plan, domain, *number));
        above.truncate(ABOVE.len());
    }
    above.iter().map(|above| set + 64 * above).collect()
}

/// Whether a domain may send to this box or receive from it.
fn may_use(plan: &[u32], domain: usize, number: u16) -> bool {
    let (from, to) = (usize::from(number / 8), usize::from(number % 8));
    (from == domain || to == domain) && plan[12 + from] >> to & 1 == 1
}

/// Puts any lines into a set that is not the boxes'.
pub fn arrange_any(rng: &mut Rng, world: &mut World, set: u16) {
    let lines = ABOVE.map(|above| set + 64 * above);
    arrange(rng, world, set, lines.to_vec());
}

/// Puts some of these lines into their set in any order, mostly as many as it holds.
fn arrange(rng: &mut Rng, world: &mut World, set: u16, mut lines: Vec<u16>) {
    rng.shuffle(&mut lines);
    lines.truncate(rng.pick(&[0, 1, 2, 3, 4, 4, 4]));
    put_set(world, set, &lines);
}

/// Puts a line into its set behind others. Where the set is empty it is in front.
fn insert_behind(rng: &mut Rng, world: &mut World, set: u16, line: u16) {
    let mut lines = held_in(world, set);
    lines.truncate(3);
    let place = match lines.len() {
        0 => 0,
        held => 1 + rng.place(held),
    };
    lines.insert(place, line);
    put_set(world, set, &lines);
}

/// The lines that a set holds.
fn held_in(world: &World, set: u16) -> Vec<u16> {
    let ways = world.cache[16 + 4 * usize::from(set)..][..4].iter();
    ways.filter(|way| **way != 0).map(|way| way - 1).collect()
}

pub(super) fn put_set(world: &mut World, set: u16, lines: &[u16]) {
    let ways = &mut world.cache[16 + 4 * usize::from(set)..][..4];
    ways.fill(0);
    for (way, line) in ways.iter_mut().zip(lines) {
        *way = line + 1;
    }
}

/// Writes ops from the domain's position on: first one for each L1 index that it can
/// reach, in any order, then more of them.
pub fn write_script(rng: &mut Rng, world: &mut World, domain: usize) {
    let mut indexes: Vec<u16> = (0..16).collect();
    rng.shuffle(&mut indexes);
    let more: Vec<u16> = (0..rng.place(257)).map(|_| rng.below(16) as u16).collect();
    let acts: Vec<Act> = [indexes, more]
        .concat()
        .into_iter()
        .filter_map(|index| replacing(rng, world, domain, index))
        .collect();
    let position = world.state[2 + domain] as usize;
    let script = &mut world.scripts[256 * domain..][position..256];
    script.fill(0);
    for (number, act) in script.iter_mut().zip(acts) {
        *number = act.stored();
    }
}

/// An op of this domain that replaces what L1 holds at this index, or at times asks for
/// just that; none where it has no such op.
fn replacing(rng: &mut Rng, world: &World, domain: usize, index: u16) -> Option<Act> {
    let own = sets_at(index, world.plan[84 + domain]);
    let is_message = matches!(index, 12 | 13) && (own.is_empty() || rng.one_in(2));
    if is_message {
        return Some(message(rng, &world.plan, domain));
    }
    let held = (world.cache[usize::from(index)] & !DIRTY).checked_sub(1);
    let but = held.filter(|_| !rng.one_in(6));
    let lines = own
        .iter()
        .flat_map(|set| lines_of(&world.plan, domain, *set));
    let lines: Vec<u16> = lines.filter(|line| Some(*line) != but).collect();
    if lines.is_empty() {
        return None;
    }
    // The last of the set that the line goes back to: a full set drops it.
    let last = held.and_then(|held| held_in(world, held % 64).pop());
    let last = last.filter(|last| lines.contains(last) && rng.one_in(3));
    let line = last.unwrap_or_else(|| rng.pick(&lines));
    let line = u32::from(line);
    Some(rng.pick(&[Act::Read(line), Act::Write(line)]))
}

/// A message of this domain, mostly one that is not denied where there is one.
fn message(rng: &mut Rng, plan: &[u32], domain: usize) -> Act {
    let mut messages = Vec::new();
    for other in 0..8 {
        let to = plan[12 + domain] >> other & 1 == 1;
        let from = plan[12 + other] >> domain & 1 == 1;
        messages.extend(to.then_some(Act::Send(other as u32, 7)));
        messages.extend(from.then_some(Act::Receive(other as u32)));
    }
    if messages.is_empty() || rng.one_in(3) {
        let other = rng.within(0..=7);
        messages = vec![Act::Send(other, 7), Act::Receive(other)];
    }
    rng.pick(&messages)
}

#[cfg(test)]
mod tests {
    use super::*;
    use crate::engine::{OldBoard, Reference};
    use crate::world::Call;
    use std::collections::BTreeMap;

    /// How a dirty line is about to be put out.
    #[derive(Clone, Copy, Debug, PartialEq, Eq, PartialOrd, Ord)]
    struct Scene {
        /// The op, and for a message which of its accesses.
        by: &'static str,
        /// Whether it is a line of the kernel.
        kernel: bool,
        /// Whether the line that is asked for is of its set.
        same_set: bool,
        stands: Stands,
    }

    /// Where the line is in its set.
    #[derive(Clone, Copy, Debug, PartialEq, Eq, PartialOrd, Ord)]
    enum Stands {
        Front,
        Behind(usize),
        NotWithRoom,
        NotInFull,
    }

    const STANDS: [Stands; 6] = [
        Stands::Front,
        Stands::Behind(1),
        Stands::Behind(2),
        Stands::Behind(3),
        Stands::NotWithRoom,
        Stands::NotInFull,
    ];

    /// What becomes of the line that is asked for.
    #[derive(Clone, Copy, Debug, PartialEq, Eq, PartialOrd, Ord)]
    enum Sought {
        Found,
        Missed,
        /// L2 has it, but the line that is written back drops it.
        Dropped,
    }

    /// The lines that the next op asks for, with its name.
    fn asked(world: &World) -> Vec<(&'static str, u16)> {
        let timeline = Timeline::of(&world.plan).unwrap();
        let own = timeline.window(world.state[0]).unwrap().domain;
        let number = world.scripts[256 * own + world.state[2 + own] as usize];
        let other = (number >> 16 & 15) as usize;
        let [from, to] = match number >> 20 {
            3 => [own, other],
            _ => [other, own],
        };
        let inside = (61 + 64 * (8 * from + to)) as u16;
        match (number >> 20, world.plan[12 + from] >> to & 1) {
            (1, _) => vec![("read", number as u16)],
            (2, _) => vec![("write", number as u16)],
            (_, 0) => vec![("denied", 60)],
            (_, _) => vec![("first", 60), ("second", inside)],
        }
    }

    /// Dirty lines that the next op puts out, and what becomes of those that it asks for.
    fn scenes(world: &World) -> Vec<(Scene, Sought)> {
        let scene = |(by, asked): (&'static str, u16)| {
            let held = world.cache[usize::from(asked % 16)];
            let line = (held & !DIRTY).checked_sub(1)?;
            let set = held_in(world, line % 64);
            let stands = match set.iter().position(|other| *other == line) {
                Some(0) => Stands::Front,
                Some(place) => Stands::Behind(place),
                None if set.len() < 4 => Stands::NotWithRoom,
                None => Stands::NotInFull,
            };
            let sought = match held_in(world, asked % 64).contains(&asked) {
                false => Sought::Missed,
                true if stands == Stands::NotInFull && set[3] == asked => Sought::Dropped,
                true => Sought::Found,
            };
            let scene = Scene {
                by,
                kernel: line % 64 >= 60,
                same_set: line % 64 == asked % 64,
                stands,
            };
            (held >= DIRTY && line != asked).then_some((scene, sought))
        };
        asked(world).into_iter().filter_map(scene).collect()
    }

    fn after(world: &World, call: &Call) -> [World; 2] {
        let (mut new, mut old) = (world.clone(), world.clone());
        new.accept(&Reference, call).unwrap();
        old.accept(&OldBoard, call).unwrap();
        [new, old]
    }

    /// E7 shows in most first steps, and nowhere but where a line is put out that is not
    /// in front of its set.
    #[test]
    fn most_first_steps_show_it() {
        let mut shown = 0;
        for seed in 0..4_000 {
            let world = put_out_world(&mut Rng::new(seed));
            let [new, old] = after(&world, &Call::Step);
            let scenes = scenes(&world);
            let unsettled = |(scene, _): &(Scene, Sought)| scene.stands != Stands::Front;
            assert!(new == old || scenes.iter().any(unsettled), "{seed}");
            shown += u32::from(new != old);
        }
        assert!(shown > 2_400, "{shown} of 4000");
    }

    /// Every way to put a line out comes up, over the first steps of each world.
    #[test]
    fn all_scenes_come_up() {
        let mut met: BTreeMap<Scene, u32> = BTreeMap::new();
        let mut ends: BTreeMap<(&str, Sought), u32> = BTreeMap::new();
        for seed in 0..8_000 {
            let mut world = put_out_world(&mut Rng::new(seed));
            let first = world.state[0];
            for _ in 0..4 {
                for (scene, sought) in scenes(&world) {
                    *met.entry(scene).or_default() += 1;
                    *ends.entry((scene.by, sought)).or_default() += 1;
                }
                world.accept(&Reference, &Call::Step).unwrap();
                if world.state[0] != first {
                    break;
                }
            }
        }
        let expected = all_scenes();
        assert!(met.keys().eq(expected.iter()), "{met:?}");
        assert!(met.values().all(|count| *count > 10), "{met:?}");
        assert_eq!(ends.len(), 5 * 3, "{ends:?}");
        assert!(ends.values().all(|count| *count > 10), "{ends:?}");
    }

    /// All that there can be, in order. An own line is in no set of the kernel's. Of the
    /// kernel's sets one alone has the index of line 60, and one that of the boxes.
    fn all_scenes() -> Vec<Scene> {
        let accesses = [(false, false), (false, true), (true, false)];
        let messages = [(false, false), (true, true)];
        let ops = [
            ("denied", &messages[..]),
            ("first", &messages),
            ("read", &accesses),
            ("second", &messages),
            ("write", &accesses),
        ];
        let mut all = Vec::new();
        for (by, lines) in ops {
            for (kernel, same_set) in lines.iter().copied() {
                all.extend(STANDS.map(|stands| Scene {
                    by,
                    kernel,
                    same_set,
                    stands,
                }));
            }
        }
        all
    }
}
