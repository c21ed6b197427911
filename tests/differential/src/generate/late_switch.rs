//! Worlds that no run need have reached, whose next step is a switch, mostly one that takes as
//! long as any can: document 02, E9. The least pad is just as long. What a switch takes more
//! shows in such a world, where the next window starts late, and in no other.

use super::lists::log_length;
use super::put_out::{put_set, sets_at, DIRTY, KERNEL};
use super::scatter::scatter;
use super::shares::fitting_shares;
use super::sketch::Sketch;
use super::stores::random_store;
use crate::rng::Rng;
use crate::timeline::{Span, Timeline};
use crate::world::World;

/// How far past its window's end an op can carry the clock.
const OVERRUN: u64 = 212;

/// A world of a plan that the reader accepts, mostly with the least pad, whose window is over:
/// the run's first, its last, the last or the first of a pass, or any.
pub fn late_switch_world(rng: &mut Rng) -> World {
    let count = rng.pick(&[1, 2, 2, 3, 3]);
    let shares = fitting_shares(rng, count);
    let mut sketch = Sketch::of_shares(rng, &shares);
    // Of a few domains one has lines at every L1 index, and then most of the windows.
    let widest = (0..count).max_by_key(|domain| shares[*domain as usize]);
    for window in &mut sketch.windows {
        if !rng.one_in(3) {
            window.0 = widest.expect("a domain");
        }
    }
    sketch.pad = match rng.below(6) {
        0 => sketch.pad,
        1 => rng.within(377..=380),
        _ => 376,
    };
    sketch.run = rng.pick(&[1, 2, 3, 3, sketch.run]);
    sketch.fit_ticks();
    let scripts = random_store(rng, &sketch);
    let mut world = World::new(&sketch.flat(), &scripts, log_length(rng, &sketch));
    world
        .log
        .iter_mut()
        .for_each(|byte| *byte = rng.any() as u8);
    scatter(rng, &mut world);
    let span = end_window(rng, &mut world);
    fill_l1(rng, &mut world, span.domain);
    fill_kernel_sets(rng, &mut world);
    world
}

/// Puts the state past a window's end, mostly as far as can be; gives the window.
fn end_window(rng: &mut Rng, world: &mut World) -> Span {
    let timeline = Timeline::of(&world.plan).expect("a possible plan");
    let (count, pass) = (timeline.count(), u64::from(world.plan[3]));
    let any = rng.below(count);
    let completed = rng.pick(&[0, pass - 1, pass.min(count - 1), count - 1, count - 1, any]);
    let span = timeline.window(completed).expect("a window");
    world.state[0] = completed;
    world.state[1] = span.end
        + match rng.below(8) {
            0 => rng.below(OVERRUN + 1),
            1 => OVERRUN - 1,
            _ => OVERRUN,
        };
    span
}

/// Fills L1 with dirty lines of this domain and of the kernel, now and then all but one.
fn fill_l1(rng: &mut Rng, world: &mut World, domain: usize) {
    let colours = world.plan[84 + domain] | KERNEL;
    for index in 0..16 {
        let sets = sets_at(index, colours);
        world.cache[usize::from(index)] = match sets.is_empty() {
            true => 0,
            false => DIRTY + rng.pick(&sets) + 64 * some_way_up(rng) + 1,
        };
    }
    if rng.one_in(8) {
        let held = &mut world.cache[rng.place(16)];
        *held = rng.pick(&[0, *held & !DIRTY]);
    }
}

/// How far above the first of its set a line is: often that one itself, which in one of the
/// kernel's sets is the line that is touched.
fn some_way_up(rng: &mut Rng) -> u16 {
    rng.pick(&[0, 0, 1, 2, 3, 63])
}

/// Fills the kernel's sets, now and then one of them but for a line. Line 60 is anywhere in
/// its set or not in it.
fn fill_kernel_sets(rng: &mut Rng, world: &mut World) {
    let short = rng.one_in(8).then(|| 60 + rng.below(4) as u16);
    for set in 60..64 {
        let mut lines = [0, 1, 2, 3, 4, 5, 63].map(|above| set + 64 * above);
        rng.shuffle(&mut lines);
        let held = if short == Some(set) { rng.place(4) } else { 4 };
        put_set(world, set, &lines[..held]);
    }
}

#[cfg(test)]
mod tests {
    use super::*;
    use crate::engine::Reference;
    use crate::latest::windows::ticks_late;
    use crate::world::Call;
    use std::collections::BTreeMap;

    /// Where the window stands that is over.
    fn place(world: &World) -> &'static str {
        let pass = u64::from(world.plan[3]);
        let count = pass * u64::from(world.plan[1]);
        match world.state[0] {
            0 if count == 1 => "only",
            0 => "first",
            last if last + 1 == count => "last",
            end if (end + 1) % pass == 0 => "last of a pass",
            start if start % pass == 0 => "first of a pass",
            _ => "other",
        }
    }

    /// Each is taken, its next step is a switch, and the next window starts when the plan
    /// says. Many switches take all of the least pad, at every place, and none takes more.
    #[test]
    fn many_take_all_of_the_least_pad() {
        let mut longest = BTreeMap::<&str, u32>::new();
        let mut all = 0;
        for seed in 0..4_000 {
            let mut world = late_switch_world(&mut Rng::new(seed));
            let timeline = Timeline::of(&world.plan).unwrap();
            let span = timeline.window(world.state[0]).unwrap();
            let late = ticks_late(&world, span);
            assert!(late <= 376, "{seed}: {late}");
            if late == 376 && world.plan[0] == 376 {
                *longest.entry(place(&world)).or_default() += 1;
                all += 1;
            }
            let completed = world.state[0];
            let made = world.accept(&Reference, &Call::Step);
            made.unwrap_or_else(|what| panic!("{seed}: {what}"));
            assert_eq!(world.state[..2], [completed + 1, span.next], "{seed}");
        }
        assert!(all > 1_000, "{longest:?}");
        assert_eq!(longest.len(), 6, "{longest:?}");
        assert!(longest.values().all(|count| *count > 20), "{longest:?}");
    }
}
