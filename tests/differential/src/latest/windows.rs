//! How late an engine's windows are, read off what it was lent: the state and the
//! caches before each switch tell how long the switch takes. Document 01, "Window,
//! switch, run", and document 02, E6 and E9.

use crate::engine::Engine;
use crate::timeline::{Span, Timeline};
use crate::world::{Call, World};

/// A window that a run has completed.
#[derive(Clone, Copy, Debug, PartialEq, Eq)]
pub struct Finished {
    /// Whose window it was.
    pub domain: usize,
    /// The ticks from its end until the touch was made.
    pub late: u64,
}

/// The windows of a run from a fresh start, up to one that is told, with it, or up to
/// the end.
pub fn finished_windows(
    engine: &dyn Engine,
    mut world: World,
    mut is_last: impl FnMut(Finished) -> bool,
) -> Result<Vec<Finished>, String> {
    let timeline = Timeline::of(&world.plan).ok_or("a plan without windows")?;
    world.accept(engine, &Call::FreshStart)?;
    let mut windows: Vec<Finished> = Vec::new();
    while let Some(span) = timeline.window(windows.len() as u64) {
        let late = ticks_late(&world, span);
        world.accept(engine, &Call::Step)?;
        if world.state[0] == windows.len() as u64 {
            continue;
        }
        let window = Finished {
            domain: span.domain,
            late,
        };
        windows.push(window);
        if is_last(window) {
            break;
        }
    }
    Ok(windows)
}

/// What the touch takes, which finds both caches without its line.
const TOUCH: u64 = 100;

/// How late this window would be if its switch came now.
pub fn ticks_late(world: &World, span: Span) -> u64 {
    let (near, sets) = world.cache.split_at(16);
    let dirty = near.iter().filter(|held| **held >= 32_768).count() as u64;
    let kernel = &sets[4 * 60..];
    let valid = kernel.iter().filter(|held| **held != 0).count() as u64;
    let past = world.state[1].saturating_sub(span.end);
    past + (8 + valid) + (8 + 2 * dirty) + TOUCH
}
