//! What one domain can tell of the others: document 01, "Two lists of calls".
//!
//! Two runs of one plan, whose script stores are equal for the observer, are
//! compared where both have completed the same number of windows and, in a
//! window of the observer's own, where both have done the same number of its
//! ops. If each of its windows began with equal boxes addressed to it, then its
//! log, its script position, the L2 sets of its colours, and in its own window
//! the clock, must be equal. Where two runs go on from lent worlds that are equal for
//! the observer, the same must hold from there on. It must also hold where the observer's
//! log is all that is lent of the log: document 02, E8.

use crate::engine::{Engine, Kept};
use crate::timeline::Timeline;
use crate::world::{Call, World};
use std::ops::Range;
use std::rc::Rc;

/// A domain that watches a run, and how it does.
#[derive(Clone, Copy, Debug, PartialEq, Eq)]
pub enum Observer {
    /// By single steps with everyone's log, and by asking for its own.
    Asking(usize),
    /// By runs of one step each that keep its log, which is all that is lent.
    Keeping(usize),
}

impl Observer {
    fn domain(self) -> usize {
        match self {
            Observer::Asking(domain) | Observer::Keeping(domain) => domain,
        }
    }

    /// The call that does the next step.
    fn step(self, world: &World) -> Call {
        match self {
            Observer::Asking(_) => Call::Step,
            Observer::Keeping(domain) => {
                let kept = Kept {
                    domain: domain as u32,
                    part: world.log.len() as u64 / 8,
                };
                Call::RunKept(kept, 1)
            }
        }
    }

    /// Where its records so far are in the log.
    fn records(self, engine: &dyn Engine, world: &mut World) -> Result<Range<usize>, String> {
        let (place, length) = match self {
            Observer::Asking(domain) => {
                world.accept(engine, &Call::Log(domain as u32))?;
                (world.answer[2], world.answer[3])
            }
            Observer::Keeping(domain) => (0, 8 * world.state[10 + domain]),
        };
        Ok(place as usize..(place + length) as usize)
    }
}

/// A run to its end, step by step, as it bears on one domain.
pub struct Trail {
    /// The windows completed where it begins.
    completed: usize,
    /// The points of each window, the last of them after the run's end.
    windows: Vec<Vec<Point>>,
}

/// What the observer has at one point.
#[derive(Clone, Debug, PartialEq, Eq)]
struct Point {
    clock: u64,
    inbox: [u32; 8],
    part: Part,
}

/// What must not tell anything of the others.
#[derive(Clone, Debug, PartialEq, Eq)]
struct Part {
    position: u64,
    log: Rc<[u8]>,
    sets: Rc<[u16]>,
}

/// How much of two runs was held against each other.
#[derive(Clone, Copy, Debug, Default, PartialEq, Eq)]
pub struct Compared {
    /// Pairs of corresponding points.
    pub points: u64,
    /// Windows of the observer's own among them.
    pub own_windows: u64,
    /// Whether that went on to the end.
    pub to_the_end: bool,
}

impl Trail {
    /// Makes a fresh start and steps to the end.
    pub fn walk(engine: &dyn Engine, mut world: World, observer: Observer) -> Result<Self, String> {
        world.accept(engine, &Call::FreshStart)?;
        Trail::walk_on(engine, world, observer)
    }

    /// Steps to the end from where this world is.
    pub fn walk_on(
        engine: &dyn Engine,
        mut world: World,
        observer: Observer,
    ) -> Result<Self, String> {
        let start = world.state[0] as usize;
        let mut windows = Vec::new();
        let mut current: Vec<Point> = Vec::new();
        loop {
            let completed = world.state[0];
            let before = current
                .last()
                .or(windows.last().and_then(|w: &Vec<_>| w.last()));
            let point = Point::look(engine, &mut world, observer, before)?;
            current.push(point);
            let step = observer.step(&world);
            world.accept(engine, &step)?;
            let (steps, ended) = (world.answer[2], world.answer[3]);
            if world.state[0] != completed || steps == 0 {
                windows.push(std::mem::take(&mut current));
            }
            match (steps, ended) {
                (0, 1) => {
                    return Ok(Trail {
                        completed: start,
                        windows,
                    })
                }
                (1, _) => {}
                _ => return Err(format!("a step answered {steps} steps")),
            }
        }
    }
}

impl Point {
    fn look(
        engine: &dyn Engine,
        world: &mut World,
        observer: Observer,
        before: Option<&Point>,
    ) -> Result<Self, String> {
        let records = observer.records(engine, world)?;
        let log = world.log.get(records);
        let log = log.ok_or("a log was handed back that is not in the log")?;
        let own = observer.domain();
        let colours = world.plan[84 + own];
        let owned = (0..64).filter(|set| colours >> (set / 4) & 1 == 1);
        let sets: Vec<u16> = owned
            .flat_map(|set| &world.cache[16 + 4 * set..][..4])
            .copied()
            .collect();
        let before = before.map(|point| &point.part);
        let part = Part {
            position: world.state[2 + own],
            log: shared(before.map(|part| &part.log), log),
            sets: shared(before.map(|part| &part.sets), &sets),
        };
        Ok(Point {
            clock: world.state[1],
            inbox: std::array::from_fn(|from| world.boxes[8 * from + own]),
            part,
        })
    }
}

/// Holds two runs of one plan against each other, which begin in the same window.
pub fn hold_together(
    first: &Trail,
    second: &Trail,
    timeline: &Timeline,
    observer: usize,
) -> Result<Compared, String> {
    let mut compared = Compared::default();
    let windows = first.windows.iter().zip(&second.windows);
    for (completed, (here, there)) in (first.completed..).zip(windows) {
        let owner = timeline.window(completed as u64).map(|span| span.domain);
        if owner != Some(observer) {
            let same = |point: &&Point| point.part == here[0].part;
            let points = here.iter().chain(there);
            if let Some(other) = points.clone().find(|point| !same(point)) {
                return Err(told(completed, &here[0], other));
            }
            compared.points += (here.len() * there.len()) as u64;
            continue;
        }
        if here[0].inbox != there[0].inbox {
            return Ok(compared);
        }
        if let Some((a, b)) = here
            .iter()
            .zip(there)
            .find(|(a, b)| a.clock != b.clock || a.part != b.part)
        {
            return Err(told(completed, a, b));
        }
        if here.len() != there.len() {
            return Err(format!(
                "window {completed}: {} points and {}",
                here.len(),
                there.len()
            ));
        }
        compared.points += here.len() as u64;
        compared.own_windows += 1;
    }
    if first.windows.len() != second.windows.len() {
        return Err("two runs of one plan have different windows".into());
    }
    compared.to_the_end = true;
    Ok(compared)
}

fn told(completed: usize, a: &Point, b: &Point) -> String {
    format!("after {completed} windows the observer can tell\n{a:?}\nfrom\n{b:?}")
}

/// The same numbers again, without a new copy where the last one will do.
fn shared<T: Copy + Eq>(before: Option<&Rc<[T]>>, now: &[T]) -> Rc<[T]> {
    match before {
        Some(before) if **before == *now => before.clone(),
        _ => now.into(),
    }
}
