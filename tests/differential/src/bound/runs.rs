//! Runs and lists of calls that must keep to their bound, and windows that must
//! keep to their lengths. No bound is computed here: one is asked for, and then
//! the steps are counted.

use super::subject::Subject;
use crate::engine::{Engine, ANSWER};
use crate::laws;
use crate::timeline::Timeline;
use crate::world::{Call, World};

/// A list of calls from a fresh start, whose steps are counted.
pub struct List<'e> {
    subject: Subject<'e>,
    world: World,
    held: Held,
}

/// A bound, and the steps done under it.
#[derive(Clone, Copy, Debug, PartialEq, Eq)]
pub struct Held {
    pub bound: u64,
    pub steps: u64,
}

impl<'e> List<'e> {
    /// Asks for the bound and makes the fresh start.
    pub fn start(subject: Subject<'e>, mut world: World) -> Result<Self, String> {
        let bound = subject.bound(&world)?;
        world.accept(subject.engine, &Call::FreshStart)?;
        Ok(List {
            subject,
            world,
            held: Held { bound, steps: 0 },
        })
    }

    /// The world as the calls so far have left it.
    pub fn world(&self) -> &World {
        &self.world
    }

    /// Makes a call of the list with what the last one left. The one refusal there
    /// can be is that of a log of no domain.
    pub fn call(&mut self, call: &Call) -> Result<u32, String> {
        let number = self.world.call(self.subject.engine, call);
        if !matches!(number, 0 | 4) {
            return Err(format!("{call:?} was refused with {number}"));
        }
        self.count(call, self.world.answer[2])?;
        Ok(number)
    }

    /// Makes a call that is lent something else. If it is refused it belongs to
    /// the list, which goes on from where it was; else it does not.
    pub fn call_with(&mut self, lent: &World, call: &Call) -> Result<u32, String> {
        let mut after = lent.clone();
        let number = after.call(self.subject.engine, call);
        laws::judge(call, lent, &after, number)?;
        if number != 0 && after.answer.len() == ANSWER {
            self.count(call, after.answer[2])?;
        }
        Ok(number)
    }

    /// Makes a run with what is left of the bound as its limit, which must end.
    pub fn finish(mut self) -> Result<Held, String> {
        let Held { bound, steps } = self.held;
        self.call(&Call::Run(bound - steps))?;
        match self.world.answer[3] {
            1 => Ok(self.held),
            _ => Err(format!("{bound} steps were not enough")),
        }
    }

    /// Adds the steps that a call answered. Of a log the same number is a place.
    fn count(&mut self, call: &Call, answered: u64) -> Result<(), String> {
        if matches!(call, Call::Step | Call::Run(_) | Call::RunKept(..)) {
            self.held.steps += answered;
        }
        let Held { bound, steps } = self.held;
        match steps <= bound {
            true => Ok(()),
            false => Err(format!("{steps} steps were done of {bound}")),
        }
    }
}

/// How many windows were walked through, and how many of them took all the steps
/// that a window can take.
#[derive(Clone, Copy, Debug, Default, PartialEq, Eq)]
pub struct Windows {
    pub walked: u64,
    pub full: u64,
}

/// Steps to the end from wherever a world stands. No window may take more steps
/// than its length, and one for its switch.
pub fn walk(engine: &dyn Engine, mut world: World) -> Result<Windows, String> {
    let timeline = Timeline::of(&world.plan).ok_or("a plan without windows")?;
    let mut windows = Windows::default();
    let mut completed = world.state[0];
    let mut steps = 0;
    while let Some(span) = timeline.window(completed) {
        world.accept(engine, &Call::Step)?;
        steps += 1;
        let most = span.end - span.start + 1;
        if world.answer[2] != 1 || steps > most {
            return Err(format!("window {completed} has more than {most} steps"));
        }
        if world.state[0] != completed {
            windows.walked += 1;
            windows.full += u64::from(steps == most);
            completed += 1;
            steps = 0;
        }
    }
    Ok(windows)
}
