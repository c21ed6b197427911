//! When windows start and end by the plan alone: document 01, "Window, switch,
//! run" and "Two lists of calls".

use crate::plan::{Plan, Window};

/// The windows of a plan laid out in time, repeats included.
#[derive(Clone, Copy, Debug)]
pub struct Schedule<'p> {
    plan: &'p Plan,
    pass: u64,
}

/// One window at its place in time.
#[derive(Clone, Copy, Debug, PartialEq, Eq)]
pub struct Turn {
    /// Whose window it is.
    pub domain: usize,
    /// The tick at which it starts.
    pub start: u64,
    /// The first tick at which no op begins any more.
    pub end: u64,
}

impl<'p> Schedule<'p> {
    /// The schedule of a plan with at least one window.
    pub fn of(plan: &'p Plan) -> Self {
        let pass = plan.windows.iter().map(|window| span(plan, window)).sum();
        Schedule { plan, pass }
    }

    /// How many windows there are in all.
    pub fn windows(&self) -> u64 {
        u64::from(self.plan.run) * self.plan.windows.len() as u64
    }

    /// How many ticks all of them take.
    pub fn ticks(&self) -> u64 {
        u64::from(self.plan.run) * self.pass
    }

    /// The window after so many completed ones; none after the run's end.
    pub fn turn(&self, completed: u64) -> Option<Turn> {
        if completed >= self.windows() {
            return None;
        }
        let count = self.plan.windows.len() as u64;
        let (passes, place) = (completed / count, (completed % count) as usize);
        let (before, rest) = self.plan.windows.split_at(place);
        let start = passes * self.pass + before.iter().map(|w| span(self.plan, w)).sum::<u64>();
        Some(Turn::new(&rest[0], start))
    }

    /// The window that follows a turn, given the windows completed by then.
    pub fn following(&self, turn: Turn, completed: u64) -> Option<Turn> {
        if completed >= self.windows() {
            return None;
        }
        let place = completed % self.plan.windows.len() as u64;
        Some(Turn::new(
            &self.plan.windows[place as usize],
            turn.end + u64::from(self.plan.pad),
        ))
    }
}

impl Turn {
    fn new(window: &Window, start: u64) -> Self {
        Turn {
            domain: window.domain as usize,
            start,
            end: start + u64::from(window.length),
        }
    }
}

fn span(plan: &Plan, window: &Window) -> u64 {
    u64::from(window.length) + u64::from(plan.pad)
}
