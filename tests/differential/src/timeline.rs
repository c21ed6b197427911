//! When windows start by a flat plan alone: document 01, "Two lists of calls".
//! For generators, which need the edges of states, and for the laws.

use crate::engine::PLAN;

/// The windows of a possible flat plan, one after the other.
#[derive(Clone, Debug)]
pub struct Timeline {
    windows: Vec<Span>,
    run: u64,
}

/// One window and its pad.
#[derive(Clone, Copy, Debug, PartialEq, Eq)]
pub struct Span {
    pub domain: usize,
    pub start: u64,
    pub end: u64,
    /// When the next one starts.
    pub next: u64,
}

impl Timeline {
    /// The timeline of these numbers; none where they have no windows that could
    /// be laid out.
    pub fn of(plan: &[u32]) -> Option<Self> {
        let plan: &[u32; PLAN] = plan.try_into().ok()?;
        let count = plan[3] as usize;
        if !(1..=32).contains(&count) {
            return None;
        }
        let mut windows = Vec::with_capacity(count);
        let mut start = 0;
        for place in 0..count {
            let end = start + u64::from(plan[52 + place]);
            let next = end + u64::from(plan[0]);
            windows.push(Span {
                domain: plan[20 + place] as usize,
                start,
                end,
                next,
            });
            start = next;
        }
        let run = u64::from(plan[1]);
        Some(Timeline { windows, run })
    }

    /// How many windows there are, repeats included.
    pub fn count(&self) -> u64 {
        self.windows.len() as u64 * self.run
    }

    /// The run's ticks.
    pub fn ticks(&self) -> u64 {
        self.pass() * self.run
    }

    /// The window after so many others; none after the last.
    pub fn window(&self, completed: u64) -> Option<Span> {
        if completed >= self.count() {
            return None;
        }
        let count = self.windows.len() as u64;
        let before = completed / count * self.pass();
        let span = self.windows[(completed % count) as usize];
        Some(Span {
            domain: span.domain,
            start: before + span.start,
            end: before + span.end,
            next: before + span.next,
        })
    }

    fn pass(&self) -> u64 {
        self.windows[self.windows.len() - 1].next
    }
}
