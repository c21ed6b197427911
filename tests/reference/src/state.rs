//! The machine's small state: document 01, "Window, switch, run" and refusal
//! 14.

use crate::limits::{DOMAINS, OPS, OVERRUN};
use crate::schedule::Schedule;

#[derive(Clone, Copy, Debug, Default, PartialEq, Eq)]
pub struct State {
    /// Windows completed.
    pub completed: u64,
    pub clock: u64,
    pub counts: [Counts; DOMAINS],
}

/// How far one domain has come.
#[derive(Clone, Copy, Debug, Default, PartialEq, Eq)]
pub struct Counts {
    /// Its place in its script.
    pub position: u64,
    /// The records in its part of the log.
    pub records: u64,
}

impl State {
    /// Whether a run can be in this state, where so many domains are declared
    /// and each part of the log holds so many records: all else is refusal 14.
    pub fn is_possible(&self, schedule: &Schedule, domains: usize, room: u64) -> bool {
        let (declared, others) = self.counts.split_at(domains);
        self.has_possible_clock(schedule)
            && declared
                .iter()
                .all(|counts| counts.position <= OPS as u64 && counts.records <= room)
            && others.iter().all(|counts| *counts == Counts::default())
    }

    fn has_possible_clock(&self, schedule: &Schedule) -> bool {
        match schedule.turn(self.completed) {
            Some(turn) => (turn.start..=turn.end + OVERRUN).contains(&self.clock),
            None => self.completed == schedule.windows() && self.clock == schedule.ticks(),
        }
    }
}
