//! The machine from window to window: document 01, "Window, switch, run". A run that
//! stores one domain's records alone: document 02, E8. What a switch touches: document
//! 02, E9.

use crate::cache::{Board, Cache};
use crate::geometry::Line;
use crate::journal::{Journal, Keeping, Kept};
use crate::mail::Mail;
use crate::plan::Plan;
use crate::refusal::Refusal;
use crate::schedule::{Schedule, Turn};
use crate::scripts::Scripts;
use crate::shift::Shift;
use crate::state::State;

/// The tables that a step may change, beside the state.
#[derive(Debug)]
pub struct Lent<'a> {
    pub cache: &'a mut [u16],
    pub boxes: &'a mut [u32],
    /// Everyone's or, where one domain's records alone are stored, that domain's part.
    pub log: &'a mut [u8],
}

/// How a run is made, beside what it is lent.
#[derive(Clone, Copy, Debug, PartialEq, Eq)]
pub struct Manner {
    pub board: Board,
    pub keeping: Keeping,
}

impl Manner {
    /// On the board of today, with everyone's records stored.
    pub const USUAL: Manner = Manner {
        board: Board::New,
        keeping: Keeping::All,
    };
}

/// What a call to run answers.
#[derive(Clone, Copy, Debug, PartialEq, Eq)]
pub struct Progress {
    /// Steps done.
    pub steps: u64,
    pub outcome: Outcome,
}

#[derive(Clone, Copy, Debug, PartialEq, Eq)]
pub enum Outcome {
    /// Every window is completed.
    Ended,
    /// The limit was reached first.
    Stopped,
}

/// Zeroes state, cache table and boxes.
pub fn fresh_start(
    plan: &Plan,
    state: &mut State,
    cache: &mut [u16],
    boxes: &mut [u32],
) -> Result<(), Refusal> {
    let mut cache = Cache::over(cache).ok_or(Refusal::TableLength)?;
    let mut mail = Mail::over(boxes).ok_or(Refusal::TableLength)?;
    plan.schedule()?;
    *state = State::default();
    cache.clear();
    mail.clear();
    Ok(())
}

/// Does one step: one op or one switch.
pub fn step(
    plan: &Plan,
    scripts: &[u32],
    state: &mut State,
    lent: Lent,
) -> Result<Progress, Refusal> {
    run(plan, scripts, state, lent, 1)
}

/// Does steps up to a limit, or up to the last switch if it comes first.
pub fn run(
    plan: &Plan,
    scripts: &[u32],
    state: &mut State,
    lent: Lent,
    limit: u64,
) -> Result<Progress, Refusal> {
    run_watched(Manner::USUAL, plan, scripts, state, lent, limit, |_, _| ())
}

/// Does the same steps, but stores the records of one domain alone, in a log that is that
/// domain's part.
pub fn run_kept(
    plan: &Plan,
    scripts: &[u32],
    state: &mut State,
    lent: Lent,
    kept: Kept,
    limit: u64,
) -> Result<Progress, Refusal> {
    let manner = Manner {
        keeping: Keeping::One(kept),
        ..Manner::USUAL
    };
    run_watched(manner, plan, scripts, state, lent, limit, |_, _| ())
}

/// Does the same in any manner, and shows each window that it completes, with the
/// tick at which the window's switch has made its touch.
pub fn run_watched(
    manner: Manner,
    plan: &Plan,
    scripts: &[u32],
    state: &mut State,
    lent: Lent,
    limit: u64,
    mut completed: impl FnMut(Turn, u64),
) -> Result<Progress, Refusal> {
    let mut machine = Machine::admit(manner, plan, scripts, state, lent)?;
    let mut left = limit;
    while let Some(turn) = machine.turn.filter(|_| left > 0) {
        left -= machine.work(turn, left);
        if left > 0 {
            completed(turn, machine.switch(turn));
            left -= 1;
        }
    }
    let outcome = match machine.turn {
        None => Outcome::Ended,
        Some(_) => Outcome::Stopped,
    };
    Ok(Progress {
        steps: limit - left,
        outcome,
    })
}

struct Machine<'a> {
    plan: &'a Plan,
    schedule: Schedule<'a>,
    scripts: Scripts<'a>,
    state: &'a mut State,
    cache: Cache<'a>,
    mail: Mail<'a>,
    journal: Journal<'a>,
    /// The window that runs now; none after the end.
    turn: Option<Turn>,
}

impl<'a> Machine<'a> {
    /// Judges all that was lent: 11, 12, 13, 14, and last 4.
    fn admit(
        manner: Manner,
        plan: &'a Plan,
        scripts: &'a [u32],
        state: &'a mut State,
        lent: Lent<'a>,
    ) -> Result<Self, Refusal> {
        let scripts = Scripts::over(scripts).ok_or(Refusal::TableLength)?;
        let cache = Cache::on(manner.board, lent.cache).ok_or(Refusal::TableLength)?;
        let mail = Mail::over(lent.boxes).ok_or(Refusal::TableLength)?;
        let domains = plan.domains.len();
        let journal = Journal::over(lent.log, manner.keeping, domains);
        let journal = journal.ok_or(Refusal::TableLength)?;
        let schedule = plan.schedule()?;
        let turn = schedule.turn(state.completed);
        let running = turn.map(|turn| plan.domains[turn.domain].colours);
        if !cache.is_sound(running) || !mail.is_sound(plan) {
            return Err(Refusal::Damaged);
        }
        if !state.is_possible(&schedule, domains, journal.room()) {
            return Err(Refusal::State);
        }
        if !journal.keeps_declared(domains) {
            return Err(Refusal::Domain { at: 0 });
        }
        Ok(Machine {
            plan,
            schedule,
            scripts,
            state,
            cache,
            mail,
            journal,
            turn,
        })
    }

    /// Does ops of this window until a switch is due, at most so many; gives how
    /// many.
    fn work(&mut self, turn: Turn, most: u64) -> u64 {
        let mut shift = Shift {
            plan: self.plan,
            own: turn.domain,
            end: turn.end,
            script: self.scripts.of(turn.domain),
            sheet: self.journal.sheet(turn.domain),
            cache: &mut self.cache,
            mail: &mut self.mail,
            clock: self.state.clock,
            counts: self.state.counts[turn.domain],
        };
        let mut done = 0;
        while done < most && shift.op().is_some() {
            done += 1;
        }
        (self.state.clock, self.state.counts[turn.domain]) = (shift.clock, shift.counts);
        done
    }

    /// Gives the tick at which the touch is made, before the pad.
    fn switch(&mut self, turn: Turn) -> u64 {
        let state = &mut *self.state;
        let touched = state.clock.max(turn.end) + self.cache.switch();
        state.completed += 1;
        state.clock = touched.max(turn.end + u64::from(self.plan.pad));
        self.turn = self.schedule.following(turn, state.completed);
        if self.turn.is_none() {
            // Nobody returns after the last window, and L1 is empty after the end.
            self.cache.forget(Line::GATE);
        }
        touched
    }
}
