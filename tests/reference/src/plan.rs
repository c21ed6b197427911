//! A plan and what makes it possible: document 01, "The core and its tables",
//! "The plan text" and refusal 12, with the shares of document 02, E2.

use crate::colours::{colours_for, deal, total_for, Colours};
use crate::limits;
use crate::refusal::Refusal;
use crate::schedule::Schedule;

/// What the reader gives. The empty plan, `Plan::default()`, stands beside a
/// refused reading and is itself refused everywhere.
#[derive(Clone, Debug, Default, PartialEq, Eq)]
pub struct Plan {
    pub pad: u32,
    pub run: u32,
    pub domains: Vec<Domain>,
    pub windows: Vec<Window>,
}

/// One domain, whose number is its place in the plan.
#[derive(Clone, Copy, Debug, PartialEq, Eq)]
pub struct Domain {
    /// Its part of the colours in thousandths.
    pub share: u32,
    /// The domains that it may send to.
    pub may: Recipients,
    /// The colours that its share gives it.
    pub colours: Colours,
}

/// One window of a pass.
#[derive(Clone, Copy, Debug, PartialEq, Eq)]
pub struct Window {
    pub domain: u32,
    pub length: u32,
}

/// A set of domains, bit b for domain b.
#[derive(Clone, Copy, Debug, Default, PartialEq, Eq)]
pub struct Recipients(pub u32);

impl Recipients {
    pub fn include(self, domain: usize) -> bool {
        domain < 32 && self.0 >> domain & 1 == 1
    }

    /// Takes a domain up; false if it was there already.
    pub fn take_up(&mut self, domain: u32) -> bool {
        let before = self.0;
        self.0 |= 1 << domain;
        self.0 != before
    }

    /// Whether all of them are among the first so many domains.
    fn all_below(self, count: usize) -> bool {
        u64::from(self.0) >> count == 0
    }
}

impl Plan {
    /// Whether one domain may send to the other.
    pub fn allows(&self, from: usize, to: usize) -> bool {
        self.domains
            .get(from)
            .is_some_and(|sender| sender.may.include(to))
    }

    /// Whether the reader could give this plan: all else is refusal 12.
    pub fn is_possible(&self) -> bool {
        self.schedule().is_ok()
    }

    /// The plan's windows in time, if the reader could give this plan.
    pub fn schedule(&self) -> Result<Schedule<'_>, Refusal> {
        let possible = limits::PAD.contains(&self.pad)
            && limits::RUN.contains(&self.run)
            && (1..=limits::DOMAINS).contains(&self.domains.len())
            && (1..=limits::WINDOWS).contains(&self.windows.len())
            && self.has_possible_shares()
            && self.has_possible_recipients()
            && self.windows.iter().all(|window| {
                (window.domain as usize) < self.domains.len()
                    && limits::LENGTH.contains(&window.length)
            });
        Some(self)
            .filter(|_| possible)
            .map(Schedule::of)
            .filter(|schedule| schedule.ticks() <= limits::TICKS)
            .ok_or(Refusal::Plan)
    }

    fn shares(&self) -> impl Iterator<Item = u32> + '_ {
        self.domains.iter().map(|domain| domain.share)
    }

    fn has_possible_shares(&self) -> bool {
        self.shares()
            .all(|share| limits::SHARE.contains(&share) && colours_for(share) > 0)
            && self.shares().sum::<u32>() <= limits::WHOLE
            && total_for(self.shares()) <= limits::COLOURS
            && deal(self.shares()).eq(self.domains.iter().map(|domain| domain.colours))
    }

    fn has_possible_recipients(&self) -> bool {
        self.domains.iter().enumerate().all(|(own, domain)| {
            !domain.may.include(own) && domain.may.all_below(self.domains.len())
        })
    }
}
