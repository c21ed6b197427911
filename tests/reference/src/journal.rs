//! The log and its records: document 01, "What a domain sees". A log of which one
//! domain's part alone is lent: document 02, E8.

use crate::plan::Plan;
use crate::refusal::Refusal;
use crate::state::State;

/// Bytes in a record.
pub const RECORD: usize = 8;

/// What became of an op.
#[derive(Clone, Copy, Debug, PartialEq, Eq)]
pub enum Kind {
    Hit1 = 1,
    Hit2,
    Miss,
    Sent,
    Got,
    Empty,
    Denied,
    Ran,
    Barred,
}

impl Kind {
    /// The nine kinds, in the order of their numbers.
    pub const ALL: [Kind; 9] = [
        Kind::Hit1,
        Kind::Hit2,
        Kind::Miss,
        Kind::Sent,
        Kind::Got,
        Kind::Empty,
        Kind::Denied,
        Kind::Ran,
        Kind::Barred,
    ];

    pub fn word(self) -> &'static str {
        match self {
            Kind::Hit1 => "hit1",
            Kind::Hit2 => "hit2",
            Kind::Miss => "miss",
            Kind::Sent => "sent",
            Kind::Got => "got",
            Kind::Empty => "empty",
            Kind::Denied => "denied",
            Kind::Ran => "ran",
            Kind::Barred => "barred",
        }
    }
}

/// One record.
#[derive(Clone, Copy, Debug, PartialEq, Eq)]
pub struct Record {
    pub kind: Kind,
    pub value: u16,
    pub clock: u32,
}

impl Record {
    pub fn to_bytes(self) -> [u8; RECORD] {
        let kind = self.kind as u64;
        let (value, clock) = (u64::from(self.value), u64::from(self.clock));
        (kind | value << 16 | clock << 32).to_le_bytes()
    }

    /// The record in these bytes, if its kind is one of the nine.
    pub fn from_bytes(bytes: [u8; RECORD]) -> Option<Self> {
        let [kind, _, v0, v1, c0, c1, c2, c3] = bytes;
        let kind = Kind::ALL.into_iter().find(|known| *known as u8 == kind)?;
        Some(Record {
            kind,
            value: u16::from_le_bytes([v0, v1]),
            clock: u32::from_le_bytes([c0, c1, c2, c3]),
        })
    }
}

/// How many records each domain's part holds, in a log of so many bytes shared
/// by so many domains.
pub fn room(bytes: usize, domains: usize) -> usize {
    bytes / (RECORD * domains)
}

/// Whose records a run stores.
#[derive(Clone, Copy, Debug, PartialEq, Eq)]
pub enum Keeping {
    /// Everyone's: the lent log has a part for each domain.
    All,
    /// One domain's: the lent log is its part.
    One(Kept),
}

/// The one domain whose records are stored.
#[derive(Clone, Copy, Debug, PartialEq, Eq)]
pub struct Kept {
    pub domain: u32,
    /// How many records each part holds, also those that nobody lends.
    pub part: u64,
}

/// The lent log.
#[derive(Debug)]
pub struct Journal<'a> {
    /// All that there is room for, without bytes left over.
    records: &'a mut [[u8; RECORD]],
    /// How many records each part holds.
    room: usize,
    keeping: Keeping,
}

impl<'a> Journal<'a> {
    /// The log in these bytes, where so many domains are declared; none if its length is
    /// wrong. That of everyone's log never is, but that of a part must be what it holds.
    pub fn over(bytes: &'a mut [u8], keeping: Keeping, domains: usize) -> Option<Self> {
        // A plan without domains is refused before anyone asks how much room they have.
        let shared = room(bytes.len(), domains.max(1));
        let (records, left_over) = bytes.as_chunks_mut();
        let room = match keeping {
            Keeping::All => shared,
            Keeping::One(kept) => {
                let fits = left_over.is_empty() && kept.part == records.len() as u64;
                fits.then_some(records.len())?
            }
        };
        Some(Journal {
            records,
            room,
            keeping,
        })
    }

    /// How many records each part holds.
    pub fn room(&self) -> u64 {
        self.room as u64
    }

    /// Whether the domain that is kept is one of so many declared ones.
    pub fn keeps_declared(&self, domains: usize) -> bool {
        match self.keeping {
            Keeping::All => true,
            Keeping::One(kept) => (kept.domain as usize) < domains,
        }
    }

    /// A domain's own part.
    pub fn sheet(&mut self, domain: usize) -> Sheet<'_> {
        match self.keeping {
            Keeping::All => Sheet::Stored(&mut self.records[self.room * domain..][..self.room]),
            Keeping::One(kept) if kept.domain as usize == domain => Sheet::Stored(self.records),
            Keeping::One(_) => Sheet::Counted { room: self.room },
        }
    }
}

/// Where the records of one domain go.
#[derive(Debug)]
pub enum Sheet<'a> {
    /// To its part of the log, record by record.
    Stored(&'a mut [[u8; RECORD]]),
    /// Nowhere, though there are no more of them than its part would hold.
    Counted { room: usize },
}

impl Sheet<'_> {
    /// How many records there can be.
    #[inline]
    pub fn room(&self) -> usize {
        match self {
            Sheet::Stored(part) => part.len(),
            Sheet::Counted { room } => *room,
        }
    }

    /// Puts a record behind so many others, fewer than there can be.
    #[inline]
    pub fn put(&mut self, others: usize, record: Record) {
        if let Sheet::Stored(part) = self {
            part[others] = record.to_bytes();
        }
    }
}

/// A stretch of the lent log.
#[derive(Clone, Copy, Debug, PartialEq, Eq)]
pub struct Part {
    /// The place of its first byte.
    pub place: usize,
    /// How many bytes it has.
    pub length: usize,
}

/// Asks for one domain's records so far.
pub fn log_of(plan: &Plan, state: &State, log: &[u8], domain: u32) -> Result<Part, Refusal> {
    let schedule = plan.schedule()?;
    let domains = plan.domains.len();
    let room = room(log.len(), domains);
    if !state.is_possible(&schedule, domains, room as u64) {
        return Err(Refusal::State);
    }
    state.counts[..domains]
        .get(domain as usize)
        .map(|counts| Part {
            place: RECORD * room * domain as usize,
            length: RECORD * counts.records as usize,
        })
        .ok_or(Refusal::Domain { at: 0 })
}
