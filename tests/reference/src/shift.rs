//! The ops of one window: document 01, "What an op costs", and what they put out of L1:
//! document 02, E7.

use crate::cache::{Access, Accessed, Cache, Found, PutOut};
use crate::geometry::Line;
use crate::journal::{Kind, Record, Sheet};
use crate::limits::OPS;
use crate::mail::Mail;
use crate::op::Op;
use crate::plan::Plan;
use crate::state::Counts;

/// One domain at work in its window.
pub struct Shift<'a, 'c> {
    pub plan: &'a Plan,
    /// The domain's number.
    pub own: usize,
    /// The first tick at which no op begins any more.
    pub end: u64,
    pub script: &'a [u32; OPS],
    /// Where its records go, and how many there can be.
    pub sheet: Sheet<'a>,
    pub cache: &'a mut Cache<'c>,
    pub mail: &'a mut Mail<'c>,
    pub clock: u64,
    pub counts: Counts,
}

/// What an op answers.
#[derive(Clone, Copy, Debug, PartialEq, Eq)]
pub struct Effect {
    pub ticks: u64,
    /// Its record's kind and value.
    pub kind: Kind,
    pub value: u16,
    /// What its first access put out and what its second did; nothing where there is no
    /// such access.
    pub put_out: [PutOut; 2],
}

/// What an op without an access puts out.
const NOTHING: [PutOut; 2] = [PutOut::Nothing; 2];

impl Shift<'_, '_> {
    /// Does the op that begins now; none if a switch is due instead.
    #[inline]
    pub fn op(&mut self) -> Option<Effect> {
        let position = self.counts.position as usize;
        let records = self.counts.records as usize;
        let op = match self.script.get(position) {
            Some(number) if self.clock < self.end && records < self.sheet.room() => {
                Op::from_stored(*number)
            }
            _ => None,
        };
        let effect = match op? {
            Op::Read(number) => self.touch(number, Access::Read),
            Op::Write(number) => self.touch(number, Access::Write),
            Op::Send { to, word } => self.send(to, word),
            Op::Receive { from } => self.receive(from),
            Op::Compute(ticks) => Effect {
                ticks: u64::from(ticks),
                kind: Kind::Ran,
                value: ticks,
                put_out: NOTHING,
            },
        };
        self.clock += effect.ticks;
        let record = Record {
            kind: effect.kind,
            value: effect.value,
            clock: self.clock as u32,
        };
        self.sheet.put(records, record);
        self.counts.records += 1;
        self.counts.position += 1;
        Some(effect)
    }

    #[inline]
    fn touch(&mut self, number: u16, access: Access) -> Effect {
        let colours = self.plan.domains[self.own].colours;
        let Some(line) = Line::new(number).filter(|line| colours.include(*line)) else {
            return Effect {
                ticks: 5,
                kind: Kind::Barred,
                value: number,
                put_out: NOTHING,
            };
        };
        let Accessed {
            found,
            ticks,
            put_out,
        } = self.cache.access(line, access);
        let kind = match found {
            Found::InL1 => Kind::Hit1,
            Found::InL2 => Kind::Hit2,
            Found::Nowhere => Kind::Miss,
        };
        Effect {
            ticks,
            kind,
            value: number,
            put_out: [put_out, PutOut::Nothing],
        }
    }

    fn send(&mut self, to: u8, word: u16) -> Effect {
        let recipient = usize::from(to);
        let opened = self.open_box(self.own, recipient);
        let kind = match opened.allowed {
            false => Kind::Denied,
            true => {
                self.mail.put(self.own, recipient, word);
                Kind::Sent
            }
        };
        opened.seen_as(kind, u16::from(to))
    }

    fn receive(&mut self, from: u8) -> Effect {
        let sender = usize::from(from);
        let opened = self.open_box(sender, self.own);
        if !opened.allowed {
            return opened.seen_as(Kind::Denied, u16::from(from));
        }
        match self.mail.take(sender, self.own) {
            Some(word) => opened.seen_as(Kind::Got, word),
            None => opened.seen_as(Kind::Empty, u16::from(from)),
        }
    }

    /// The part that sending and receiving have in common.
    fn open_box(&mut self, from: usize, to: usize) -> Opened {
        let gate = self.cache.access(Line::GATE, Access::Read);
        if !self.plan.allows(from, to) {
            return Opened {
                allowed: false,
                ticks: 5 + gate.ticks,
                put_out: [gate.put_out, PutOut::Nothing],
            };
        }
        let inside = self.cache.access(Line::of_box(from, to), Access::Write);
        Opened {
            allowed: true,
            ticks: 5 + gate.ticks + inside.ticks,
            put_out: [gate.put_out, inside.put_out],
        }
    }
}

/// What a message comes to, whichever way it goes.
struct Opened {
    /// Whether the sender may use this box.
    allowed: bool,
    ticks: u64,
    put_out: [PutOut; 2],
}

impl Opened {
    /// The message's effect, with this record.
    fn seen_as(self, kind: Kind, value: u16) -> Effect {
        Effect {
            ticks: self.ticks,
            kind,
            value,
            put_out: self.put_out,
        }
    }
}
