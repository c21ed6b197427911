//! The five ops and the numbers that stand for them: document 01, "What an op
//! costs" and "The plan text".

use crate::limits::{COMPUTE, DOMAIN};

#[derive(Clone, Copy, Debug, PartialEq, Eq)]
pub enum Op {
    Read(u16),
    Write(u16),
    Send { to: u8, word: u16 },
    Receive { from: u8 },
    Compute(u16),
}

const KIND: u32 = 1_048_576;
const OTHER: u32 = 65_536;

impl Op {
    /// The number by which a script holds this op.
    pub fn stored(self) -> u32 {
        let (kind, other, value) = match self {
            Op::Read(line) => (1, 0, line),
            Op::Write(line) => (2, 0, line),
            Op::Send { to, word } => (3, to, word),
            Op::Receive { from } => (4, from, 0),
            Op::Compute(ticks) => (5, 0, ticks),
        };
        kind * KIND + u32::from(other) * OTHER + u32::from(value)
    }

    /// The op that a number stands for; none where no op gives that number.
    pub fn from_stored(number: u32) -> Option<Self> {
        let other = number / OTHER % 16;
        let value = (number % OTHER) as u16;
        match (number / KIND, other, value) {
            (1, 0, line) => Some(Op::Read(line)),
            (2, 0, line) => Some(Op::Write(line)),
            (3, to, word) if DOMAIN.contains(&to) => Some(Op::Send { to: to as u8, word }),
            (4, from, 0) if DOMAIN.contains(&from) => Some(Op::Receive { from: from as u8 }),
            (5, 0, ticks) if COMPUTE.contains(&u32::from(ticks)) => Some(Op::Compute(ticks)),
            _ => None,
        }
    }
}
