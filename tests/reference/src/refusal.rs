//! The refusals: the table in document 01, "The plan text", and from document 02
//! 15 (E1), 16 (E2), 17 (E4) and 18 (E6).

/// Why a call was refused. Offsets are in bytes from the text's start.
#[derive(Clone, Copy, Debug, PartialEq, Eq)]
pub enum Refusal {
    /// 1: the text is too long.
    TooLong,
    /// 2: the shape is broken.
    Shape { at: usize },
    /// 3: a number has too many digits or is outside its limits.
    Number { at: usize },
    /// 4: a domain out of order or not declared.
    Domain { at: usize },
    /// 5: a second pad or run, or something missing.
    Once { at: usize },
    /// 6: a share that gives no colour.
    NoColour { domain: usize },
    /// 7: shares over the whole.
    Shares { sum: u32 },
    /// 8: a domain's own number, or a repeat, among its recipients.
    Recipient { at: usize },
    /// 9: the run takes too many ticks.
    Ticks,
    /// 10: a window or an op too many.
    TooMany { at: usize },
    /// 11: a lent table's length is wrong.
    TableLength,
    /// 12: a plan that the reader could not give.
    Plan,
    /// 13: a damaged table.
    Damaged,
    /// 14: an impossible state.
    State,
    /// 15: a count and weights that no frame is made from.
    Frame,
    /// 16: shares that give more colours together than there are.
    Colours { total: u32 },
    /// 17: a buffer shorter than the text to be written.
    Room { needed: usize },
    /// 18: a domain that no latest end is told of.
    Latest { domain: u32 },
}

impl Refusal {
    /// The number that the papers give this refusal.
    pub fn number(self) -> u32 {
        match self {
            Refusal::TooLong => 1,
            Refusal::Shape { .. } => 2,
            Refusal::Number { .. } => 3,
            Refusal::Domain { .. } => 4,
            Refusal::Once { .. } => 5,
            Refusal::NoColour { .. } => 6,
            Refusal::Shares { .. } => 7,
            Refusal::Recipient { .. } => 8,
            Refusal::Ticks => 9,
            Refusal::TooMany { .. } => 10,
            Refusal::TableLength => 11,
            Refusal::Plan => 12,
            Refusal::Damaged => 13,
            Refusal::State => 14,
            Refusal::Frame => 15,
            Refusal::Colours { .. } => 16,
            Refusal::Room { .. } => 17,
            Refusal::Latest { .. } => 18,
        }
    }

    /// The number returned beside it: an offset, a domain, a sum, a total, a length
    /// or 0.
    pub fn companion(self) -> u64 {
        match self {
            Refusal::Shape { at }
            | Refusal::Number { at }
            | Refusal::Domain { at }
            | Refusal::Once { at }
            | Refusal::Recipient { at }
            | Refusal::TooMany { at } => at as u64,
            Refusal::NoColour { domain } => domain as u64,
            Refusal::Shares { sum } => u64::from(sum),
            Refusal::Colours { total } => u64::from(total),
            Refusal::Room { needed } => needed as u64,
            Refusal::Latest { domain } => u64::from(domain),
            Refusal::TooLong
            | Refusal::Ticks
            | Refusal::TableLength
            | Refusal::Plan
            | Refusal::Damaged
            | Refusal::State
            | Refusal::Frame => 0,
        }
    }
}
