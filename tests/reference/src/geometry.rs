//! Memory lines: document 01, "The core and its tables".

/// A memory line's number, 0 to 4,095.
#[derive(Clone, Copy, Debug, PartialEq, Eq)]
pub struct Line(u16);

impl Line {
    /// The line that every message looks at first, and that a switch touches.
    pub const GATE: Line = Line(60);

    const COUNT: u16 = 4_096;

    /// The line of this number, if there is one.
    pub fn new(number: u16) -> Option<Self> {
        (number < Self::COUNT).then_some(Line(number))
    }

    /// The line of the box from one domain to another, both below 8.
    pub fn of_box(from: usize, to: usize) -> Self {
        debug_assert!(from < 8 && to < 8);
        Line(61 + 64 * (8 * from + to) as u16)
    }

    /// The line behind a table's number that is not 0 and bears no dirty mark.
    pub fn from_tag(tag: u16) -> Option<Self> {
        tag.checked_sub(1).and_then(Self::new)
    }

    /// The number by which a table holds this line.
    pub fn tag(self) -> u16 {
        self.0 + 1
    }

    pub fn number(self) -> u16 {
        self.0
    }

    /// Its L2 set, 0 to 63.
    pub fn set(self) -> usize {
        usize::from(self.0 % 64)
    }

    /// Its colour, 0 to 15.
    pub fn colour(self) -> usize {
        self.set() / 4
    }

    /// Its L1 index, 0 to 15.
    pub fn index(self) -> usize {
        usize::from(self.0 % 16)
    }
}
