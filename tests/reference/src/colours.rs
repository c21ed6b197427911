//! Colours: document 01, "The core and its tables". How shares give them: document
//! 02, E2.

use crate::geometry::Line;
use crate::limits::{COLOURS, WHOLE};

/// A set of colours, bit c for colour c. A plan made from flat numbers can hold
/// bits that stand for no colour; they are kept so that they can be refused.
#[derive(Clone, Copy, Debug, Default, PartialEq, Eq)]
pub struct Colours(pub u32);

impl Colours {
    /// The colour that belongs to the kernel.
    pub const KERNEL: Colours = Colours(1 << 15);

    /// So many colours from the first one upwards.
    pub fn span(first: u32, count: u32) -> Self {
        Colours(((1 << count) - 1) << first)
    }

    /// Whether this line is of one of these colours.
    pub fn include(self, line: Line) -> bool {
        self.0 >> line.colour() & 1 == 1
    }

    /// These colours and the kernel's.
    pub fn and_kernel(self) -> Self {
        Colours(self.0 | Self::KERNEL.0)
    }

    /// How many colours there are: a domain's holding.
    pub fn holding(self) -> u32 {
        self.0.count_ones()
    }
}

/// The number of colours that a share of 0 to 1,000 thousandths gives: the
/// nearest one. Half a colour is added before the fraction is dropped, so an
/// exact half goes up.
pub fn colours_for(share: u32) -> u32 {
    (share * COLOURS + WHOLE / 2) / WHOLE
}

/// How many colours these shares give together. Since each is rounded by itself,
/// that can be more than there are, even where the shares are within the whole.
pub fn total_for(shares: impl Iterator<Item = u32>) -> u32 {
    shares.map(colours_for).sum()
}

/// Deals colours from 0 upwards in the order of the shares, which give at most
/// as many as there are.
pub fn deal(shares: impl Iterator<Item = u32>) -> impl Iterator<Item = Colours> {
    shares.scan(0, |next, share| {
        let count = colours_for(share);
        let dealt = Colours::span(*next, count);
        *next += count;
        Some(dealt)
    })
}
