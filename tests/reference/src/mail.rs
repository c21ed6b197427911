//! The boxes between domains: document 01, "The core and its tables", and the
//! last clause of refusal 13.

use crate::limits::DOMAINS;
use crate::plan::Plan;

/// How many boxes there are.
pub const BOXES: usize = DOMAINS * DOMAINS;

/// A table of boxes of the right length: a row to a sender.
#[derive(Debug)]
pub struct Mail<'a>(&'a mut [[u32; DOMAINS]; DOMAINS]);

impl<'a> Mail<'a> {
    /// The boxes in this table; none if its length is wrong.
    pub fn over(table: &'a mut [u32]) -> Option<Self> {
        match table.as_chunks_mut() {
            (rows, []) => rows.try_into().ok().map(Mail),
            _ => None,
        }
    }

    /// Whether every box is empty or holds a word that its sender may send.
    pub fn is_sound(&self, plan: &Plan) -> bool {
        let senders = self.0.iter().enumerate();
        let mut in_use = senders.filter(|(_, row)| **row != [0; DOMAINS]);
        in_use.all(|(from, row)| {
            row.iter()
                .enumerate()
                .filter(|(_, held)| **held != 0)
                .all(|(to, held)| *held <= 65_536 && plan.allows(from, to))
        })
    }

    pub fn put(&mut self, from: usize, to: usize, word: u16) {
        self.0[from][to] = u32::from(word) + 1;
    }

    /// Empties a box and gives the word that it held.
    pub fn take(&mut self, from: usize, to: usize) -> Option<u16> {
        let held = std::mem::take(&mut self.0[from][to]);
        held.checked_sub(1).map(|word| word as u16)
    }

    pub fn clear(&mut self) {
        self.0.as_flattened_mut().fill(0);
    }
}
