//! The script store: document 01, "The plan text".

use crate::limits::{DOMAINS, OPS};

/// How many numbers a script store has.
pub const STORE: usize = DOMAINS * OPS;

/// A store of the right length, one script to a domain.
#[derive(Clone, Copy, Debug)]
pub struct Scripts<'a>(&'a [[u32; OPS]; DOMAINS]);

impl<'a> Scripts<'a> {
    /// The store in this table; none if its length is wrong.
    pub fn over(table: &'a [u32]) -> Option<Self> {
        match table.as_chunks() {
            (scripts, []) => scripts.try_into().ok().map(Scripts),
            _ => None,
        }
    }

    /// One domain's script.
    pub fn of(self, domain: usize) -> &'a [u32; OPS] {
        &self.0[domain]
    }
}
