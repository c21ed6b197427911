//! Counts of what calls came to, so that a test can tell that it met everything
//! it is for.

use crate::world::Call;
use std::collections::BTreeMap;
use std::io::Write;

#[derive(Clone, Debug, Default)]
pub struct Tally(BTreeMap<(&'static str, u32), u64>);

impl Tally {
    /// Notes that a call returned this number.
    pub fn note(&mut self, call: &Call, number: u32) {
        self.note_kind(kind(call), number);
    }

    /// Notes that a call of this kind returned this number.
    pub fn note_kind(&mut self, kind: &'static str, number: u32) {
        *self.0.entry((kind, number)).or_default() += 1;
    }

    /// Prints how many calls a test made. As with seeds, past the test harness.
    pub fn print(&self, test: &str) {
        let count: u64 = self.0.values().sum();
        let _ = writeln!(std::io::stderr(), "{test}: {count} calls compared");
    }

    /// Asserts that calls of this kind returned each of these numbers, and none
    /// but them.
    pub fn assert_met(&self, kind: &str, numbers: &[u32]) {
        let of_kind = self.0.iter().filter(|((met, _), _)| *met == kind);
        let met: Vec<u32> = of_kind.map(|((_, number), _)| *number).collect();
        assert_eq!(met, numbers, "{kind}: {:?}", self.0);
    }
}

fn kind(call: &Call) -> &'static str {
    match call {
        Call::Read(_) => "read",
        Call::FreshStart => "fresh start",
        Call::Step => "step",
        Call::Run(_) => "run",
        Call::RunKept(..) => "run kept",
        Call::Log(_) => "log",
    }
}
