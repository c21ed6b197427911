//! Seeds: printed for every test, and repeated with PIRKVEZO_SEED.

use crate::rng::Rng;
use std::env;
use std::io::Write;
use std::time::{SystemTime, UNIX_EPOCH};

/// So many cases of a test, each with its own generator. The seed is that of
/// PIRKVEZO_SEED (decimal, or hexadecimal behind 0x), else a new one, and is
/// printed. PIRKVEZO_ROUNDS makes every test so many times as long.
pub fn cases(test: &str, count: u64) -> impl Iterator<Item = (Case, Rng)> {
    let seed = number("PIRKVEZO_SEED").unwrap_or_else(fresh_seed);
    let count = count * number("PIRKVEZO_ROUNDS").unwrap_or(1);
    // Written past the test harness, which holds back what passing tests print.
    let _ = writeln!(
        std::io::stderr(),
        "{test}: {count} cases, PIRKVEZO_SEED={seed:#x}"
    );
    let stream = test
        .bytes()
        .fold(seed, |mixed, byte| Rng::new(mixed ^ u64::from(byte)).any());
    (0..count).map(move |case| {
        let rng = Rng::new(Rng::new(stream ^ case.wrapping_mul(0xd6e8_feb8_6659_fd93)).any());
        (Case { seed, case }, rng)
    })
}

/// Which case of which seed: for the message of a failed one.
#[derive(Clone, Copy, Debug, PartialEq, Eq)]
pub struct Case {
    pub seed: u64,
    pub case: u64,
}

impl std::fmt::Display for Case {
    fn fmt(&self, f: &mut std::fmt::Formatter) -> std::fmt::Result {
        write!(f, "case {} of PIRKVEZO_SEED={:#x}", self.case, self.seed)
    }
}

fn number(variable: &str) -> Option<u64> {
    let text = env::var(variable).ok()?;
    let parsed = match text.strip_prefix("0x") {
        Some(digits) => u64::from_str_radix(digits, 16),
        None => text.parse(),
    };
    Some(parsed.unwrap_or_else(|_| panic!("{variable} is no number: {text}")))
}

fn fresh_seed() -> u64 {
    let now = SystemTime::now().duration_since(UNIX_EPOCH);
    Rng::new(now.map_or(0, |time| time.as_nanos() as u64)).any()
}
