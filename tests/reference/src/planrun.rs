//! What the program *planrun* prints: document 01, "Settled numbers".

use crate::journal::{log_of, Record, RECORD};
use crate::machine::{fresh_start, run, Lent};
use crate::{cache, mail, read_plan, scripts, State};
use std::fmt::Write;

/// Bytes in the log that the program lends.
const LOG: usize = 16_384;

/// The program's output for this input.
pub fn planrun(text: &[u8]) -> String {
    let mut scripts = vec![0; scripts::STORE];
    let (number, companion, plan) = read_plan(text, &mut scripts);
    if number != 0 {
        return format!("(refused {number} {companion})\n");
    }
    let mut state = State::default();
    let (mut cache, mut boxes) = (vec![0; cache::TABLE], vec![0; mail::BOXES]);
    let mut log = vec![0; LOG];
    let lent = Lent {
        cache: &mut cache,
        boxes: &mut boxes,
        log: &mut log,
    };
    fresh_start(&plan, &mut state, lent.cache, lent.boxes).expect("a plan just read");
    run(&plan, &scripts, &mut state, lent, u64::MAX).expect("a fresh start");

    let mut output = String::new();
    for domain in 0..plan.domains.len() as u32 {
        let part = log_of(&plan, &state, &log, domain).expect("a declared domain");
        let (records, _) = log[part.place..][..part.length].as_chunks::<RECORD>();
        for record in records
            .iter()
            .filter_map(|bytes| Record::from_bytes(*bytes))
        {
            let Record { kind, value, clock } = record;
            writeln!(output, "(seen {domain} {clock} ({} {value}))", kind.word())
                .expect("a string takes all");
        }
    }
    writeln!(output, "(end {} {})", state.completed, state.clock).expect("a string takes all");
    output
}
