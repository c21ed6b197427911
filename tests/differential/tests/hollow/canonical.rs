//! Writers that look right but are not: document 02, E4. Each is found out in two
//! ways, by its difference from the reference and by the laws alone.

use crate::write_faults::WriteFault;
use crate::writers::HollowWriter;
use pirkvezo_differential::canonical::call::WriteCall;
use pirkvezo_differential::canonical::compare::compare;
use pirkvezo_differential::canonical::laws;
use pirkvezo_differential::canonical::subject::Subject;
use pirkvezo_differential::engine::{Reference, Writer};
use pirkvezo_differential::generate::write_calls::{call_near_the_limit, random_write_call};
use pirkvezo_differential::rng::Rng;
use pirkvezo_differential::seed::{cases, Case};

/// A writer whose texts the reference reads.
fn subject(writer: &dyn Writer) -> Subject<'_> {
    Subject {
        engine: &Reference,
        writer,
    }
}

/// Any call, and one in eighty of a long text, which takes its time.
fn some_call(case: Case, rng: &mut Rng) -> WriteCall {
    match case.case % 80 {
        0 => call_near_the_limit(rng),
        _ => random_write_call(rng),
    }
}

#[test]
fn a_whole_writer_agrees() {
    let subjects = [&Reference as &dyn Writer, &HollowWriter(WriteFault::None)].map(subject);
    for (case, mut rng) in cases("whole writer", 2_000) {
        let agreed = compare(subjects, &some_call(case, &mut rng));
        agreed.unwrap_or_else(|difference| panic!("{case}: {difference}"));
    }
}

/// A fault that was found out so often is not looked for any more.
const ENOUGH: u32 = 40;

/// The laws leave one answer and one text possible, so a writer breaks one wherever
/// it differs from the reference.
#[test]
fn hollow_writers_are_found_out() {
    let mut found = [0; WriteFault::HOLLOW.len()];
    for (case, mut rng) in cases("hollow writers", 4_000) {
        let call = some_call(case, &mut rng);
        let due = laws::due(&Reference, &call);
        let right = call.made_by(&Reference);
        let judged = laws::judge(&Reference, due, &call, &right.1, right.0);
        judged.unwrap_or_else(|what| panic!("{case}: {what}"));
        let faults = WriteFault::HOLLOW.iter().zip(&mut found);
        for (fault, found) in faults.filter(|(_, found)| **found < ENOUGH) {
            let made = call.made_by(&HollowWriter(*fault));
            if made != right {
                let broken = laws::judge(&Reference, due, &call, &made.1, made.0);
                assert!(broken.is_err(), "{fault:?}, {case}: no law was broken");
                *found += 1;
            }
        }
    }
    for (fault, found) in WriteFault::HOLLOW.iter().zip(found) {
        assert!(found > 0, "{fault:?} was not found out");
    }
}
