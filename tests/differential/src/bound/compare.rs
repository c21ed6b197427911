//! Two bounders that get the same call.

use super::call::BoundCall;
use super::laws;
use super::subject::Subject;
use crate::compare::{agreed, Difference};

/// Makes a call with both bounders, and judges each by its own engine. Gives the
/// number that both returned and what both left if they agree in everything.
pub fn compare(subjects: [Subject; 2], before: &BoundCall) -> Result<(u32, BoundCall), Difference> {
    let made = subjects.map(|subject| before.made_by(subject.bounder));
    for (subject, (number, after)) in subjects.iter().zip(&made) {
        let due = laws::due(subject.engine, before);
        let judged = due.and_then(|due| laws::judge(due, before, after, *number));
        judged.map_err(|what| {
            let name = subject.bounder.name();
            Difference(format!("{name}: {what}\n{}", scene(before, *number, after)))
        })?;
    }
    let names = subjects.map(|subject| subject.bounder.name());
    agreed(names, made, |number, after| scene(before, number, after))
}

/// A call and what it left, for the message.
fn scene(before: &BoundCall, number: u32, after: &BoundCall) -> String {
    format!("{before:?} returned {number} and left {:?}", after.answer)
}
