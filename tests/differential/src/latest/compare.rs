//! Two lateness finders that get the same call.

use super::call::LatestCall;
use super::laws;
use super::subject::Subject;
use crate::compare::{agreed, Difference};

/// Makes a call with both finders, and judges each by its own engine. Gives the number
/// that both returned and what both left if they agree in all that is not free.
pub fn compare(
    subjects: [Subject; 2],
    before: &LatestCall,
) -> Result<(u32, LatestCall), Difference> {
    let made = subjects.map(|subject| before.made_by(subject.finder));
    for (subject, (number, after)) in subjects.iter().zip(&made) {
        let due = laws::due(subject.engine, before);
        let judged = due.and_then(|due| laws::judge(subject.engine, due, before, after, *number));
        judged.map_err(|what| {
            let name = subject.finder.name();
            Difference(format!("{name}: {what}\n{}", scene(before, *number, after)))
        })?;
    }
    let names = subjects.map(|subject| subject.finder.name());
    let made = made.map(|(number, after)| (number, without_free(number, after)));
    agreed(names, made, |number, after| scene(before, number, after))
}

/// What a call left, but for the script of an accepted one: any script that is late
/// enough will do.
pub fn without_free(number: u32, mut after: LatestCall) -> LatestCall {
    if number == 0 {
        after.script.fill(0);
    }
    after
}

/// A call and what it left, for the message.
fn scene(before: &LatestCall, number: u32, after: &LatestCall) -> String {
    format!(
        "{before:?} returned {number} and left {:?} and {:?}",
        after.answer, after.script
    )
}
