//! Two writers that get the same call.

use super::call::WriteCall;
use super::laws;
use super::subject::Subject;
use crate::compare::{agreed, Difference};

/// Makes a call with both writers, and judges each by its own engine. Gives the
/// number that both returned and what both left if they agree in everything.
pub fn compare(subjects: [Subject; 2], before: &WriteCall) -> Result<(u32, WriteCall), Difference> {
    let made = subjects.map(|subject| before.made_by(subject.writer));
    for (subject, (number, after)) in subjects.iter().zip(&made) {
        let due = laws::due(subject.engine, before);
        let judged = laws::judge(subject.engine, due, before, after, *number);
        judged.map_err(|what| {
            let name = subject.writer.name();
            Difference(format!("{name}: {what}\n{}", scene(before, *number, after)))
        })?;
    }
    let names = subjects.map(|subject| subject.writer.name());
    agreed(names, made, |number, after| scene(before, number, after))
}

/// A call and what it left, for the message.
fn scene(before: &WriteCall, number: u32, after: &WriteCall) -> String {
    let written = after.answer.get(2).map_or(0, |bytes| *bytes as usize);
    let text = &after.out[..written.min(after.out.len())];
    format!(
        "plan {:?} scripts {:?} and a buffer of {} returned {number} and left {:?} and {:?}",
        before.plan,
        before.scripts,
        before.out.len(),
        after.answer,
        String::from_utf8_lossy(text),
    )
}
