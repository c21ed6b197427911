//! What document 02 says of every plan written back, whoever writes it. No text is
//! written here in the single form: a reader shows whether any text gives what was
//! lent, and how long it must be, and what a text says and how is looked at apart.
//! One answer and one text are left to each call, so a fault is found also where two
//! writers share it.

use super::call::WriteCall;
use super::form;
use super::subject::{given_by, Given};
use super::witness::witness;
use crate::engine::{Engine, ANSWER, PLAN};

/// The answer that is due to a call, as this engine's reader shows it.
pub fn due(engine: &dyn Engine, call: &WriteCall) -> [u64; ANSWER] {
    let plan: Option<&[u32; PLAN]> = call.plan[..].try_into().ok();
    let Some(plan) = plan.filter(|_| call.has_right_lengths()) else {
        return [11, 0, 0, 0];
    };
    let shortest = witness(plan, &call.scripts);
    if !gives(engine, &shortest, call) {
        return [12, 0, 0, 0];
    }
    let needed = shortest.len() as u64;
    match call.out.len() < shortest.len() {
        true => [17, needed, 0, 0],
        false => [0, 0, needed, 0],
    }
}

/// Judges one call by what was lent before and after it.
pub fn judge(
    engine: &dyn Engine,
    due: [u64; ANSWER],
    before: &WriteCall,
    after: &WriteCall,
    number: u32,
) -> Result<(), String> {
    if !after.is_intact() {
        return Err("something was written past what was lent".into());
    }
    if after.plan != before.plan || after.scripts != before.scripts {
        return Err("the plan or the scripts were changed".into());
    }
    if u64::from(number) != due[0] {
        return Err(format!("{number} was returned where {} is due", due[0]));
    }
    judge_answer(due, before, after)?;
    let written = due[2] as usize;
    if after.out[written..] != before.out[written..] {
        return Err("the buffer did not stay behind the text".into());
    }
    match number {
        0 => judge_text(engine, after),
        _ => Ok(()),
    }
}

fn judge_answer(due: [u64; ANSWER], before: &WriteCall, after: &WriteCall) -> Result<(), String> {
    match before.answer.len() {
        ANSWER if after.answer[..] == due => Ok(()),
        ANSWER => Err(format!("{:?} was answered, {due:?} is due", after.answer)),
        _ if after.answer == before.answer => Ok(()),
        _ => Err("an answer of another length is not written".into()),
    }
}

fn judge_text(engine: &dyn Engine, after: &WriteCall) -> Result<(), String> {
    form::judge(after.text())?;
    match gives(engine, after.text(), after) {
        true => Ok(()),
        false => Err("the text is not read as what was lent".into()),
    }
}

/// Whether this engine reads a text as a call's plan and scripts.
fn gives(engine: &dyn Engine, text: &[u8], call: &WriteCall) -> bool {
    let lent = Given {
        plan: call.plan.to_vec(),
        scripts: call.scripts.to_vec(),
    };
    given_by(engine, text) == Some(lent)
}
