//! What document 02 says of every latest end, whoever tells it. Nothing is searched
//! for here: the script that was handed back is run, and so are a few that are known
//! to be late. The ticks that were told are as many as the first one takes and no
//! fewer than any of the others, which leaves one answer to each call. A fresh start
//! shows whether a plan is possible.

use super::call::LatestCall;
use super::windows::finished_windows;
use crate::engine::{Engine, ANSWER, PLAN, SCRIPT, SCRIPTS};
use crate::generate::late_scripts::known_scripts;
use crate::generate::sketch::Act;
use crate::world::{Call, World};
use std::ops::RangeInclusive;

/// The lengths of windows of which a latest end is told.
pub const LENGTHS: RangeInclusive<u32> = 4_000..=20_000;

/// The number and the companion that are due to a call, as this engine shows it.
pub fn due(engine: &dyn Engine, call: &LatestCall) -> Result<[u64; 2], String> {
    let plan: Option<&[u32; PLAN]> = call.plan[..].try_into().ok();
    let Some(plan) = plan.filter(|_| call.has_right_lengths()) else {
        return Ok([11, 0]);
    };
    match World::new(plan, &[0; SCRIPTS], 0).call(engine, &Call::FreshStart) {
        0 if is_told_of(plan, call.domain) => Ok([0, 0]),
        0 => Ok([18, u64::from(call.domain)]),
        12 => Ok([12, 0]),
        number => Err(format!("a fresh start was refused with {number}")),
    }
}

/// Whether a domain of a possible plan has windows, and all of them of such lengths.
/// An undeclared one has none.
fn is_told_of(plan: &[u32; PLAN], domain: u32) -> bool {
    let places = 0..plan[3] as usize;
    let own: Vec<usize> = places.filter(|place| plan[20 + place] == domain).collect();
    !own.is_empty() && own.iter().all(|place| LENGTHS.contains(&plan[52 + place]))
}

/// Judges one call by what was lent before and after it.
pub fn judge(
    engine: &dyn Engine,
    due: [u64; 2],
    before: &LatestCall,
    after: &LatestCall,
    number: u32,
) -> Result<(), String> {
    if !after.is_intact() {
        return Err("something was written past what was lent".into());
    }
    if after.plan != before.plan {
        return Err("the plan was changed".into());
    }
    if u64::from(number) != due[0] {
        return Err(format!("{number} was returned where {} is due", due[0]));
    }
    if number != 0 && after.script != before.script {
        return Err("a script was written beside a refusal".into());
    }
    if before.answer.len() != ANSWER {
        return match after.answer == before.answer {
            true => Ok(()),
            false => Err("an answer of another length is not written".into()),
        };
    }
    let ticks = after.answer[2];
    if after.answer[..] != [due[0], due[1], ticks, 0] {
        let answer = &after.answer;
        return Err(format!("{answer:?} was answered, {due:?} is due"));
    }
    match number {
        0 => judge_ticks(engine, after, ticks),
        _ if ticks == 0 => Ok(()),
        _ => Err("ticks were told beside a refusal".into()),
    }
}

fn judge_ticks(engine: &dyn Engine, told: &LatestCall, ticks: u64) -> Result<(), String> {
    let numbers = told.script.iter();
    let ops = numbers.take_while(|number| Act::is_stored(**number));
    if told.script[ops.count()..].iter().any(|number| *number != 0) {
        return Err("there is something behind the script's end".into());
    }
    let reached = first_window(engine, told, &told.script)?;
    if reached != ticks {
        return Err(format!("the script takes {reached} ticks of {ticks}"));
    }
    for script in known_scripts(&told.plan, told.domain) {
        let reached = first_window(engine, told, &script)?;
        if reached > ticks {
            return Err(format!(
                "{script:?} takes {reached} ticks, more than {ticks}"
            ));
        }
    }
    Ok(())
}

/// How late the domain's first window is with this script, where no other domain has
/// one and each part of the log holds 256 records.
fn first_window(engine: &dyn Engine, told: &LatestCall, script: &[u32]) -> Result<u64, String> {
    let domain = told.domain as usize;
    let mut store = [0; SCRIPTS];
    store[SCRIPT * domain..][..SCRIPT].copy_from_slice(script);
    let plan: &[u32; PLAN] = told.plan[..].try_into().expect("a plan that was taken");
    let log = 8 * SCRIPT * plan[2] as usize;
    let world = World::new(plan, &store, log);
    let windows = finished_windows(engine, world, |window| window.domain == domain)?;
    let first = windows.last().filter(|window| window.domain == domain);
    first
        .map(|window| window.late)
        .ok_or("the domain has no window".into())
}
