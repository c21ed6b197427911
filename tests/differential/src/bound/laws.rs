//! What document 02 says of every bound, whoever tells it. Ops are not told from
//! other numbers here: an engine runs the scripts in a plan so wide that each of
//! them runs out, and its steps show how many ops were stored. In the same way a
//! fresh start shows whether a plan is possible. One answer is left to each call,
//! so a fault is found also where two bounders share it.

use super::call::BoundCall;
use crate::engine::{Engine, ANSWER, PLAN};
use crate::generate::sketch::{Member, Sketch};
use crate::world::{Call, World};

/// Domains and windows of the wide plan.
const WIDE: usize = 8;
/// Time for 256 of the dearest ops.
const LENGTH: u32 = 256 * 213;
/// Bytes of a log with room for all ops of each domain.
const LOG: usize = WIDE * 256 * 8;

/// The answer that is due to a call, as this engine shows it.
pub fn due(engine: &dyn Engine, call: &BoundCall) -> Result<[u64; ANSWER], String> {
    let plan: Option<&[u32; PLAN]> = call.plan[..].try_into().ok();
    let Some(plan) = plan.filter(|_| call.has_right_lengths()) else {
        return Ok([11, 0, 0, 0]);
    };
    match World::new(plan, &call.scripts, 0).call(engine, &Call::FreshStart) {
        0 => {
            let switches = u64::from(plan[1]) * u64::from(plan[3]);
            let ops = stored_ops(engine, &call.scripts)?;
            Ok([0, 0, ops + switches, 0])
        }
        12 => Ok([12, 0, 0, 0]),
        number => Err(format!("a fresh start was refused with {number}")),
    }
}

/// Judges one call by what was lent before and after it.
pub fn judge(
    due: [u64; ANSWER],
    before: &BoundCall,
    after: &BoundCall,
    number: u32,
) -> Result<(), String> {
    if !after.is_intact() {
        return Err("something was written past what was lent".into());
    }
    if after.plan != before.plan || after.scripts != before.scripts {
        return Err("the plan or the scripts were changed".into());
    }
    if u64::from(number) != due[0] {
        return Err(format!("{number} was returned where {} is due", due[0]));
    }
    match before.answer.len() {
        ANSWER if after.answer[..] == due => Ok(()),
        ANSWER => Err(format!("{:?} was answered, {due:?} is due", after.answer)),
        _ if after.answer == before.answer => Ok(()),
        _ => Err("an answer of another length is not written".into()),
    }
}

/// How many ops these scripts hold, found by running all of them to their ends.
fn stored_ops(engine: &dyn Engine, scripts: &[u32]) -> Result<u64, String> {
    let mut world = World::new(&wide_plan(), scripts, LOG);
    world.accept(engine, &Call::FreshStart)?;
    world.accept(engine, &Call::Run(u64::MAX))?;
    let ops = world.answer[2].checked_sub(WIDE as u64);
    ops.ok_or("a run had fewer steps than windows".into())
}

/// A window for each of eight domains, with time for any script.
fn wide_plan() -> [u32; PLAN] {
    let member = Member {
        share: 99,
        may: Vec::new(),
        script: Vec::new(),
    };
    let wide = Sketch {
        pad: 376,
        run: 1,
        members: vec![member; WIDE],
        windows: (0..WIDE as u32).map(|domain| (domain, LENGTH)).collect(),
    };
    wide.flat()
}
