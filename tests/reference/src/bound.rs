//! How many steps a run can take: document 02, E3.

use crate::limits::{DOMAINS, OPS};
use crate::op::Op;
use crate::plan::Plan;
use crate::refusal::Refusal;
use crate::scripts::Scripts;

/// The step limit that always suffices from a fresh start, in its parts. A step is
/// an op or a switch, so there is a part for each.
#[derive(Clone, Copy, Debug, PartialEq, Eq)]
pub struct StepBound {
    /// The ops that all eight scripts hold. A position only ever goes up, so no op
    /// is done twice.
    pub ops: u64,
    /// One for each window, repeats included.
    pub switches: u64,
}

impl StepBound {
    /// The limit itself.
    pub fn steps(self) -> u64 {
        self.ops + self.switches
    }
}

/// The bound of a plan and a script store: 11 first, then 12.
pub fn step_bound(plan: &Plan, scripts: &[u32]) -> Result<StepBound, Refusal> {
    let scripts = Scripts::over(scripts).ok_or(Refusal::TableLength)?;
    let schedule = plan.schedule()?;
    let all = (0..DOMAINS).map(|domain| scripts.of(domain));
    Ok(StepBound {
        ops: all.map(stored_ops).sum(),
        switches: schedule.windows(),
    })
}

/// How many ops stand before a script's end. What stands behind it does not count,
/// even where it is an op, since no run from a fresh start gets there.
fn stored_ops(script: &[u32; OPS]) -> u64 {
    let before_the_end = script
        .iter()
        .take_while(|number| Op::from_stored(**number).is_some());
    before_the_end.count() as u64
}
