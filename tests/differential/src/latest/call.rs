//! One call of a lateness finder, with everything that is lent to it.

use crate::engine::{LatenessFinder, ANSWER, PLAN, SCRIPT};
use crate::guarded::Guarded;

/// What a finder gets, or the same as it left it.
#[derive(Clone, Debug, PartialEq, Eq)]
pub struct LatestCall {
    pub plan: Guarded<u32>,
    pub domain: u32,
    pub script: Guarded<u32>,
    pub answer: Guarded<u64>,
}

impl LatestCall {
    /// A call with a script and an answer of the right length. What the answer held
    /// before must not matter, so it is not 0. What the script held before are ops, no
    /// two of them the same, so that it shows whether they were kept and matters if
    /// some of them were.
    pub fn new(plan: &[u32], domain: u32) -> Self {
        let held: Vec<u32> = (0..SCRIPT as u32).map(|at| 0x10_1000 | at).collect();
        LatestCall {
            plan: Guarded::new(plan),
            domain,
            script: Guarded::new(&held),
            answer: Guarded::new(&[0x0123_4567_89ab_cdef; ANSWER]),
        }
    }

    /// Makes the call on a copy; gives the refusal's number that the finder returned,
    /// and the copy.
    pub fn made_by(&self, finder: &dyn LatenessFinder) -> (u32, LatestCall) {
        let mut after = self.clone();
        let LatestCall {
            plan,
            domain,
            script,
            answer,
        } = &mut after;
        let number = finder.latest(plan, *domain, script, answer);
        (number, after)
    }

    pub fn has_right_lengths(&self) -> bool {
        self.plan.len() == PLAN && self.script.len() == SCRIPT && self.answer.len() == ANSWER
    }

    /// Whether nothing was written past any row's ends.
    pub fn is_intact(&self) -> bool {
        self.plan.is_intact() && self.script.is_intact() && self.answer.is_intact()
    }
}
