//! One call of a bounder, with everything that is lent to it.

use crate::engine::{Bounder, ANSWER, PLAN, SCRIPTS};
use crate::guarded::Guarded;

/// What a bounder gets, or the same as it left it.
#[derive(Clone, Debug, PartialEq, Eq)]
pub struct BoundCall {
    pub plan: Guarded<u32>,
    pub scripts: Guarded<u32>,
    pub answer: Guarded<u64>,
}

impl BoundCall {
    /// A call with an answer of the right length. What it held before must not
    /// matter, so it is not 0.
    pub fn new(plan: &[u32], scripts: &[u32]) -> Self {
        BoundCall {
            plan: Guarded::new(plan),
            scripts: Guarded::new(scripts),
            answer: Guarded::new(&[0x0123_4567_89ab_cdef; ANSWER]),
        }
    }

    /// Makes the call on a copy; gives the refusal's number that the bounder
    /// returned, and the copy.
    pub fn made_by(&self, bounder: &dyn Bounder) -> (u32, BoundCall) {
        let mut after = self.clone();
        let number = bounder.step_bound(&after.plan, &after.scripts, &mut after.answer);
        (number, after)
    }

    pub fn has_right_lengths(&self) -> bool {
        self.plan.len() == PLAN && self.scripts.len() == SCRIPTS && self.answer.len() == ANSWER
    }

    /// Whether nothing was written past any row's ends.
    pub fn is_intact(&self) -> bool {
        self.plan.is_intact() && self.scripts.is_intact() && self.answer.is_intact()
    }
}
