//! A lateness finder together with the machine that it speaks of.

use super::call::LatestCall;
use crate::engine::{Engine, LatenessFinder};

/// A finder, and the engine whose windows it speaks of.
#[derive(Clone, Copy)]
pub struct Subject<'e> {
    pub engine: &'e dyn Engine,
    pub finder: &'e dyn LatenessFinder,
}

/// What a domain is told: the most ticks, and a script that takes them.
#[derive(Clone, Debug, PartialEq, Eq)]
pub struct Told {
    pub ticks: u64,
    pub script: Vec<u32>,
}

impl Subject<'_> {
    /// What a domain of a plan is told; none where that is refused.
    pub fn told(&self, plan: &[u32], domain: u32) -> Option<Told> {
        match LatestCall::new(plan, domain).made_by(self.finder) {
            (0, after) => Some(Told {
                ticks: after.answer[2],
                script: after.script.to_vec(),
            }),
            _ => None,
        }
    }
}
