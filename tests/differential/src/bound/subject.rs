//! A bounder together with the machine that it speaks of.

use super::call::BoundCall;
use crate::engine::{Bounder, Engine};
use crate::world::World;

/// A bounder, and the engine whose runs it bounds.
#[derive(Clone, Copy)]
pub struct Subject<'e> {
    pub engine: &'e dyn Engine,
    pub bounder: &'e dyn Bounder,
}

impl Subject<'_> {
    /// The bound of a world with a possible plan.
    pub fn bound(&self, world: &World) -> Result<u64, String> {
        match BoundCall::new(&world.plan, &world.scripts).made_by(self.bounder) {
            (0, after) => Ok(after.answer[2]),
            (number, _) => Err(format!("a bound was refused with {number}")),
        }
    }
}
