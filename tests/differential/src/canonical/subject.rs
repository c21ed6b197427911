//! A writer together with the reader that it writes for.

use super::call::WriteCall;
use crate::engine::{Engine, Writer};
use crate::generate::write::LONGEST;
use crate::world::{Call, World};

/// A writer, and the engine that reads what it writes.
#[derive(Clone, Copy)]
pub struct Subject<'e> {
    pub engine: &'e dyn Engine,
    pub writer: &'e dyn Writer,
}

/// What a text gives: a plan and scripts.
#[derive(Clone, Debug, PartialEq, Eq)]
pub struct Given {
    pub plan: Vec<u32>,
    pub scripts: Vec<u32>,
}

impl Subject<'_> {
    /// What a text gives; none where it is refused.
    pub fn read(&self, text: &[u8]) -> Option<Given> {
        given_by(self.engine, text)
    }

    /// The text of a plan and scripts that some text has given, from a buffer with
    /// room for any text.
    pub fn write(&self, given: &Given) -> Result<Vec<u8>, String> {
        let call = WriteCall::new(&given.plan, &given.scripts, LONGEST);
        match call.made_by(self.writer) {
            (0, after) => Ok(after.text().to_vec()),
            (number, _) => Err(format!("a writing was refused with {number}")),
        }
    }
}

/// What an engine makes of a text; none where it refuses it.
pub fn given_by(engine: &dyn Engine, text: &[u8]) -> Option<Given> {
    let mut world = World::blank(0);
    match world.call(engine, &Call::Read(text.to_vec())) {
        0 => Some(Given {
            plan: world.plan.to_vec(),
            scripts: world.scripts.to_vec(),
        }),
        _ => None,
    }
}
