//! The board before document 02, E7, which changes nothing in L2 for a dirty line that is
//! replaced. Where it leaves something else than the reference, E7 shows.

use super::reference::{advance, native};
use super::{Engine, Kept, Reference, Tables};
use pirkvezo_reference::cache::Board;
use pirkvezo_reference::journal::Keeping;
use pirkvezo_reference::machine::{run_watched, Manner};

/// The reference in all but that.
#[derive(Clone, Copy, Debug, Default)]
pub struct OldBoard;

impl Engine for OldBoard {
    fn name(&self) -> &'static str {
        "old board"
    }

    fn read_plan(
        &self,
        text: &[u8],
        scripts: &mut [u32],
        plan: &mut [u32],
        answer: &mut [u64],
    ) -> u32 {
        Reference.read_plan(text, scripts, plan, answer)
    }

    fn fresh_start(
        &self,
        plan: &[u32],
        state: &mut [u64],
        cache: &mut [u16],
        boxes: &mut [u32],
        answer: &mut [u64],
    ) -> u32 {
        Reference.fresh_start(plan, state, cache, boxes, answer)
    }

    fn step(&self, tables: Tables, answer: &mut [u64]) -> u32 {
        self.run(tables, 1, answer)
    }

    fn run(&self, tables: Tables, limit: u64, answer: &mut [u64]) -> u32 {
        run_keeping(Keeping::All, tables, limit, answer)
    }

    fn run_kept(&self, tables: Tables, kept: Kept, limit: u64, answer: &mut [u64]) -> u32 {
        run_keeping(Keeping::One(native(kept)), tables, limit, answer)
    }

    fn log(&self, plan: &[u32], state: &[u64], log: &[u8], domain: u32, answer: &mut [u64]) -> u32 {
        Reference.log(plan, state, log, domain, answer)
    }
}

fn run_keeping(keeping: Keeping, tables: Tables, limit: u64, answer: &mut [u64]) -> u32 {
    let board = Board::Old;
    let manner = Manner { board, keeping };
    advance(tables, answer, |plan, scripts, state, lent| {
        run_watched(manner, plan, scripts, state, lent, limit, |_, _| ())
    })
}
