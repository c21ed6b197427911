//! One call of a writer, with everything that is lent to it.

use crate::engine::{Writer, ANSWER, PLAN, SCRIPTS};
use crate::guarded::Guarded;

/// What a writer gets, or the same as it left it.
#[derive(Clone, Debug, PartialEq, Eq)]
pub struct WriteCall {
    pub plan: Guarded<u32>,
    pub scripts: Guarded<u32>,
    pub out: Guarded<u8>,
    pub answer: Guarded<u64>,
}

impl WriteCall {
    /// A call with an answer of the right length and a buffer of so many bytes. What
    /// they held before is neither 0 nor text, and no two bytes that lie close
    /// together are the same, so that it shows whether they were kept.
    pub fn new(plan: &[u32], scripts: &[u32], room: usize) -> Self {
        let held: Vec<u8> = (0..room).map(|at| 0x80 | at as u8).collect();
        WriteCall {
            plan: Guarded::new(plan),
            scripts: Guarded::new(scripts),
            out: Guarded::new(&held),
            answer: Guarded::new(&[0x0123_4567_89ab_cdef; ANSWER]),
        }
    }

    /// Makes the call on a copy; gives the refusal's number that the writer
    /// returned, and the copy.
    pub fn made_by(&self, writer: &dyn Writer) -> (u32, WriteCall) {
        let mut after = self.clone();
        let WriteCall {
            plan,
            scripts,
            out,
            answer,
        } = &mut after;
        let number = writer.write_plan(plan, scripts, out, answer);
        (number, after)
    }

    pub fn has_right_lengths(&self) -> bool {
        self.plan.len() == PLAN && self.scripts.len() == SCRIPTS && self.answer.len() == ANSWER
    }

    /// Whether nothing was written past any row's ends.
    pub fn is_intact(&self) -> bool {
        self.plan.is_intact()
            && self.scripts.is_intact()
            && self.out.is_intact()
            && self.answer.is_intact()
    }

    /// Of a call that was made and not refused, the text that was written.
    pub fn text(&self) -> &[u8] {
        &self.out[..self.answer[2] as usize]
    }
}
