//! One call of a frame maker, with everything that is lent to it.

use crate::engine::{FrameMaker, ANSWER, FRAME, WEIGHTS};
use crate::guarded::Guarded;

/// What a frame maker gets, or the same as it left it.
#[derive(Clone, Debug, PartialEq, Eq)]
pub struct FrameCall {
    pub count: u32,
    pub weights: Guarded<u32>,
    pub frame: Guarded<u32>,
    pub answer: Guarded<u64>,
}

impl FrameCall {
    /// A call with rows of the right lengths. What frame and answer held before
    /// must not matter, so it is not 0.
    pub fn new(count: u32, weights: [u32; WEIGHTS]) -> Self {
        FrameCall {
            count,
            weights: Guarded::new(&weights),
            frame: Guarded::new(&[0xdead_beef; FRAME]),
            answer: Guarded::new(&[0x0123_4567_89ab_cdef; ANSWER]),
        }
    }

    /// Makes the call on a copy; gives the refusal's number that the maker
    /// returned, and the copy.
    pub fn made_by(&self, maker: &dyn FrameMaker) -> (u32, FrameCall) {
        let mut after = self.clone();
        let FrameCall {
            count,
            weights,
            frame,
            answer,
        } = &mut after;
        let number = maker.frame(*count, weights, frame, answer);
        (number, after)
    }

    pub fn has_right_lengths(&self) -> bool {
        self.weights.len() == WEIGHTS && self.frame.len() == FRAME && self.answer.len() == ANSWER
    }

    /// Whether nothing was written past any row's ends.
    pub fn is_intact(&self) -> bool {
        self.weights.is_intact() && self.frame.is_intact() && self.answer.is_intact()
    }
}
