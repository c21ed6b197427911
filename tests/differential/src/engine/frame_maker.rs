//! Document 02's frame maker (E1) over plain numbers, whoever implements it. It
//! is no part of an engine: an engine is whole without it.

#[cfg(linked)]
use super::Linked;
use super::NOT_LINKED;

/// Numbers in a row of weights and in a frame.
pub const WEIGHTS: usize = 8;
pub const FRAME: usize = 32;

/// An implementation. It gives the refusal's number, 0 for none, and writes an
/// answer of four numbers: the same number and three zeros. A row of another
/// length is refusal 11, and then nothing is written but an answer of the right
/// length. Beside refusal 15 the frame is all zeros.
pub trait FrameMaker {
    fn name(&self) -> &'static str;

    fn frame(&self, count: u32, weights: &[u32], frame: &mut [u32], answer: &mut [u64]) -> u32;
}

/// The linked library's frame maker, to be held against the reference's. A test
/// that asks for it fails where no library is linked.
pub fn frame_maker_under_test() -> Box<dyn FrameMaker> {
    linked().expect(NOT_LINKED)
}

fn linked() -> Option<Box<dyn FrameMaker>> {
    #[cfg(linked)]
    return Some(Box::new(Linked));
    #[cfg(not(linked))]
    return None;
}
