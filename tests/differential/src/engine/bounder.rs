//! Document 02's bound of a run's steps (E3) over plain numbers, whoever answers
//! it. As with frames, an engine is whole without it.

#[cfg(linked)]
use super::Linked;
use super::NOT_LINKED;

/// An implementation. It gives the refusal's number, 0 for none, and writes an
/// answer of four numbers: the same number, 0, the bound (0 beside a refusal) and
/// 0. A plan, a store or an answer of another length is refusal 11, and then
/// nothing is written but an answer of the right length.
pub trait Bounder {
    fn name(&self) -> &'static str;

    fn step_bound(&self, plan: &[u32], scripts: &[u32], answer: &mut [u64]) -> u32;
}

/// The linked library's bound, to be held against the reference's. A test that
/// asks for it fails where no library is linked.
pub fn bounder_under_test() -> Box<dyn Bounder> {
    linked().expect(NOT_LINKED)
}

fn linked() -> Option<Box<dyn Bounder>> {
    #[cfg(linked)]
    return Some(Box::new(Linked));
    #[cfg(not(linked))]
    return None;
}
