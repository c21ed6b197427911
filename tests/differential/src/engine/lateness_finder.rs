//! Document 02's latest end of a domain (E6) over plain numbers, whoever finds it. As
//! with frames, an engine is whole without it.

#[cfg(linked)]
use super::Linked;
use super::NOT_LINKED;

/// Numbers in one domain's script.
pub const SCRIPT: usize = 256;

/// An implementation. It gives the refusal's number, 0 for none, and writes an
/// answer of four numbers: the same number, its companion (of 18 the domain, else 0),
/// the most ticks from the end of one of the domain's windows until line 60 is touched
/// (0 beside a refusal) and 0. It also writes a script that takes so many. A plan, a
/// script or an answer of another length is refusal 11, and then nothing is written
/// but an answer of the right length. Beside any refusal the script stays.
pub trait LatenessFinder {
    fn name(&self) -> &'static str;

    fn latest(&self, plan: &[u32], domain: u32, script: &mut [u32], answer: &mut [u64]) -> u32;
}

/// The linked library's finder, to be held against the reference's. A test that asks
/// for it fails where no library is linked.
pub fn lateness_finder_under_test() -> Box<dyn LatenessFinder> {
    linked().expect(NOT_LINKED)
}

fn linked() -> Option<Box<dyn LatenessFinder>> {
    #[cfg(linked)]
    return Some(Box::new(Linked));
    #[cfg(not(linked))]
    return None;
}
