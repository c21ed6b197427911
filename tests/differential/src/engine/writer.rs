//! Document 02's plan written back (E4) over plain numbers, whoever writes it. As
//! with frames, an engine is whole without it.

#[cfg(linked)]
use super::Linked;
use super::NOT_LINKED;

/// An implementation. It gives the refusal's number, 0 for none, and writes an
/// answer of four numbers: the same number, its companion (of 17 the length needed,
/// else 0), the bytes written (0 beside a refusal) and 0. A plan, a store or an
/// answer of another length is refusal 11, and then nothing is written but an
/// answer of the right length. The buffer has any length. It stays behind the text,
/// and beside a refusal all of it does.
pub trait Writer {
    fn name(&self) -> &'static str;

    fn write_plan(&self, plan: &[u32], scripts: &[u32], out: &mut [u8], answer: &mut [u64]) -> u32;
}

/// The linked library's writer, to be held against the reference's. A test that
/// asks for it fails where no library is linked.
pub fn writer_under_test() -> Box<dyn Writer> {
    linked().expect(NOT_LINKED)
}

fn linked() -> Option<Box<dyn Writer>> {
    #[cfg(linked)]
    return Some(Box::new(Linked));
    #[cfg(not(linked))]
    return None;
}
