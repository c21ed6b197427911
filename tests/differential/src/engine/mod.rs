//! Document 01's entry points over plain numbers, whoever implements them, with the run
//! of document 02, E8, that keeps one domain's log, and beside them document 02's frame
//! maker, its bound of a run's steps, its plan written back and its latest end of a
//! domain.

mod bounder;
mod c_engine;
mod frame_maker;
mod lateness_finder;
#[cfg(linked)]
mod linked;
mod old_board;
mod reference;
mod writer;

pub use bounder::{bounder_under_test, Bounder};
pub use frame_maker::{frame_maker_under_test, FrameMaker, FRAME, WEIGHTS};
pub use lateness_finder::{lateness_finder_under_test, LatenessFinder, SCRIPT};
#[cfg(linked)]
use linked::Linked;
pub use old_board::OldBoard;
pub use reference::Reference;
pub use writer::{writer_under_test, Writer};

/// Numbers in a script store, a cache table and a table of boxes.
pub const SCRIPTS: usize = 2_048;
pub const CACHE: usize = 272;
pub const BOXES: usize = 64;
/// Numbers in a plan, a state and an answer.
pub const PLAN: usize = 92;
pub const STATE: usize = 18;
pub const ANSWER: usize = 4;

/// Why a test fails that needs the library.
const NOT_LINKED: &str = "no library is linked: PIRKVEZO_LIB names the folder of libpirkvezo.a";

/// What a step or a run is lent.
#[derive(Debug)]
pub struct Tables<'a> {
    pub plan: &'a [u32],
    pub scripts: &'a [u32],
    pub state: &'a mut [u64],
    pub cache: &'a mut [u16],
    pub boxes: &'a mut [u32],
    /// Everyone's or, for a run that keeps one domain's log, that domain's part.
    pub log: &'a mut [u8],
}

/// Whose log a run keeps, and how many records each domain's part holds.
#[derive(Clone, Copy, Debug, PartialEq, Eq)]
pub struct Kept {
    pub domain: u32,
    pub part: u64,
}

/// An implementation. Each call gives the refusal's number, 0 for none, and
/// writes an answer of four numbers: the same number, its companion, then for
/// step and run the steps done and 1 for ended (0 for stopped), and for a log
/// the place of its first byte and its length; 0 and 0 otherwise. A plan, a
/// state or an answer of another length is refusal 11, and then nothing is
/// written but an answer of the right length. A refused reading otherwise
/// writes zeros to the plan.
pub trait Engine {
    fn name(&self) -> &'static str;

    fn read_plan(
        &self,
        text: &[u8],
        scripts: &mut [u32],
        plan: &mut [u32],
        answer: &mut [u64],
    ) -> u32;

    fn fresh_start(
        &self,
        plan: &[u32],
        state: &mut [u64],
        cache: &mut [u16],
        boxes: &mut [u32],
        answer: &mut [u64],
    ) -> u32;

    fn step(&self, tables: Tables, answer: &mut [u64]) -> u32;

    fn run(&self, tables: Tables, limit: u64, answer: &mut [u64]) -> u32;

    /// The same, but one domain's records alone are stored, and the log is its part.
    fn run_kept(&self, tables: Tables, kept: Kept, limit: u64, answer: &mut [u64]) -> u32;

    fn log(&self, plan: &[u32], state: &[u64], log: &[u8], domain: u32, answer: &mut [u64]) -> u32;
}

/// The linked library, if there is one.
pub fn linked() -> Option<Box<dyn Engine>> {
    #[cfg(linked)]
    return Some(Box::new(Linked));
    #[cfg(not(linked))]
    return None;
}

/// The linked library, to be held against the reference. Without one a
/// comparison would hold the reference against itself and always agree, so a
/// test that asks for it fails.
pub fn under_test() -> Box<dyn Engine> {
    linked().expect(NOT_LINKED)
}
