//! The two caches: document 01, "The core and its tables", "What an op costs",
//! the flushes of "Window, switch, run", and refusal 13. What becomes of a dirty line
//! that is replaced in L1: document 02, E7. What a switch touches: document 02, E9.

use crate::colours::Colours;
use crate::geometry::Line;

/// How many numbers the cache table has.
pub const TABLE: usize = L1 + SETS * WAYS;

/// How many indexes L1 has.
pub const L1: usize = 16;
const SETS: usize = 64;
const WAYS: usize = 4;
const DIRTY: u16 = 32_768;
/// The first of the kernel's L2 sets.
const KERNEL_SETS: usize = 60;

/// A cache table of the right length, and the board that works on it.
#[derive(Debug)]
pub struct Cache<'a> {
    board: Board,
    l1: &'a mut [u16; L1],
    l2: &'a mut [[u16; WAYS]; SETS],
}

/// What becomes of a dirty line that an access replaces in L1.
#[derive(Clone, Copy, Debug, PartialEq, Eq)]
pub enum Board {
    /// It goes to the front of its L2 set: document 02, E7.
    New,
    /// L2 stays as it is: document 01, before E7. Kept to tell where E7 shows.
    Old,
}

#[derive(Clone, Copy, Debug, PartialEq, Eq)]
pub enum Access {
    Read,
    Write,
}

/// What an access answers.
#[derive(Clone, Copy, Debug, PartialEq, Eq)]
pub struct Accessed {
    pub found: Found,
    pub ticks: u64,
    pub put_out: PutOut,
}

/// Where an access found its line.
#[derive(Clone, Copy, Debug, PartialEq, Eq)]
pub enum Found {
    InL1,
    InL2,
    Nowhere,
}

/// Which dirty line an access put out of L1, if any.
#[derive(Clone, Copy, Debug, PartialEq, Eq)]
pub enum PutOut {
    Nothing,
    Dirty(Line),
}

impl<'a> Cache<'a> {
    /// The caches in this table; none if its length is wrong.
    pub fn over(table: &'a mut [u16]) -> Option<Self> {
        Cache::on(Board::New, table)
    }

    /// The same on either board.
    pub fn on(board: Board, table: &'a mut [u16]) -> Option<Self> {
        let (l1, rest) = table.split_first_chunk_mut()?;
        match rest.as_chunks_mut() {
            (sets, []) => sets.try_into().ok().map(|l2| Cache { board, l1, l2 }),
            _ => None,
        }
    }

    /// Looks a line up and leaves it in L1.
    #[inline]
    pub fn access(&mut self, line: Line, access: Access) -> Accessed {
        let mark = match access {
            Access::Read => 0,
            Access::Write => DIRTY,
        };
        let replaced = self.near(line.index());
        let near = &mut self.l1[line.index()];
        if replaced.0 == Some(line) {
            *near |= mark;
            return Accessed {
                found: Found::InL1,
                ticks: 1,
                put_out: PutOut::Nothing,
            };
        }
        *near = line.tag() | mark;
        let put_out = match replaced {
            (Some(held), true) => PutOut::Dirty(held),
            _ => PutOut::Nothing,
        };
        // It is written before the line is sought, which it may drop from L2.
        let written = self.write_back(put_out);
        let (found, sought) = match self.bring_to_front(line) {
            true => (Found::InL2, 10),
            false => (Found::Nowhere, 100),
        };
        Accessed {
            found,
            ticks: written + sought,
            put_out,
        }
    }

    /// Writes a line that was put out back into L2; gives the ticks.
    fn write_back(&mut self, put_out: PutOut) -> u64 {
        let PutOut::Dirty(line) = put_out else {
            return 0;
        };
        if self.board == Board::New {
            self.bring_to_front(line);
        }
        4
    }

    /// Puts a line in front of its L2 set; gives whether the set held it before. The
    /// others move back by one up to where it was; a full set that did not hold it
    /// drops its last.
    fn bring_to_front(&mut self, line: Line) -> bool {
        let mut carried = line.tag();
        self.l2[line.set()].iter_mut().any(|held| {
            std::mem::swap(held, &mut carried);
            carried == line.tag()
        })
    }

    /// Empties the kernel's L2 sets; gives the ticks.
    pub fn flush_kernel_sets(&mut self) -> u64 {
        let kernel = self.l2[KERNEL_SETS..].as_flattened_mut();
        let valid = kernel.iter().filter(|held| **held != 0).count();
        kernel.fill(0);
        8 + valid as u64
    }

    /// Empties L1 and writes nothing to L2; gives the ticks.
    pub fn flush_l1(&mut self) -> u64 {
        let dirty = self.l1.iter().filter(|held| **held & DIRTY != 0).count();
        self.l1.fill(0);
        8 + 2 * dirty as u64
    }

    /// What every switch does to the caches: both flushes, and then a read of the
    /// kernel entry line, which neither cache holds by then. Gives the ticks.
    pub fn switch(&mut self) -> u64 {
        let flushes = self.flush_kernel_sets() + self.flush_l1();
        flushes + self.access(Line::GATE, Access::Read).ticks
    }

    /// Takes a line out of both caches, dirty or not; the lines behind it in its L2
    /// set move up. No ticks pass.
    pub fn forget(&mut self, line: Line) {
        if self.near(line.index()).0 == Some(line) {
            self.l1[line.index()] = 0;
        }
        let set = &mut self.l2[line.set()];
        if let Some(place) = set.iter().position(|held| *held == line.tag()) {
            set[place..].rotate_left(1);
            set[WAYS - 1] = 0;
        }
    }

    /// The line that L1 holds at this index, if any, and whether it is dirty.
    pub fn near(&self, index: usize) -> (Option<Line>, bool) {
        let held = self.l1[index];
        (Line::from_tag(held & !DIRTY), held & DIRTY != 0)
    }

    /// How many lines this L2 set holds.
    pub fn count(&self, set: usize) -> usize {
        self.l2[set].iter().filter(|held| **held != 0).count()
    }

    pub fn clear(&mut self) {
        self.l1.fill(0);
        self.l2.as_flattened_mut().fill(0);
    }

    /// Whether nothing in the table is damaged, where the running domain has
    /// these colours; no domain runs after the end.
    pub fn is_sound(&self, running: Option<Colours>) -> bool {
        self.has_sound_l1(running)
            && self
                .l2
                .iter()
                .enumerate()
                .all(|(number, set)| is_sound_set(number, set))
    }

    fn has_sound_l1(&self, running: Option<Colours>) -> bool {
        self.l1
            .iter()
            .enumerate()
            .filter(|(_, held)| **held != 0)
            .all(
                |(index, held)| match (running, Line::from_tag(held & !DIRTY)) {
                    (Some(own), Some(line)) => {
                        line.index() == index && own.and_kernel().include(line)
                    }
                    _ => false,
                },
            )
    }
}

fn is_sound_set(number: usize, set: &[u16; WAYS]) -> bool {
    if set == &[0; WAYS] {
        return true;
    }
    let [a, b, c, d] = *set;
    let neighbours = [(a, b), (b, c), (c, d)];
    let pairs = [(a, b), (a, c), (a, d), (b, c), (b, d), (c, d)];
    let at_home = |tag| Line::from_tag(tag).is_some_and(|line| line.set() == number);
    set.iter().all(|tag| *tag == 0 || at_home(*tag))
        && neighbours.iter().all(|(x, y)| *x != 0 || *y == 0)
        && pairs.iter().all(|(x, y)| *y == 0 || x != y)
}
