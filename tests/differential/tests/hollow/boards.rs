//! The reference with accesses of its own, right ones or with a fault: document 01, "What
//! an op costs", and document 02, E7. Sets are lists here and no arrays.

use crate::board_faults::BoardFault;
use crate::engines::{again, kept_by_run, Before};
use pirkvezo_differential::engine::{Engine, Kept, Reference, Tables};
use pirkvezo_differential::timeline::Timeline;

#[derive(Clone, Copy, Debug)]
pub struct Board(pub BoardFault);

const DIRTY: u16 = 32_768;

/// What one access looks for.
#[derive(Clone, Copy)]
struct Asked {
    line: u16,
    writes: bool,
    /// Whether it is part of a message that is denied.
    denied: bool,
}

/// Where it was found, by the kinds of records.
const HIT1: u8 = 1;
const HIT2: u8 = 2;
const MISS: u8 = 3;

impl Engine for Board {
    fn name(&self) -> &'static str {
        "board"
    }

    fn read_plan(
        &self,
        text: &[u8],
        scripts: &mut [u32],
        plan: &mut [u32],
        answer: &mut [u64],
    ) -> u32 {
        Reference.read_plan(text, scripts, plan, answer)
    }

    fn fresh_start(
        &self,
        plan: &[u32],
        state: &mut [u64],
        cache: &mut [u16],
        boxes: &mut [u32],
        answer: &mut [u64],
    ) -> u32 {
        Reference.fresh_start(plan, state, cache, boxes, answer)
    }

    fn step(&self, tables: Tables, answer: &mut [u64]) -> u32 {
        self.run(tables, 1, answer)
    }

    fn run(&self, mut tables: Tables, limit: u64, answer: &mut [u64]) -> u32 {
        let number = Reference.run(again(&mut tables), 0, answer);
        let mut steps = 0;
        while number == 0 && steps < limit && answer[3] == 0 {
            let before = Before::of(&tables);
            if Reference.step(again(&mut tables), answer) != 0 {
                // A fault has made the world impossible; that is difference enough.
                break;
            }
            steps += 1;
            match tables.state[0] == before.state[0] {
                true => self.redo_op(&before, &mut tables),
                false => self.redo_flush(&before, tables.cache),
            }
        }
        if number == 0 {
            answer[2] = steps;
        }
        number
    }

    fn run_kept(&self, tables: Tables, kept: Kept, limit: u64, answer: &mut [u64]) -> u32 {
        kept_by_run(self, tables, kept, limit, answer)
    }

    fn log(&self, plan: &[u32], state: &[u64], log: &[u8], domain: u32, answer: &mut [u64]) -> u32 {
        Reference.log(plan, state, log, domain, answer)
    }
}

impl Board {
    /// Does the accesses of an op once more on the caches before it, and puts right what
    /// follows from them: caches, clock and record.
    fn redo_op(&self, before: &Before, tables: &mut Tables) {
        let timeline = Timeline::of(tables.plan).expect("a plan that was taken");
        let owner = timeline.window(before.state[0]).expect("a window").domain;
        let domains = tables.plan[2] as usize;
        let part = 8 * (tables.log.len() / (8 * domains)) * owner;
        let record = part + 8 * before.state[10 + owner] as usize;
        let number = tables.scripts[256 * owner + before.state[2 + owner] as usize];
        let (idle, all) = asked(number, owner, tables.log[record]);
        let mut cache = before.cache.clone();
        let mut clock = before.state[1] + idle;
        for asked in &all {
            let (kind, ticks) = self.access(&mut cache, *asked);
            clock += ticks;
            if all.len() == 1 && idle == 0 {
                tables.log[record] = kind;
            }
        }
        tables.cache.copy_from_slice(&cache);
        tables.state[1] = clock;
        let clock = (clock as u32).to_le_bytes();
        tables.log[record + 4..record + 8].copy_from_slice(&clock);
    }

    /// One access; gives where the line was, and the ticks.
    fn access(&self, cache: &mut [u16], asked: Asked) -> (u8, u64) {
        let index = usize::from(asked.line % 16);
        let mark = if asked.writes { DIRTY } else { 0 };
        let held = cache[index];
        let is_dirty = held >= DIRTY;
        let replaced = (held & !DIRTY).checked_sub(1);
        if replaced == Some(asked.line) {
            cache[index] |= mark;
            if self.0 == BoardFault::WritesOnHit && is_dirty {
                self.write_back(cache, asked.line, asked);
            }
            return (HIT1, 1);
        }
        let kept = match self.0 {
            BoardFault::LeavesDirt => held & DIRTY,
            _ => 0,
        };
        cache[index] = (asked.line + 1) | mark | kept;
        let written = replaced.filter(|_| is_dirty || self.writes_clean());
        let written = written.filter(|line| self.writes(cache, *line, asked));
        if self.0 != BoardFault::WritesAfterSearch {
            written.inspect(|line| self.write_back(cache, *line, asked));
        }
        let found = self.seek(cache, asked.line);
        if self.0 == BoardFault::WritesAfterSearch {
            written.inspect(|line| self.write_back(cache, *line, asked));
        }
        let ticks = self.charge(is_dirty, replaced.is_some());
        match found {
            true => (HIT2, 10 + ticks),
            false => (MISS, 100 + ticks),
        }
    }

    fn writes_clean(&self) -> bool {
        matches!(
            self.0,
            BoardFault::WritesClean | BoardFault::ChargesForClean
        )
    }

    fn charge(&self, is_dirty: bool, is_line: bool) -> u64 {
        match self.0 {
            BoardFault::ChargesTwice if is_dirty => 8,
            BoardFault::ChargesNothing => 0,
            BoardFault::ChargesForClean if is_line => 4,
            _ if is_dirty => 4,
            _ => 0,
        }
    }

    /// Whether a replaced line is written to L2 at all.
    fn writes(&self, cache: &[u16], line: u16, asked: Asked) -> bool {
        let set = take_set(cache, line % 64);
        let is_found = take_set(cache, asked.line % 64).contains(&asked.line);
        let is_kernel = line % 64 >= 60;
        let is_same = line % 64 == asked.line % 64;
        match self.0 {
            BoardFault::WritesNothing => false,
            BoardFault::MovesOnly => set.contains(&line),
            BoardFault::PutsInOnly => !set.contains(&line),
            BoardFault::PutsInWithRoom => set.contains(&line) || set.len() < 4,
            BoardFault::OnReadsOnly => !asked.writes,
            BoardFault::OnWritesOnly => asked.writes,
            BoardFault::OnMissesOnly => !is_found,
            BoardFault::OnHitsOnly => is_found,
            BoardFault::OwnLinesOnly => !is_kernel,
            BoardFault::KernelLinesOnly => is_kernel,
            BoardFault::SameSetOnly => is_same,
            BoardFault::OtherSetsOnly => !is_same,
            BoardFault::NotForTheGate => asked.line != 60,
            BoardFault::NotForBoxes => asked.line % 64 != 61,
            BoardFault::NotWhereDenied => !asked.denied,
            _ => true,
        }
    }

    /// Writes a line to L2: to the front of its set, of which a full one drops its last.
    fn write_back(&self, cache: &mut [u16], line: u16, asked: Asked) {
        let number = match self.0 {
            BoardFault::WritesToAskedSet => asked.line % 64,
            _ => line % 64,
        };
        let mut set = take_set(cache, number);
        let place = set.iter().position(|held| *held == line);
        match (self.0, place) {
            (BoardFault::MovesByOne, Some(place)) if place > 0 => {
                set.swap(place - 1, place);
                return put_set(cache, number, &set);
            }
            (BoardFault::DropsFirst, None) if set.len() == 4 => {
                set.remove(0);
            }
            (BoardFault::DropsEarly, None) => {
                set.pop();
            }
            _ => {}
        }
        set.retain(|held| *held != line);
        match self.0 {
            BoardFault::WritesToTheBack => {
                set.truncate(3);
                set.push(line);
            }
            _ => set.insert(0, line),
        }
        set.truncate(4);
        put_set(cache, number, &set);
        if self.0 == BoardFault::KeepsMark {
            cache[16 + 4 * usize::from(number)] |= DIRTY;
        }
        if self.0 == BoardFault::CrossesColours {
            let other = (number + 4) % 60;
            let mut set = take_set(cache, other);
            set.pop();
            put_set(cache, other, &set);
        }
    }

    /// Looks for a line in its set and leaves it in front; gives whether it was there.
    fn seek(&self, cache: &mut [u16], line: u16) -> bool {
        let mut set = take_set(cache, line % 64);
        let is_found = set.contains(&line);
        if is_found && self.0 == BoardFault::SoughtStays {
            return true;
        }
        set.retain(|held| *held != line);
        set.insert(0, line);
        set.truncate(4);
        put_set(cache, line % 64, &set);
        is_found
    }

    /// Puts the fault into what a switch has left of the caches.
    fn redo_flush(&self, before: &Before, cache: &mut [u16]) {
        if !matches!(self.0, BoardFault::FlushWrites | BoardFault::FlushWritesOwn) {
            return;
        }
        for held in before.cache[..16].iter().filter(|held| **held >= DIRTY) {
            let line = (held & !DIRTY) - 1;
            if line % 64 < 60 || self.0 == BoardFault::FlushWrites {
                let mut set = take_set(cache, line % 64);
                set.retain(|held| *held != line);
                set.insert(0, line);
                set.truncate(4);
                put_set(cache, line % 64, &set);
            }
        }
    }
}

/// One right access, which is no op's; gives the ticks.
pub fn plain_access(cache: &mut [u16], line: u16, writes: bool) -> u64 {
    let asked = Asked {
        line,
        writes,
        denied: false,
    };
    Board(BoardFault::None).access(cache, asked).1
}

/// The ticks of an op that are no access's, and what its accesses ask for, where its
/// record has this kind.
fn asked(number: u32, owner: usize, kind: u8) -> (u64, Vec<Asked>) {
    let other = (number >> 16 & 15) as usize;
    let value = number as u16;
    let denied = kind == 7;
    let ask = |line, writes| Asked {
        line,
        writes,
        denied,
    };
    let [from, to] = match number >> 20 {
        3 => [owner, other],
        _ => [other, owner],
    };
    let inside = (61 + 64 * (8 * from + to)) as u16;
    match (number >> 20, kind) {
        (1 | 2, 9) => (5, Vec::new()),
        (1, _) => (0, vec![ask(value, false)]),
        (2, _) => (0, vec![ask(value, true)]),
        (3 | 4, 7) => (5, vec![ask(60, false)]),
        (3 | 4, _) => (5, vec![ask(60, false), ask(inside, true)]),
        _ => (value.into(), Vec::new()),
    }
}

/// The lines of a set.
fn take_set(cache: &[u16], number: u16) -> Vec<u16> {
    let ways = cache[16 + 4 * usize::from(number)..][..4].iter();
    ways.filter(|way| **way != 0).map(|way| way - 1).collect()
}

fn put_set(cache: &mut [u16], number: u16, lines: &[u16]) {
    let ways = &mut cache[16 + 4 * usize::from(number)..][..4];
    ways.fill(0);
    for (way, line) in ways.iter_mut().zip(lines) {
        *way = line + 1;
    }
}
