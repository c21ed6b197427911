//! A domain by itself: the ops with which it can change the caches, and what each of
//! them does there. Document 02, E6.

use crate::cache::{Access, Board, Cache, L1};
use crate::geometry::Line;
use crate::journal::Sheet;
use crate::limits::{COMPUTE, DOMAINS, OPS};
use crate::mail::{Mail, BOXES};
use crate::op::Op;
use crate::plan::Plan;
use crate::shift::{Effect, Shift};
use crate::state::Counts;

/// A domain of a plan.
#[derive(Debug)]
pub struct Tenant<'p> {
    plan: &'p Plan,
    own: usize,
    board: Board,
    /// Of its lines with each L1 index, the lowest; none where it has no such line.
    lines: [Option<u16>; L1],
    /// A message through each box that it may use.
    messages: Vec<Op>,
}

/// One op, by what it does to the caches. Where two domains have the same moves,
/// each stands for ops of other lines and boxes, but of the same ticks.
#[derive(Clone, Copy, Debug, PartialEq, Eq)]
pub enum Move {
    /// An access to a line of its own with this L1 index that neither cache holds.
    Own { index: usize, access: Access },
    /// A message through one of its boxes.
    Message { which: usize },
    /// A message that is denied.
    Denied,
    /// The longest compute.
    Compute,
}

/// All that makes the moves of two domains the same.
#[derive(Clone, Copy, Debug, PartialEq, Eq, PartialOrd, Ord)]
pub struct Reach {
    /// The L1 indexes of the domain's lines, bit i for index i.
    indexes: u16,
    /// How many boxes it may use.
    boxes: usize,
}

impl<'p> Tenant<'p> {
    /// A declared domain.
    pub fn of(plan: &'p Plan, own: usize) -> Self {
        Tenant::on(Board::New, plan, own)
    }

    /// The same on either board.
    pub fn on(board: Board, plan: &'p Plan, own: usize) -> Self {
        let colours = plan.domains[own].colours;
        let is_own = |number: &u16| Line::new(*number).is_some_and(|line| colours.include(line));
        let lines = std::array::from_fn(|index| (index as u16..64).step_by(L1).find(is_own));
        let others = 0..DOMAINS;
        let sent = others.clone().filter(|to| plan.allows(own, *to));
        let received = others.filter(|from| plan.allows(*from, own));
        let send = |to| Op::Send {
            to: to as u8,
            word: 0,
        };
        let receive = |from| Op::Receive { from: from as u8 };
        Tenant {
            plan,
            own,
            board,
            lines,
            messages: sent.map(send).chain(received.map(receive)).collect(),
        }
    }

    pub fn reach(&self) -> Reach {
        let held = self.lines.iter().enumerate();
        let held = held.filter(|(_, line)| line.is_some());
        Reach {
            indexes: held.map(|(index, _)| 1 << index).sum(),
            boxes: self.messages.len(),
        }
    }

    /// All moves that it has.
    pub fn moves(&self) -> Vec<Move> {
        let indexes = (0..L1).filter(|index| self.lines[*index].is_some());
        let accesses = [Access::Read, Access::Write];
        let own = indexes.flat_map(|index| accesses.map(|access| Move::Own { index, access }));
        let messages = (0..self.messages.len()).map(|which| Move::Message { which });
        let others = [Move::Denied, Move::Compute];
        own.chain(messages).chain(others).collect()
    }

    /// The op of a move that comes after so many others, fewer than 64. It is told
    /// how many there were so that each access can be to another line of its set,
    /// of which there are 64.
    pub fn op(&self, step: Move, before: usize) -> Op {
        match step {
            Move::Own { index, access } => {
                let line = self.lines[index].expect("an index of its own") + 64 * before as u16;
                match access {
                    Access::Read => Op::Read(line),
                    Access::Write => Op::Write(line),
                }
            }
            Move::Message { which } => self.messages[which],
            // No domain is among its own recipients.
            Move::Denied => Op::Receive {
                from: self.own as u8,
            },
            Move::Compute => Op::Compute(*COMPUTE.end() as u16),
        }
    }

    /// The ops of these moves, one after the other.
    pub fn ops(&self, moves: &[Move]) -> Vec<Op> {
        let steps = moves.iter().enumerate();
        steps.map(|(before, step)| self.op(*step, before)).collect()
    }

    /// Does an op of this domain on these caches, as the machine does it. What boxes
    /// hold takes no time and puts out no line, so they are empty; nor does a record, so
    /// none is stored.
    pub fn play(&self, caches: &mut [u16], op: Op) -> Effect {
        let mut script = [0; OPS];
        script[0] = op.stored();
        let mut boxes = [0; BOXES];
        let mut shift = Shift {
            plan: self.plan,
            own: self.own,
            end: 1,
            script: &script,
            sheet: Sheet::Counted { room: 1 },
            cache: &mut Cache::on(self.board, caches).expect("a cache table"),
            mail: &mut Mail::over(&mut boxes).expect("a table of boxes"),
            clock: 0,
            counts: Counts::default(),
        };
        shift.op().expect("an op begins")
    }
}
