//! A writer of its own with a fault put in: what it refuses, and what it answers.

use crate::write_faults::WriteFault;
use pirkvezo_differential::engine::{Bounder, Reference, Writer, ANSWER, PLAN, SCRIPTS};
use pirkvezo_differential::generate::shares::{colours_of, masks_of, total_of};
use pirkvezo_differential::generate::write::LONGEST;

#[derive(Clone, Copy, Debug)]
pub struct HollowWriter(pub WriteFault);

impl Writer for HollowWriter {
    fn name(&self) -> &'static str {
        "hollow"
    }

    fn write_plan(&self, plan: &[u32], scripts: &[u32], out: &mut [u8], answer: &mut [u64]) -> u32 {
        // A fault may write beside a refusal, so there is a text wherever there can
        // be one.
        let text = match plan.try_into() {
            Ok(plan) => self.text(plan, scripts),
            Err(_) => Vec::new(),
        };
        let lengths = [plan.len(), answer.len()] == [PLAN, ANSWER] && self.takes(scripts.len());
        let number = self.number(lengths, plan, scripts, &text, out.len());
        self.put(number, &text, out);
        self.tell(self.told(number, text.len(), out.len()), answer);
        match self.0 {
            WriteFault::ReturnsNothing => 0,
            WriteFault::ReturnsTheBytes if number == 0 => text.len() as u32,
            _ => number,
        }
    }
}

/// Which call is refused.
impl HollowWriter {
    /// The refusal's number, 0 for none.
    fn number(
        &self,
        lengths: bool,
        plan: &[u32],
        scripts: &[u32],
        text: &[u8],
        room: usize,
    ) -> u32 {
        let judged = [
            (11, !lengths),
            (12, !self.admits(plan)),
            (12, !self.is_given(plan, scripts)),
            (self.too_long(), text.len() > self.limit()),
            (17, self.is_short(room, text.len())),
        ];
        let order = match self.0 {
            WriteFault::PlanBeforeLengths => [1, 0, 2, 3, 4],
            WriteFault::StoreBeforeLengths => [2, 0, 1, 3, 4],
            WriteFault::RoomBeforeLengths => [4, 0, 1, 2, 3],
            WriteFault::RoomBeforePlan => [0, 4, 1, 2, 3],
            WriteFault::RoomBeforeStore => [0, 1, 4, 2, 3],
            WriteFault::RoomBeforeLimit => [0, 1, 2, 4, 3],
            _ => [0, 1, 2, 3, 4],
        };
        let refused = order.map(|at| judged[at]).into_iter();
        let mut refused = refused.filter(|(_, wrong)| *wrong);
        refused.next().map_or(0, |(number, _)| number)
    }

    fn takes(&self, store: usize) -> bool {
        match self.0 {
            WriteFault::TakesShortStores => [SCRIPTS - 1, SCRIPTS].contains(&store),
            WriteFault::TakesLongStores => store >= SCRIPTS,
            _ => store == SCRIPTS,
        }
    }

    fn admits(&self, plan: &[u32]) -> bool {
        let mut judged = plan.to_vec();
        match (self.0, judged.as_mut_slice()) {
            (WriteFault::TakesAnyPlan, _) => return true,
            // One pass is never too long.
            (WriteFault::TakesTooManyTicks, [_, run @ 1..=1_000, ..]) => *run = 1,
            (WriteFault::TakesOneTickOfPadLess, [pad @ 375, ..])
            | (WriteFault::TakesOldPads, [pad @ 276..=375, ..]) => *pad = 376,
            (WriteFault::TakesAnyMasks, judged) => put_masks(judged),
            (WriteFault::TakesUnusedNumbers, judged) => clear_unused(judged),
            (WriteFault::RefusesTheLastWindow, [_, _, _, 32, ..]) => return false,
            _ => {}
        }
        Reference.step_bound(&judged, &[0; SCRIPTS], &mut [0; ANSWER]) == 0
    }

    /// Whether a text can give this store.
    fn is_given(&self, plan: &[u32], scripts: &[u32]) -> bool {
        let declared = plan.get(2).map_or(0, |count| *count as usize);
        let mut parts = scripts.chunks(256).enumerate();
        parts.all(|(domain, part)| match domain < declared {
            true => self.ends_well(part, declared),
            false => self.is_bare(domain, part),
        })
    }

    /// Whether nothing stands behind a declared domain's ops.
    fn ends_well(&self, part: &[u32], declared: usize) -> bool {
        let ops = self.ops(part, declared).len();
        let rest = &part[ops..];
        let is_op = |number: &u32| self.is_op(*number, declared);
        match self.0 {
            WriteFault::IgnoresBehindEnds => true,
            WriteFault::IgnoresTheEnd => are_zeros(rest.get(1..).unwrap_or(&[])),
            WriteFault::LooksAtTheEndAlone => are_zeros(&rest[..rest.len().min(1)]),
            WriteFault::IgnoresTheLast => are_zeros(rest.split_last().map_or(&[], |last| last.1)),
            WriteFault::LooksForOpsAlone => !rest.iter().any(is_op),
            WriteFault::TakesOpsBehindEnds | WriteFault::ClosesGaps => {
                part.iter().all(|number| *number == 0 || is_op(number))
            }
            WriteFault::ForgetsThe256th => are_zeros(&part[ops..part.len().min(255)]),
            _ => are_zeros(rest),
        }
    }

    /// Whether an undeclared domain's part holds nothing.
    fn is_bare(&self, domain: usize, part: &[u32]) -> bool {
        match self.0 {
            WriteFault::IgnoresUndeclared => true,
            WriteFault::IgnoresTheEighth if domain == 7 => true,
            WriteFault::LooksAtFirstUndeclared => are_zeros(&part[..1]),
            WriteFault::LooksForUndeclaredOps => self.ops(part, 8).is_empty(),
            WriteFault::WritesUndeclared => self.ends_well(part, 8),
            _ => are_zeros(part),
        }
    }

    fn limit(&self) -> usize {
        match self.0 {
            WriteFault::OneByteLess => LONGEST - 1,
            WriteFault::OneByteMore => LONGEST + 1,
            WriteFault::NoLimit | WriteFault::CutsToTheLimit => usize::MAX,
            _ => LONGEST,
        }
    }

    /// The refusal of a text that is too long.
    fn too_long(&self) -> u32 {
        match self.0 {
            WriteFault::TooLongIsOne => 1,
            WriteFault::TooLongIsRoom => 17,
            _ => 12,
        }
    }

    fn is_short(&self, room: usize, needed: usize) -> bool {
        match self.0 {
            WriteFault::AsksForOneMore => room <= needed,
            WriteFault::AsksForTheMost => room < LONGEST,
            WriteFault::TakesOneLess => room + 1 < needed,
            WriteFault::TakesAnyRoom => false,
            _ => room < needed,
        }
    }
}

/// What is written and answered.
impl HollowWriter {
    fn put(&self, number: u32, text: &[u8], out: &mut [u8]) {
        let fitting = text.len().min(out.len());
        match (self.0, number) {
            (WriteFault::WritesWhatFits, 17) => {}
            (WriteFault::WritesBesideTwelve, 12) => {}
            (WriteFault::ClearsBesideARefusal, 12 | 17) => return out.fill(0),
            (_, 1..) => return,
            (WriteFault::PutsItLast, _) => {
                let at = out.len() - fitting;
                return out[at..].copy_from_slice(&text[..fitting]);
            }
            (WriteFault::WritesNothing, _) => return,
            _ => {}
        }
        let (written, rest) = out.split_at_mut(fitting);
        written.copy_from_slice(&text[..fitting]);
        match (self.0, rest) {
            (WriteFault::ClearsTheRest, rest) => rest.fill(0),
            (WriteFault::FillsWithSpaces, rest) => rest.fill(b' '),
            (WriteFault::EndsWithANul, [first, ..]) => *first = 0,
            (WriteFault::EndsWithAnLf, [first, ..]) => *first = b'\n',
            _ => {}
        }
    }

    fn told(&self, number: u32, needed: usize, room: usize) -> [u64; ANSWER] {
        let [first, needed, room] = [u64::from(number), needed as u64, room as u64];
        match (number, self.0) {
            (0, WriteFault::TellsTheRoom) => [0, 0, room, 0],
            (0, WriteFault::TellsOneMore) => [0, 0, needed + 1, 0],
            (0, WriteFault::TellsInTheSecond) => [0, needed, 0, 0],
            (0, WriteFault::TellsInTheFourth) => [0, 0, 0, needed],
            (0, WriteFault::TellsTheRest) => [0, 0, needed, room.saturating_sub(needed)],
            (0, WriteFault::TellsNothing) => [0; ANSWER],
            (0, _) => [0, 0, needed, 0],
            (17, WriteFault::NeedsOneMore) => [17, needed + 1, 0, 0],
            (17, WriteFault::NeedsTheMost) => [17, LONGEST as u64, 0, 0],
            (17, WriteFault::NeedsTheRest) => [17, needed.saturating_sub(room), 0, 0],
            (17, WriteFault::NeedsTheRoom) => [17, room, 0, 0],
            (17, WriteFault::NeedsNothing) => [17, 0, 0, 0],
            (17, WriteFault::TellsBesideRoom) => [17, needed, needed, 0],
            (17, WriteFault::TellsWhatFits) => [17, needed, room, 0],
            (17, _) => [17, needed, 0, 0],
            (12, WriteFault::TellsBesideTwelve) => [12, 0, needed, 0],
            (12, WriteFault::NeedsBesideTwelve) => [12, needed, 0, 0],
            _ => [first, 0, 0, 0],
        }
    }

    fn tell(&self, told: [u64; ANSWER], answer: &mut [u64]) {
        let length = match (self.0, answer.len()) {
            (WriteFault::SilentOnRefusals, _) if told[0] != 0 => 0,
            (WriteFault::SilentOnLengths, _) if told[0] == 11 => 0,
            (WriteFault::KeepsTheFourth, ANSWER) => 3,
            (WriteFault::WritesShortAnswers, length) => length.min(ANSWER),
            (_, ANSWER) => ANSWER,
            _ => 0,
        };
        answer[..length].copy_from_slice(&told[..length]);
    }
}

fn are_zeros(numbers: &[u32]) -> bool {
    numbers.iter().all(|number| *number == 0)
}

/// Puts in the colour masks that the shares of a plan give.
fn put_masks(plan: &mut [u32]) {
    let count = plan.get(2).map_or(0, |count| *count as usize);
    let Some(shares) = plan.get(4..4 + count.min(8)).map(<[u32]>::to_vec) else {
        return;
    };
    let small = shares.iter().all(|share| *share <= 1_000);
    if plan.len() == PLAN && small && total_of(&shares) <= 15 {
        let masks = masks_of(shares.iter().map(|share| colours_of(*share)));
        plan[84..84 + masks.len()].copy_from_slice(&masks);
    }
}

/// Clears the places of a plan that it has no use for.
fn clear_unused(plan: &mut [u32]) {
    if plan.len() != PLAN {
        return;
    }
    let (domains, windows) = (plan[2].min(8) as usize, plan[3].min(32) as usize);
    for (start, used, end) in [
        (4, domains, 12),
        (12, domains, 20),
        (20, windows, 52),
        (52, windows, 84),
        (84, domains, 92),
    ] {
        plan[start + used..end].fill(0);
    }
}
