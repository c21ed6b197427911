//! A frame maker of its own with a fault put in.

use pirkvezo_differential::engine::{FrameMaker, ANSWER, FRAME, WEIGHTS};
use std::array;
use std::cmp::Reverse;

#[derive(Clone, Copy, Debug, PartialEq, Eq)]
pub enum FrameFault {
    None,
    /// Puts the higher number first among equal remainders.
    TiesToTheHigher,
    /// Gives leftover windows to the smallest remainders.
    SmallestRemainders,
    /// Gives leftover windows to the lowest numbers, whatever the remainders.
    LowestNumbers,
    /// Gives leftover windows to the largest weights.
    LargestWeights,
    /// Gives one domain all leftover windows.
    OneTakesAll,
    /// Gives nobody the leftover windows.
    DropsLeftovers,
    /// Rounds each quota to the nearest whole number.
    RoundsQuotas,
    /// Lays each domain's windows in a block.
    Blocks,
    /// Goes through each turn from the highest number down.
    TurnsDownwards,
    /// Goes through every second turn from the highest number down.
    TurnsToAndFro,
    /// Numbers the domains from 1.
    NumbersFromOne,
    /// Lets the frame past the count stand.
    KeepsTheRest,
    /// Goes on laying windows past the count.
    FillsTheRest,
    /// Takes a count of 0.
    TakesNoWindow,
    /// Takes a count of 33.
    TakesOneWindowMore,
    /// Refuses a count of 32.
    RefusesTheLastCount,
    /// Looks at a count's low byte alone.
    CutsTheCount,
    /// Takes a weight of 1,001.
    TakesOneMoreWeight,
    /// Refuses a weight of 1,000.
    RefusesTheLastWeight,
    /// Looks at two bytes of each weight.
    CutsWeights,
    /// Takes weights that are all 0.
    TakesNoWeight,
    /// Overlooks the last weight when it judges them.
    OverlooksTheLast,
    /// Lets the frame stand where it refuses.
    KeepsARefusedFrame,
    /// Answers 15 with the count as its companion.
    AnswersMore,
    /// Lets the last two numbers of the answer stand.
    KeepsTheAnswer,
    /// Returns 0 where it answers 15.
    ReturnsNothing,
    /// Answers 15 before 11.
    NumbersBeforeLengths,
    /// Zeroes a frame of another length.
    ClearsBesideLengths,
    /// Lets an answer stand where another row's length is wrong.
    SilentOnLengths,
    /// Writes what fits of an answer of another length.
    WritesShortAnswers,
    /// Takes weights and frames that are longer than they should be.
    TakesLongRows,
}

impl FrameFault {
    /// All that are one.
    pub const HOLLOW: [FrameFault; 31] = [
        FrameFault::TiesToTheHigher,
        FrameFault::SmallestRemainders,
        FrameFault::LowestNumbers,
        FrameFault::LargestWeights,
        FrameFault::OneTakesAll,
        FrameFault::DropsLeftovers,
        FrameFault::RoundsQuotas,
        FrameFault::Blocks,
        FrameFault::TurnsDownwards,
        FrameFault::TurnsToAndFro,
        FrameFault::NumbersFromOne,
        FrameFault::KeepsTheRest,
        FrameFault::FillsTheRest,
        FrameFault::TakesNoWindow,
        FrameFault::TakesOneWindowMore,
        FrameFault::RefusesTheLastCount,
        FrameFault::CutsTheCount,
        FrameFault::TakesOneMoreWeight,
        FrameFault::RefusesTheLastWeight,
        FrameFault::CutsWeights,
        FrameFault::TakesNoWeight,
        FrameFault::OverlooksTheLast,
        FrameFault::KeepsARefusedFrame,
        FrameFault::AnswersMore,
        FrameFault::KeepsTheAnswer,
        FrameFault::ReturnsNothing,
        FrameFault::NumbersBeforeLengths,
        FrameFault::ClearsBesideLengths,
        FrameFault::SilentOnLengths,
        FrameFault::WritesShortAnswers,
        FrameFault::TakesLongRows,
    ];
}

#[derive(Clone, Copy, Debug)]
pub struct HollowMaker(pub FrameFault);

impl FrameMaker for HollowMaker {
    fn name(&self) -> &'static str {
        "hollow"
    }

    fn frame(&self, count: u32, weights: &[u32], frame: &mut [u32], answer: &mut [u64]) -> u32 {
        let right = self.has_right_lengths(weights, frame, answer);
        let number = match self.admits(count, weights) {
            false if right || self.0 == FrameFault::NumbersBeforeLengths => 15,
            _ if !right => 11,
            _ => 0,
        };
        match number {
            0 => self.write(count, weights, frame),
            11 if self.0 == FrameFault::ClearsBesideLengths => frame.fill(0),
            15 if right && self.0 != FrameFault::KeepsARefusedFrame => frame.fill(0),
            _ => {}
        }
        self.tell(number, count, answer);
        match self.0 {
            FrameFault::ReturnsNothing if number == 15 => 0,
            _ => number,
        }
    }
}

impl HollowMaker {
    fn has_right_lengths(&self, weights: &[u32], frame: &[u32], answer: &[u64]) -> bool {
        let right = |length: usize, right: usize| match self.0 {
            FrameFault::TakesLongRows => length >= right,
            _ => length == right,
        };
        right(weights.len(), WEIGHTS) && right(frame.len(), FRAME) && answer.len() == ANSWER
    }

    fn admits(&self, count: u32, weights: &[u32]) -> bool {
        let count_admitted = match self.0 {
            FrameFault::TakesNoWindow => count <= 32,
            FrameFault::TakesOneWindowMore => (1..=33).contains(&count),
            FrameFault::RefusesTheLastCount => (1..=31).contains(&count),
            _ => (1..=32).contains(&self.seen_count(count)),
        };
        let most = match self.0 {
            FrameFault::TakesOneMoreWeight => 1_001,
            FrameFault::RefusesTheLastWeight => 999,
            _ => 1_000,
        };
        let judged = match (self.0, weights) {
            (FrameFault::OverlooksTheLast, [first @ .., _]) => first,
            _ => weights,
        };
        let mut weighty = weights.iter().map(|weight| self.seen_weight(*weight));
        count_admitted
            && judged
                .iter()
                .all(|weight| self.seen_weight(*weight) <= most)
            && (self.0 == FrameFault::TakesNoWeight || weighty.any(|weight| weight > 0))
    }

    fn seen_count(&self, count: u32) -> u32 {
        match self.0 {
            FrameFault::CutsTheCount => count & 0xff,
            _ => count,
        }
    }

    fn seen_weight(&self, weight: u32) -> u32 {
        match self.0 {
            FrameFault::CutsWeights => weight & 0xffff,
            _ => weight,
        }
    }

    fn write(&self, count: u32, weights: &[u32], frame: &mut [u32]) {
        let count = u64::from(self.seen_count(count));
        let weights = array::from_fn(|domain| u64::from(self.seen_weight(weights[domain])));
        let mut laid = self.lay(self.windows_of_each(count, weights));
        let rest = laid.len().min(FRAME)..FRAME;
        laid.resize(FRAME, 0);
        for index in rest {
            laid[index] = match self.0 {
                FrameFault::KeepsTheRest => frame[index],
                FrameFault::FillsTheRest => laid.first().copied().unwrap_or(0),
                _ => 0,
            };
        }
        frame[..FRAME].copy_from_slice(&laid);
    }

    fn windows_of_each(&self, count: u64, weights: [u64; WEIGHTS]) -> [u64; WEIGHTS] {
        let total = weights.iter().sum::<u64>().max(1);
        let mut windows = weights.map(|weight| count * weight / total);
        let left = (count - windows.iter().sum::<u64>()) as usize;
        let order = self.order(weights, weights.map(|weight| count * weight % total));
        match self.0 {
            FrameFault::OneTakesAll => windows[order[0]] += left as u64,
            FrameFault::DropsLeftovers => {}
            FrameFault::RoundsQuotas => {
                windows = weights.map(|weight| (2 * count * weight + total) / (2 * total));
            }
            _ => order
                .iter()
                .take(left)
                .for_each(|domain| windows[*domain] += 1),
        }
        windows
    }

    /// In which order domains get leftover windows.
    fn order(&self, weights: [u64; WEIGHTS], remainders: [u64; WEIGHTS]) -> [usize; WEIGHTS] {
        let mut order = array::from_fn(|domain| domain);
        match self.0 {
            FrameFault::TiesToTheHigher => {
                order.sort_by_key(|domain| Reverse((remainders[*domain], *domain)));
            }
            FrameFault::SmallestRemainders => {
                order.sort_by_key(|domain| (weights[*domain] == 0, remainders[*domain]));
            }
            FrameFault::LowestNumbers => order.sort_by_key(|domain| weights[*domain] == 0),
            FrameFault::LargestWeights => order.sort_by_key(|domain| Reverse(weights[*domain])),
            _ => order.sort_by_key(|domain| Reverse(remainders[*domain])),
        }
        order
    }

    fn lay(&self, windows: [u64; WEIGHTS]) -> Vec<u32> {
        let domains = 0..WEIGHTS as u32;
        if self.0 == FrameFault::Blocks {
            let block = |domain: u32| vec![domain; windows[domain as usize] as usize];
            return domains.flat_map(block).collect();
        }
        let most = windows.into_iter().max().unwrap_or(0);
        let turn = |turn: u64| {
            let mut own: Vec<u32> = domains.clone().collect();
            own.retain(|domain| windows[*domain as usize] > turn);
            match self.0 {
                FrameFault::TurnsDownwards => own.reverse(),
                FrameFault::TurnsToAndFro if turn % 2 == 1 => own.reverse(),
                FrameFault::NumbersFromOne => own.iter_mut().for_each(|domain| *domain += 1),
                _ => {}
            }
            own
        };
        (0..most).flat_map(turn).collect()
    }

    fn tell(&self, number: u32, count: u32, answer: &mut [u64]) {
        let companion = match self.0 {
            FrameFault::AnswersMore if number == 15 => u64::from(count),
            _ => 0,
        };
        let told = [u64::from(number), companion, 0, 0];
        let length = match self.0 {
            FrameFault::SilentOnLengths if number == 11 => 0,
            FrameFault::KeepsTheAnswer if answer.len() == ANSWER => 2,
            FrameFault::WritesShortAnswers => answer.len().min(ANSWER),
            _ if answer.len() == ANSWER => ANSWER,
            _ => 0,
        };
        answer[..length].copy_from_slice(&told[..length]);
    }
}
