//! A bounder of its own with a fault put in.

use pirkvezo_differential::engine::{Bounder, Reference, ANSWER, PLAN, SCRIPTS};

#[derive(Clone, Copy, Debug, PartialEq, Eq)]
pub enum BoundFault {
    None,
    /// Counts ops behind a script's end.
    CountsPastEnds,
    /// Counts all numbers of every script.
    CountsEverything,
    /// Counts the number that ends a script.
    CountsEnds,
    /// Looks at 255 numbers of each script.
    LooksAt255,
    /// Takes the store for one long script.
    OneLongScript,
    /// Counts the scripts of declared domains alone.
    DeclaredDomains,
    /// Counts the scripts of domains with a window alone.
    DomainsWithAWindow,
    /// Overlooks domain 0's script.
    ForgetsTheFirst,
    /// Overlooks domain 7's script.
    ForgetsTheLast,
    /// Counts the longest script eight times.
    LongestForAll,
    /// Takes 0 for an op.
    TakesZeros,
    /// Takes any number but 0 for an op.
    TakesAllButZeros,
    /// Takes a read or a write with another domain for an op.
    TakesLinesOfOthers,
    /// Takes no line past 4,095 for an op's.
    RefusesBarredLines,
    /// Takes a send to any of sixteen domains for an op.
    TakesSendsPastTheEighth,
    /// Takes a receive from any of sixteen domains for an op.
    TakesReceivesPastTheEighth,
    /// Takes a receive with a value for an op.
    TakesReceivesOfAValue,
    /// Takes a send to an undeclared domain, or a receive from one, for no op.
    RefusesUndeclared,
    /// Takes a compute of 0 for an op.
    TakesNoTicks,
    /// Takes a compute of 201 for an op.
    TakesOneTickMore,
    /// Takes a compute of 200 for no op.
    RefusesTheLastTick,
    /// Looks at the low byte of a compute's ticks.
    CutsTicks,
    /// Takes a compute with another domain for an op.
    TakesComputesOfOthers,
    /// Takes a sixth kind for an op.
    TakesASixthKind,
    /// Looks at four bits of a kind.
    CutsKinds,
    /// Counts no ops.
    SwitchesAlone,
    /// Counts no switches.
    OpsAlone,
    /// Counts the windows of one pass.
    ForgetsTheRun,
    /// Counts one window a pass.
    ForgetsTheWindows,
    /// Adds windows and run.
    AddsTheRun,
    /// Counts 32 windows a pass.
    CountsAllPlaces,
    /// Counts one window a pass for each domain.
    CountsDomains,
    /// Lets the run repeat the scripts.
    RepeatsScripts,
    /// Leaves the last switch out.
    LeavesOneOut,
    /// Counts the fresh start.
    AddsOne,
    /// Keeps the bound below what the lengths allow.
    CapsByLengths,
    /// Looks at 15 bits of the bound.
    CutsTheBound,
    /// Tells the largest bound that there is.
    TellsTheLargest,
    /// Takes a store of 2,047 numbers.
    TakesShortStores,
    /// Takes a store of more than 2,048 numbers.
    TakesLongStores,
    /// Takes any plan of 92 numbers.
    TakesAnyPlan,
    /// Takes a plan of too many ticks.
    TakesTooManyTicks,
    /// Takes a plan with a pad of 375.
    TakesOneTickOfPadLess,
    /// Takes a plan with any pad from 276 on, as before E9.
    TakesOldPads,
    /// Refuses a plan of 32 windows.
    RefusesTheLastWindow,
    /// Refuses a store with an odd number at an end as damaged.
    JudgesTheStore,
    /// Answers 12 before 11.
    PlanBeforeLengths,
    /// Tells the bound beside 12.
    TellsBesideARefusal,
    /// Tells the bound in the companion's place.
    TellsInTheSecond,
    /// Tells the bound in the fourth number.
    TellsInTheFourth,
    /// Tells ops and switches apart.
    TellsTheParts,
    /// Says ended, as a run would.
    SaysEnded,
    /// Lets the fourth number stand.
    KeepsTheFourth,
    /// Lets the answer stand beside a refusal.
    SilentOnRefusals,
    /// Lets the answer stand beside 11.
    SilentOnLengths,
    /// Writes what fits of an answer of another length.
    WritesShortAnswers,
    /// Returns 0 where it answers a refusal.
    ReturnsNothing,
    /// Returns the bound.
    ReturnsTheBound,
}

impl BoundFault {
    /// All that are one.
    pub const HOLLOW: [BoundFault; 58] = [
        BoundFault::CountsPastEnds,
        BoundFault::CountsEverything,
        BoundFault::CountsEnds,
        BoundFault::LooksAt255,
        BoundFault::OneLongScript,
        BoundFault::DeclaredDomains,
        BoundFault::DomainsWithAWindow,
        BoundFault::ForgetsTheFirst,
        BoundFault::ForgetsTheLast,
        BoundFault::LongestForAll,
        BoundFault::TakesZeros,
        BoundFault::TakesAllButZeros,
        BoundFault::TakesLinesOfOthers,
        BoundFault::RefusesBarredLines,
        BoundFault::TakesSendsPastTheEighth,
        BoundFault::TakesReceivesPastTheEighth,
        BoundFault::TakesReceivesOfAValue,
        BoundFault::RefusesUndeclared,
        BoundFault::TakesNoTicks,
        BoundFault::TakesOneTickMore,
        BoundFault::RefusesTheLastTick,
        BoundFault::CutsTicks,
        BoundFault::TakesComputesOfOthers,
        BoundFault::TakesASixthKind,
        BoundFault::CutsKinds,
        BoundFault::SwitchesAlone,
        BoundFault::OpsAlone,
        BoundFault::ForgetsTheRun,
        BoundFault::ForgetsTheWindows,
        BoundFault::AddsTheRun,
        BoundFault::CountsAllPlaces,
        BoundFault::CountsDomains,
        BoundFault::RepeatsScripts,
        BoundFault::LeavesOneOut,
        BoundFault::AddsOne,
        BoundFault::CapsByLengths,
        BoundFault::CutsTheBound,
        BoundFault::TellsTheLargest,
        BoundFault::TakesShortStores,
        BoundFault::TakesLongStores,
        BoundFault::TakesAnyPlan,
        BoundFault::TakesTooManyTicks,
        BoundFault::TakesOneTickOfPadLess,
        BoundFault::TakesOldPads,
        BoundFault::RefusesTheLastWindow,
        BoundFault::JudgesTheStore,
        BoundFault::PlanBeforeLengths,
        BoundFault::TellsBesideARefusal,
        BoundFault::TellsInTheSecond,
        BoundFault::TellsInTheFourth,
        BoundFault::TellsTheParts,
        BoundFault::SaysEnded,
        BoundFault::KeepsTheFourth,
        BoundFault::SilentOnRefusals,
        BoundFault::SilentOnLengths,
        BoundFault::WritesShortAnswers,
        BoundFault::ReturnsNothing,
        BoundFault::ReturnsTheBound,
    ];
    /// Those whose bound some run does not keep to.
    pub const TOO_LOW: [BoundFault; 14] = [
        BoundFault::LooksAt255,
        BoundFault::OneLongScript,
        BoundFault::ForgetsTheFirst,
        BoundFault::ForgetsTheLast,
        BoundFault::RefusesBarredLines,
        BoundFault::RefusesUndeclared,
        BoundFault::RefusesTheLastTick,
        BoundFault::SwitchesAlone,
        BoundFault::OpsAlone,
        BoundFault::ForgetsTheRun,
        BoundFault::ForgetsTheWindows,
        BoundFault::AddsTheRun,
        BoundFault::CountsDomains,
        BoundFault::LeavesOneOut,
    ];
}

#[derive(Clone, Copy, Debug)]
pub struct HollowBounder(pub BoundFault);

impl Bounder for HollowBounder {
    fn name(&self) -> &'static str {
        "hollow"
    }

    fn step_bound(&self, plan: &[u32], scripts: &[u32], answer: &mut [u64]) -> u32 {
        let number = self.number(plan, scripts, answer);
        // A fault may tell a bound beside a refusal, so it is counted where it can be.
        let [ops, switches, bound] = match plan.try_into() {
            Ok(plan) => self.parts_and_bound(plan, scripts),
            Err(_) => [0; 3],
        };
        let told = match (number, self.0) {
            (12, BoundFault::TellsBesideARefusal) => [12, 0, bound, 0],
            (0, BoundFault::TellsInTheSecond) => [0, bound, 0, 0],
            (0, BoundFault::TellsInTheFourth) => [0, 0, 0, bound],
            (0, BoundFault::TellsTheParts) => [0, 0, ops, switches],
            (0, BoundFault::SaysEnded) => [0, 0, bound, 1],
            (0, _) => [0, 0, bound, 0],
            _ => [u64::from(number), 0, 0, 0],
        };
        self.tell(told, answer);
        match self.0 {
            BoundFault::ReturnsNothing => 0,
            BoundFault::ReturnsTheBound if number == 0 => bound as u32,
            _ => number,
        }
    }
}

impl HollowBounder {
    /// The refusal's number, 0 for none.
    fn number(&self, plan: &[u32], scripts: &[u32], answer: &[u64]) -> u32 {
        let store = match self.0 {
            BoundFault::TakesShortStores => [SCRIPTS - 1, SCRIPTS].contains(&scripts.len()),
            BoundFault::TakesLongStores => scripts.len() >= SCRIPTS,
            _ => scripts.len() == SCRIPTS,
        };
        let right = store && plan.len() == PLAN && answer.len() == ANSWER;
        match (right, self.admits(plan)) {
            (false, false) if self.0 == BoundFault::PlanBeforeLengths => 12,
            (false, _) => 11,
            (true, false) => 12,
            (true, true) if self.finds_damage(scripts) => 13,
            (true, true) => 0,
        }
    }

    fn admits(&self, plan: &[u32]) -> bool {
        let mut judged = plan.to_vec();
        match (self.0, judged.as_mut_slice()) {
            (BoundFault::TakesAnyPlan, _) => return true,
            // One pass is never too long.
            (BoundFault::TakesTooManyTicks, [_, run @ 1..=1_000, ..]) => *run = 1,
            (BoundFault::TakesOneTickOfPadLess, [pad @ 375, ..])
            | (BoundFault::TakesOldPads, [pad @ 276..=375, ..]) => *pad = 376,
            (BoundFault::RefusesTheLastWindow, [_, _, _, 32, ..]) => return false,
            _ => {}
        }
        Reference.step_bound(&judged, &[0; SCRIPTS], &mut [0; ANSWER]) == 0
    }

    fn finds_damage(&self, scripts: &[u32]) -> bool {
        let is_odd = |number: &u32| *number != 0 && !self.is_op(*number, 8);
        self.0 == BoundFault::JudgesTheStore && scripts.iter().any(is_odd)
    }

    fn parts_and_bound(&self, plan: &[u32; PLAN], scripts: &[u32]) -> [u64; 3] {
        let (ops, switches) = (self.ops(plan, scripts), self.switches(plan));
        let bound = ops + switches;
        let run = u64::from(plan[1]);
        let bound = match self.0 {
            BoundFault::RepeatsScripts => ops * run + switches,
            BoundFault::LeavesOneOut => bound.saturating_sub(1),
            BoundFault::AddsOne => bound + 1,
            BoundFault::CapsByLengths => {
                let ticks: u64 = plan[52..84].iter().map(|length| u64::from(*length)).sum();
                bound.min(run.saturating_mul(ticks).saturating_add(switches))
            }
            BoundFault::CutsTheBound => bound & 0x7fff,
            BoundFault::TellsTheLargest => 34_048,
            _ => bound,
        };
        [ops, switches, bound]
    }

    fn switches(&self, plan: &[u32; PLAN]) -> u64 {
        let [_, run, domains, windows, ..] = plan.map(u64::from);
        match self.0 {
            BoundFault::OpsAlone => 0,
            BoundFault::ForgetsTheRun => windows,
            BoundFault::ForgetsTheWindows => run,
            BoundFault::AddsTheRun => windows + run,
            BoundFault::CountsAllPlaces => 32 * run,
            BoundFault::CountsDomains => domains * run,
            _ => windows * run,
        }
    }

    fn ops(&self, plan: &[u32; PLAN], scripts: &[u32]) -> u64 {
        let domains = plan[2];
        let counted = scripts.chunks(256).enumerate();
        let counted = counted.filter(|(domain, _)| self.looks_at(plan, *domain as u32));
        let lengths = counted.map(|(_, script)| self.ops_of(script, domains) as u64);
        match self.0 {
            BoundFault::SwitchesAlone => 0,
            BoundFault::OneLongScript => self.ops_of(scripts, domains) as u64,
            BoundFault::LongestForAll => 8 * lengths.max().unwrap_or(0),
            _ => lengths.sum(),
        }
    }

    /// Whether this domain's script is counted.
    fn looks_at(&self, plan: &[u32; PLAN], domain: u32) -> bool {
        let windows = plan[3].min(32) as usize;
        match self.0 {
            BoundFault::DeclaredDomains => domain < plan[2],
            BoundFault::DomainsWithAWindow => plan[20..20 + windows].contains(&domain),
            BoundFault::ForgetsTheFirst => domain != 0,
            BoundFault::ForgetsTheLast => domain != 7,
            _ => true,
        }
    }

    fn ops_of(&self, script: &[u32], domains: u32) -> usize {
        let is_op = |number: &&u32| self.is_op(**number, domains);
        let numbers = script.iter();
        match self.0 {
            BoundFault::CountsPastEnds => numbers.filter(is_op).count(),
            BoundFault::CountsEverything => script.len(),
            BoundFault::CountsEnds => script.len().min(numbers.take_while(is_op).count() + 1),
            BoundFault::LooksAt255 => numbers.take(255).take_while(is_op).count(),
            _ => numbers.take_while(is_op).count(),
        }
    }

    /// Whether a number is taken for an op, where so many domains are declared.
    fn is_op(&self, number: u32, domains: u32) -> bool {
        let kind = match self.0 {
            BoundFault::CutsKinds => number >> 20 & 15,
            _ => number >> 20,
        };
        let (other, value) = (number >> 16 & 15, number & 0xffff);
        match (kind, self.0) {
            (_, BoundFault::TakesAllButZeros) => number != 0,
            (0, BoundFault::TakesZeros) => number == 0,
            (1 | 2, BoundFault::TakesLinesOfOthers) => true,
            (1 | 2, BoundFault::RefusesBarredLines) => other == 0 && value <= 4_095,
            (1 | 2, _) => other == 0,
            (3, BoundFault::TakesSendsPastTheEighth) => true,
            (3, _) => self.knows(other, domains),
            (4, BoundFault::TakesReceivesPastTheEighth) => value == 0,
            (4, BoundFault::TakesReceivesOfAValue) => other < 8,
            (4, _) => self.knows(other, domains) && value == 0,
            (5, BoundFault::TakesComputesOfOthers) => self.has_ticks(value),
            (5, _) => other == 0 && self.has_ticks(value),
            (6, BoundFault::TakesASixthKind) => true,
            _ => false,
        }
    }

    /// Whether the other domain of a message may stand there.
    fn knows(&self, other: u32, domains: u32) -> bool {
        match self.0 {
            BoundFault::RefusesUndeclared => other < domains,
            _ => other < 8,
        }
    }

    fn has_ticks(&self, value: u32) -> bool {
        match self.0 {
            BoundFault::TakesNoTicks => value <= 200,
            BoundFault::TakesOneTickMore => (1..=201).contains(&value),
            BoundFault::RefusesTheLastTick => (1..=199).contains(&value),
            BoundFault::CutsTicks => (1..=200).contains(&(value & 0xff)),
            _ => (1..=200).contains(&value),
        }
    }

    fn tell(&self, told: [u64; ANSWER], answer: &mut [u64]) {
        let length = match (self.0, answer.len()) {
            (BoundFault::SilentOnRefusals, _) if told[0] != 0 => 0,
            (BoundFault::SilentOnLengths, _) if told[0] == 11 => 0,
            (BoundFault::KeepsTheFourth, ANSWER) => 3,
            (BoundFault::WritesShortAnswers, length) => length.min(ANSWER),
            (_, ANSWER) => ANSWER,
            _ => 0,
        };
        answer[..length].copy_from_slice(&told[..length]);
    }
}
