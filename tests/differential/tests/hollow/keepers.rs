//! A run that keeps one domain's log, made of the reference's single steps, right or with a
//! fault: document 02, E8. Each step is lent a log of its own, for one record of each domain;
//! what becomes of the record, and who is idle, is decided here.

use crate::engines::again;
use crate::kept_faults::KeptFault;
use pirkvezo_differential::engine::{
    Engine, Kept, Reference, Tables, ANSWER, BOXES, CACHE, PLAN, SCRIPTS, STATE,
};
use pirkvezo_differential::timeline::Timeline;

#[derive(Clone, Copy, Debug)]
pub struct Keeper(pub KeptFault);

/// What a call is judged by, each in its turn.
#[derive(Clone, Copy, Debug, PartialEq, Eq)]
enum Judge {
    Lengths,
    PartLength,
    Plan,
    Tables,
    State,
    Domain,
}

const IN_ORDER: [Judge; 6] = [
    Judge::Lengths,
    Judge::PartLength,
    Judge::Plan,
    Judge::Tables,
    Judge::State,
    Judge::Domain,
];

impl Engine for Keeper {
    fn name(&self) -> &'static str {
        "keeper"
    }

    fn read_plan(
        &self,
        text: &[u8],
        scripts: &mut [u32],
        plan: &mut [u32],
        answer: &mut [u64],
    ) -> u32 {
        Reference.read_plan(text, scripts, plan, answer)
    }

    fn fresh_start(
        &self,
        plan: &[u32],
        state: &mut [u64],
        cache: &mut [u16],
        boxes: &mut [u32],
        answer: &mut [u64],
    ) -> u32 {
        Reference.fresh_start(plan, state, cache, boxes, answer)
    }

    fn step(&self, tables: Tables, answer: &mut [u64]) -> u32 {
        Reference.step(tables, answer)
    }

    fn run(&self, tables: Tables, limit: u64, answer: &mut [u64]) -> u32 {
        Reference.run(tables, limit, answer)
    }

    fn run_kept(&self, mut tables: Tables, kept: Kept, limit: u64, answer: &mut [u64]) -> u32 {
        let kept = Kept {
            domain: self.seen_domain(kept.domain),
            ..kept
        };
        let mut order = self.order();
        let refused = order.find(|judge| self.refuses(*judge, &tables, kept, answer.len(), limit));
        let told = match refused {
            Some(judge) => self.refuse(judge, &mut tables, kept, limit),
            None => Run::of(self.0, tables, kept).go(limit),
        };
        let is_silent = self.0 == KeptFault::SilentBesideFour && told[0] == 4;
        if answer.len() == ANSWER && !is_silent {
            answer.copy_from_slice(&told);
        }
        told[0] as u32
    }

    fn log(&self, plan: &[u32], state: &[u64], log: &[u8], domain: u32, answer: &mut [u64]) -> u32 {
        Reference.log(plan, state, log, domain, answer)
    }
}

impl Keeper {
    fn seen_domain(&self, domain: u32) -> u32 {
        match self.0 {
            KeptFault::CutsToThreeBits => domain & 7,
            KeptFault::CutsToAByte => domain & 0xff,
            _ => domain,
        }
    }

    fn order(&self) -> impl Iterator<Item = Judge> {
        // What is moved, and what it comes behind or before.
        let mut order = IN_ORDER.to_vec();
        let (moved, place) = match self.0 {
            KeptFault::LengthAfterPlan => (Judge::PartLength, 2),
            KeptFault::LengthAfterTables => (Judge::PartLength, 3),
            KeptFault::LengthAfterState => (Judge::PartLength, 4),
            KeptFault::LengthLast => (Judge::PartLength, 5),
            KeptFault::StateBeforeTables => (Judge::State, 3),
            KeptFault::DomainBeforeState => (Judge::Domain, 4),
            KeptFault::DomainBeforeTables => (Judge::Domain, 3),
            KeptFault::DomainBeforePlan => (Judge::Domain, 2),
            KeptFault::DomainFirst => (Judge::Domain, 0),
            _ => (Judge::Domain, 5),
        };
        order.retain(|judge| *judge != moved);
        order.insert(place, moved);
        order.into_iter()
    }

    fn refuses(
        &self,
        judge: Judge,
        tables: &Tables,
        kept: Kept,
        answer: usize,
        limit: u64,
    ) -> bool {
        match judge {
            Judge::Lengths => {
                let lengths = [
                    (tables.plan.len(), PLAN),
                    (tables.scripts.len(), SCRIPTS),
                    (tables.state.len(), STATE),
                    (tables.cache.len(), CACHE),
                    (tables.boxes.len(), BOXES),
                    (answer, ANSWER),
                ];
                lengths.iter().any(|(length, right)| length != right)
            }
            Judge::PartLength => !self.fits(tables, kept.part),
            Judge::Plan => !is_possible(tables.plan),
            Judge::Tables => is_damaged(tables),
            Judge::State => self.is_impossible(tables, kept),
            Judge::Domain => self.is_undeclared(tables.plan, kept.domain) && self.looks(limit),
        }
    }

    fn fits(&self, tables: &Tables, part: u64) -> bool {
        let length = tables.log.len() as u64;
        let bytes = 8 * u128::from(part);
        match self.0 {
            KeptFault::CutsBytesTo64 => length == bytes as u64,
            KeptFault::CutsBytesTo32 => length == u64::from(bytes as u32),
            KeptFault::TakesLeftOver => length / 8 == part,
            KeptFault::TakesLonger => u128::from(length) >= bytes,
            KeptFault::TakesShorter => u128::from(length) <= bytes,
            KeptFault::CountsBytes => length == part,
            KeptFault::WantsTheWhole => {
                let domains = tables.plan.get(2).copied().unwrap_or(0);
                u128::from(length) == bytes * u128::from(domains)
            }
            KeptFault::RefusesNoRoom => u128::from(length) == bytes && part > 0,
            _ => u128::from(length) == bytes,
        }
    }

    /// Whether a state is impossible. Records are judged here, and all else by the reference,
    /// with tables that are sound in every state.
    fn is_impossible(&self, tables: &Tables, kept: Kept) -> bool {
        let domains = tables.plan[2] as usize;
        let mut state = tables.state.to_vec();
        let counts = &mut state[10..10 + domains];
        let over = counts.iter().enumerate().any(|(domain, count)| {
            let is_kept = domain as u32 == kept.domain;
            self.is_over(is_kept, *count, kept.part, domains as u64)
        });
        counts.fill(0);
        let lent = Tables {
            state: &mut state,
            cache: &mut [0; CACHE],
            boxes: &mut [0; BOXES],
            log: &mut [],
            ..*tables
        };
        over || Reference.run(lent, 0, &mut [0; ANSWER]) != 0
    }

    fn is_over(&self, is_kept: bool, count: u64, part: u64, domains: u64) -> bool {
        match self.0 {
            KeptFault::JudgesOwnCount => is_kept && count > part,
            KeptFault::JudgesOtherCounts => !is_kept && count > part,
            KeptFault::JudgesBySharedRoom => count > part / domains,
            KeptFault::JudgesOneMore => count > part.saturating_add(1),
            KeptFault::RefusesFull => part > 0 && count >= part,
            KeptFault::JudgesBy256 => count > 256,
            _ => count > part,
        }
    }

    fn is_undeclared(&self, plan: &[u32], domain: u32) -> bool {
        let declared = plan.get(2).copied().unwrap_or(0);
        match self.0 {
            KeptFault::TakesUndeclared => domain >= 8,
            KeptFault::RefusesTheLast => domain + 1 >= declared,
            _ => domain >= declared,
        }
    }

    fn looks(&self, limit: u64) -> bool {
        self.0 != KeptFault::LooksBeforeSteps || limit > 0
    }

    /// What a refused call answers, with what a fault does beside it.
    fn refuse(&self, judge: Judge, tables: &mut Tables, kept: Kept, limit: u64) -> [u64; ANSWER] {
        let number = match (judge, self.0) {
            (Judge::Lengths | Judge::PartLength, _) => 11,
            (Judge::Plan, _) => 12,
            (Judge::Tables, _) => 13,
            (Judge::State, _) => 14,
            (Judge::Domain, KeptFault::UndeclaredIsTwelve) => 12,
            (Judge::Domain, KeptFault::UndeclaredIsEighteen) => 18,
            (Judge::Domain, _) => 4,
        };
        match (number, self.0) {
            (4, KeptFault::ClearsBesideFour)
            | (14, KeptFault::ClearsBesideFourteen)
            | (11, KeptFault::ClearsBesideEleven) => tables.log.fill(0),
            (4, KeptFault::RunsBesideFour) => {
                Run::of(self.0, again(tables), kept).go(limit);
            }
            _ => {}
        }
        let domain = u64::from(kept.domain);
        match (number, self.0) {
            (4, KeptFault::CompanionIsTheDomain) => [4, domain, 0, 0],
            (4, KeptFault::CompanionIsTheCount) => [4, u64::from(tables.plan[2]), 0, 0],
            (4, KeptFault::TellsBesideFour) => [4, 0, limit, 0],
            (18, _) => [18, domain, 0, 0],
            _ => [number, 0, 0, 0],
        }
    }
}

/// Whether the reader could give this plan.
fn is_possible(plan: &[u32]) -> bool {
    let (mut state, mut answer) = ([0; STATE], [0; ANSWER]);
    let (mut cache, mut boxes) = ([0; CACHE], [0; BOXES]);
    Reference.fresh_start(plan, &mut state, &mut cache, &mut boxes, &mut answer) == 0
}

/// Whether cache table or boxes are damaged, under a plan that is possible.
fn is_damaged(tables: &Tables) -> bool {
    let (mut state, mut cache) = (tables.state.to_vec(), tables.cache.to_vec());
    let mut boxes = tables.boxes.to_vec();
    let lent = Tables {
        state: &mut state,
        cache: &mut cache,
        boxes: &mut boxes,
        log: &mut [],
        ..*tables
    };
    Reference.run(lent, 0, &mut [0; ANSWER]) == 13
}

/// One call that was accepted, as it goes on.
struct Run<'a> {
    fault: KeptFault,
    tables: Tables<'a>,
    timeline: Timeline,
    domains: usize,
    /// The domain that is kept.
    own: usize,
    part: u64,
    /// The counts of records at the call's start.
    before: [u64; 8],
    steps: Steps,
}

/// Steps done.
#[derive(Clone, Copy, Debug, Default)]
struct Steps {
    all: u64,
    ops: u64,
    /// Ops and switches of the domain that is kept.
    own: u64,
}

impl<'a> Run<'a> {
    fn of(fault: KeptFault, tables: Tables<'a>, kept: Kept) -> Self {
        let mut run = Run {
            fault,
            timeline: Timeline::of(tables.plan).expect("a possible plan"),
            domains: tables.plan[2] as usize,
            own: kept.domain as usize,
            part: kept.part,
            before: [0; 8],
            steps: Steps::default(),
            tables,
        };
        run.before = run.counts();
        run
    }

    fn counts(&self) -> [u64; 8] {
        self.tables.state[10..].try_into().expect("eight counts")
    }

    /// Does steps up to the limit; gives the answer.
    fn go(mut self, limit: u64) -> [u64; ANSWER] {
        let limit = match self.fault {
            KeptFault::OneStepMore => limit.saturating_add(1),
            KeptFault::OneStepLess => limit.saturating_sub(1),
            KeptFault::CutsTheLimit => u64::from(limit as u32),
            _ => limit,
        };
        if self.fault == KeptFault::ClearsBefore {
            self.tables.log.fill(0);
        }
        while self.limited_steps() < limit && !self.stops() {
            let Some(span) = self.timeline.window(self.tables.state[0]) else {
                break;
            };
            self.step(span.domain);
        }
        if self.fault == KeptFault::ClearsBehind {
            let end = 8 * self
                .counts()
                .get(self.own)
                .map_or(0, |count| *count as usize);
            let behind = self.tables.log.get_mut(end..);
            behind.into_iter().for_each(|bytes| bytes.fill(0));
        }
        [0, 0, self.told_steps(), u64::from(self.is_ended())]
    }

    fn limited_steps(&self) -> u64 {
        match self.fault {
            KeptFault::LimitsOwnSteps => self.steps.own,
            _ => self.steps.all,
        }
    }

    fn stops(&self) -> bool {
        match self.fault {
            KeptFault::StopsWhenFull => self.is_full(self.own),
            KeptFault::StopsWithTheDomain => self.was_last(),
            _ => false,
        }
    }

    fn told_steps(&self) -> u64 {
        match self.fault {
            KeptFault::TellsOwnSteps => self.steps.own,
            KeptFault::TellsOps => self.steps.ops,
            KeptFault::TellsTheBytes => 8 * (self.counts()[self.own] - self.before[self.own]),
            _ => self.steps.all,
        }
    }

    fn is_ended(&self) -> bool {
        let is_over = self.timeline.window(self.tables.state[0]).is_none();
        match self.fault {
            KeptFault::EndsWithTheDomain => self.was_last(),
            KeptFault::NeverEnds => false,
            _ => is_over,
        }
    }

    /// Whether the kept domain has no window from here on.
    fn was_last(&self) -> bool {
        let completed = self.tables.state[0];
        let rest = completed..self.timeline.count().min(completed + 32);
        let mut spans = rest.filter_map(|completed| self.timeline.window(completed));
        !spans.any(|span| span.domain == self.own)
    }

    /// One step of the domain whose window it is. The reference is told that there is room for
    /// one record, or that there is none.
    fn step(&mut self, owner: usize) {
        let counts = self.counts();
        let is_idle = self.is_idle(owner);
        let position = self.tables.state[2 + owner];
        self.tables.state[10..].fill(0);
        self.tables.state[10 + owner] = u64::from(is_idle);
        let mut log = [0; 64];
        let lent = Tables {
            log: &mut log[..8 * self.domains],
            ..again(&mut self.tables)
        };
        let number = Reference.step(lent, &mut [0; ANSWER]);
        assert_eq!(number, 0, "a step that was judged");
        let is_op = self.tables.state[2 + owner] != position;
        self.tables.state[10..].copy_from_slice(&counts);
        self.steps.all += 1;
        self.steps.ops += u64::from(is_op);
        self.steps.own += u64::from(owner == self.own);
        if is_op {
            let record: [u8; 8] = log[8 * owner..][..8].try_into().expect("a record");
            self.store(owner, position, record);
            self.count(owner);
        }
    }

    fn is_full(&self, domain: usize) -> bool {
        self.counts()
            .get(domain)
            .is_some_and(|count| *count >= self.part)
    }

    fn is_idle(&self, owner: usize) -> bool {
        let counts = self.counts();
        let is_kept = owner == self.own;
        let is_full = self.is_full(owner);
        let domains = self.domains as u64;
        match (self.fault, is_kept) {
            (KeptFault::OthersGoOn | KeptFault::OthersGoOnUncounted, false) => false,
            (KeptFault::OthersStand, false) => true,
            (KeptFault::OthersStopEarly, false) => counts[owner] + 1 >= self.part,
            (KeptFault::OthersStopLate, false) => counts[owner] > self.part,
            (KeptFault::OthersHave256, false) => counts[owner] >= 256,
            (KeptFault::OthersShareRoom, false) => counts[owner] >= self.part / domains,
            (KeptFault::OthersCountTheCall, false) => {
                counts[owner] - self.before[owner] >= self.part
            }
            (KeptFault::OthersCountOps, false) => self.tables.state[2 + owner] >= self.part,
            (KeptFault::AllStopWithTheKept, _) => is_full || self.is_full(self.own),
            (KeptFault::OneQuotaForAll, _) => counts.iter().sum::<u64>() >= self.part,
            (KeptFault::TheKeptGoesOn, true) => false,
            (KeptFault::TheKeptStands, true) => true,
            _ => is_full,
        }
    }

    fn count(&mut self, owner: usize) {
        let is_kept = owner == self.own;
        let counted = match (self.fault, is_kept) {
            (KeptFault::OthersGoOnUncounted, false) if self.is_full(owner) => return,
            (KeptFault::OthersNotCounted, false) | (KeptFault::TheKeptNotCounted, true) => return,
            (KeptFault::CountedWithTheKept, false) => self.own,
            _ => owner,
        };
        self.tables.state[10 + counted] += 1;
    }

    /// Stores a record at a place in records, or nowhere.
    fn store(&mut self, owner: usize, position: u64, mut record: [u8; 8]) {
        let counts = self.counts();
        let is_kept = match self.fault {
            KeptFault::StoresEveryone | KeptFault::StoresInTurn => true,
            KeptFault::StoresNothing => false,
            KeptFault::StoresTheNext => owner == (self.own + 1) % self.domains,
            KeptFault::StoresTheFirst => owner == 0,
            _ => owner == self.own,
        };
        let count = counts[owner];
        let place = match self.fault {
            KeptFault::StoresAtWholeIndex => self.part * owner as u64 + count,
            KeptFault::StoresInTurn => counts.iter().sum(),
            KeptFault::StoresFromTheStart => count - self.before[owner],
            KeptFault::StoresAtThePosition => position,
            KeptFault::StoresBackwards => (self.part - 1).saturating_sub(count),
            _ => count,
        };
        if self.fault == KeptFault::StoresTheDomain {
            record[1] = owner as u8;
        }
        let place = place as usize;
        let bytes = self.tables.log.get_mut(8 * place..8 * place + 8);
        let bytes = bytes.filter(|_| is_kept);
        bytes
            .into_iter()
            .for_each(|bytes| bytes.copy_from_slice(&record));
    }
}
