//! A lateness finder of its own with a fault put in. Some faults are in how it sees a
//! plan; then what it tells and what it hands back fit each other.

use crate::lateness_faults::LatenessFault as Fault;
use pirkvezo_differential::engine::{
    Bounder, LatenessFinder, Reference, ANSWER, PLAN, SCRIPT, SCRIPTS,
};
use pirkvezo_differential::generate::late_scripts::known_scripts;
use pirkvezo_differential::generate::sketch::Act;
use pirkvezo_differential::latest::laws::LENGTHS;
use std::collections::BTreeSet;

#[derive(Clone, Copy, Debug)]
pub struct HollowFinder(pub Fault);

impl LatenessFinder for HollowFinder {
    fn name(&self) -> &'static str {
        "hollow"
    }

    fn latest(&self, plan: &[u32], domain: u32, script: &mut [u32], answer: &mut [u64]) -> u32 {
        let lengths = [plan.len(), answer.len()] == [PLAN, ANSWER] && self.takes(script.len());
        let number = self.number(lengths, plan, domain);
        let found = plan.try_into().ok();
        let found = found.and_then(|plan| self.found(plan, self.domain(domain)));
        let (ticks, late) = found.unwrap_or((0, vec![0; SCRIPT]));
        self.hand_back(number, &late, script);
        self.tell(self.told(number, plan, domain, ticks), answer);
        match self.0 {
            Fault::ReturnsNothing => 0,
            Fault::ReturnsTheTicks if number == 0 => ticks as u32,
            _ => number,
        }
    }
}

/// Which call is refused.
impl HollowFinder {
    /// The refusal's number, 0 for none.
    fn number(&self, lengths: bool, plan: &[u32], domain: u32) -> u32 {
        let undeclared = plan.get(2).is_some_and(|count| domain >= *count);
        let eighteen = match self.0 {
            Fault::UndeclaredIsFour if undeclared => 4,
            _ => 18,
        };
        let judged = [
            (11, !lengths),
            (12, !self.admits(plan)),
            (eighteen, !self.tells_of(plan, self.domain(domain))),
        ];
        let order = match self.0 {
            Fault::PlanBeforeLengths => [1, 0, 2],
            Fault::DomainBeforeLengths => [2, 0, 1],
            Fault::DomainBeforePlan => [0, 2, 1],
            _ => [0, 1, 2],
        };
        let mut refused = order.into_iter().filter(|at| judged[*at].1);
        refused.next().map_or(0, |at| judged[at].0)
    }

    fn takes(&self, script: usize) -> bool {
        match self.0 {
            Fault::TakesShortScripts => [SCRIPT - 1, SCRIPT].contains(&script),
            Fault::TakesLongScripts => script >= SCRIPT,
            _ => script == SCRIPT,
        }
    }

    fn admits(&self, plan: &[u32]) -> bool {
        let mut judged = plan.to_vec();
        match (self.0, judged.as_mut_slice()) {
            (Fault::TakesAnyPlan, _) => return true,
            // One pass is never too long.
            (Fault::TakesTooManyTicks, [_, run @ 1..=1_000, ..]) => *run = 1,
            (Fault::TakesOneTickOfPadLess, [pad @ 375, ..])
            | (Fault::TakesOldPads, [pad @ 276..=375, ..]) => *pad = 376,
            (Fault::RefusesTheLastWindow, [_, _, _, 32, ..]) => return false,
            _ => {}
        }
        Reference.step_bound(&judged, &[0; SCRIPTS], &mut [0; ANSWER]) == 0
    }

    /// The domain that it looks at.
    fn domain(&self, domain: u32) -> u32 {
        match self.0 {
            Fault::CutsToThreeBits => domain & 7,
            Fault::CutsToAByte => domain & 0xff,
            _ => domain,
        }
    }

    /// Whether the windows of a domain will do.
    fn tells_of(&self, plan: &[u32], domain: u32) -> bool {
        let (Some(owners), Some(lengths)) = (plan.get(20..52), plan.get(52..84)) else {
            return true;
        };
        let used = match self.0 {
            Fault::LooksAtUnused => 32,
            _ => plan[3].min(32) as usize,
        };
        let mut windows = owners.iter().zip(lengths).take(used);
        let all = windows.clone().all(|(_, length)| self.allows(*length));
        let own = windows.clone().filter(|(owner, _)| **owner == domain);
        let own: Vec<bool> = own.map(|(_, length)| self.allows(*length)).collect();
        let (first, last) = (own.first() == Some(&true), own.last() == Some(&true));
        match self.0 {
            Fault::TakesNoWindows if own.is_empty() => domain < plan[2],
            Fault::TakesUndeclared if domain >= plan[2] => {
                windows.any(|(_, length)| self.allows(*length))
            }
            Fault::LooksAtTheFirst => first,
            Fault::LooksAtTheLast => last,
            Fault::LooksForAny => own.contains(&true),
            Fault::LooksAtAll => first && all,
            _ => first && !own.contains(&false),
        }
    }

    fn allows(&self, length: u32) -> bool {
        let (least, most) = LENGTHS.into_inner();
        let taken = match self.0 {
            Fault::RefusesTheShortest => least + 1..=most,
            Fault::RefusesTheLongest => least..=most - 1,
            Fault::TakesOneTickLess => least - 1..=most,
            Fault::TakesOneTickMore => least..=most + 1,
            Fault::TakesShortWindows => 0..=most,
            Fault::TakesLongWindows => least..=u32::MAX,
            _ => least..=most,
        };
        match self.0 {
            Fault::CutsLengths => taken.contains(&(length & 0xffff)),
            _ => taken.contains(&length),
        }
    }
}

/// What is told and handed back.
impl HollowFinder {
    /// The ticks and the script of a domain. A fault may tell them beside a refusal, so
    /// they are there wherever they can be.
    fn found(&self, plan: &[u32; PLAN], domain: u32) -> Option<(u64, Vec<u32>)> {
        let own = domain as usize;
        let windows = plan[3].min(32) as usize;
        let window = plan[20..20 + windows]
            .iter()
            .position(|owner| *owner == domain)?;
        let sound = (1..=8).contains(&plan[2]) && domain < plan[2] && plan[84 + own] & 0x7fff != 0;
        if !sound {
            return None;
        }
        let mut seen = *plan;
        seen[3] = windows as u32;
        self.see_rights(&mut seen, own);
        let ticks = self.ticks(&seen, own);
        self.see_for_script(&mut seen, own, window);
        Some((ticks, self.script(&seen, own)))
    }

    /// Sees the plan's rights.
    fn see_rights(&self, seen: &mut [u32; PLAN], own: usize) {
        let bit = 1 << own;
        let rights = &mut seen[12..20];
        let first = rights[0] & !bit;
        let any = rights.iter().any(|may| *may != 0);
        let another = if own == 0 { 2 } else { 1 };
        match self.0 {
            Fault::SendsAlone => rights.iter_mut().for_each(|may| *may &= !bit),
            Fault::ReceivesAlone => rights[own] = 0,
            Fault::RightsOfTheFirst => {
                rights.iter_mut().for_each(|may| *may &= !bit);
                rights[own] = first;
            }
            Fault::RightsOfAny if any => rights[own] |= another,
            Fault::ForgetsTheEighth => {
                rights[own] &= 0x7f;
                rights[7] = 0;
            }
            Fault::NoRights => rights.fill(0),
            _ => {}
        }
    }

    fn ticks(&self, seen: &[u32; PLAN], own: usize) -> u64 {
        let colours = (0..15).filter(|colour| seen[84 + own] >> colour & 1 == 1);
        let holding = colours.clone().count() as u32;
        let quarters: BTreeSet<u32> = match self.0 {
            Fault::ColoursFromZero => (0..holding).map(|colour| colour % 4).collect(),
            Fault::ColoursByBlocks => colours.map(|colour| colour / 4).collect(),
            Fault::ColoursOfAll => (0..4).collect(),
            _ => colours.map(|colour| colour % 4).collect(),
        };
        let lines = match self.0 {
            Fault::ColoursWithoutLimit => 4 * u64::from(holding),
            _ => 4 * quarters.len() as u64,
        };
        let shared = if self.0 == Fault::KernelComesFirst {
            0
        } else {
            3
        };
        let meets = quarters.contains(&shared);
        let leads = self.leads(seen, own);
        let parts = match (boxes_of(seen, own), leads) {
            (0, _) => self.without_rights(leads, lines),
            (_, true) => self.with_rights(self.boxes(seen, own), meets, lines),
            (_, false) => self.behind(self.boxes(seen, own), meets, lines),
        };
        self.sum(seen, parts)
    }

    /// Whether the domain has the run's first window.
    fn leads(&self, seen: &[u32; PLAN], own: usize) -> bool {
        let last = seen[20 + seen[3].clamp(1, 32) as usize - 1];
        match self.0 {
            Fault::EveryWindowIsBare => true,
            Fault::EveryWindowIsTouched => false,
            Fault::DomainZeroLeads => own == 0,
            Fault::TheLastLeads => last as usize == own,
            _ => seen[20] as usize == own,
        }
    }

    /// How many boxes count that a domain may use: as many as their L2 set holds.
    fn boxes(&self, seen: &[u32; PLAN], own: usize) -> u64 {
        let rights = &seen[12..20];
        let received = rights.iter().enumerate();
        let received = received.filter(|(_, may)| **may >> own & 1 == 1);
        let senders: u32 = received.map(|(from, _)| 1 << from).sum();
        let recipients = rights[own];
        let all = u64::from(recipients.count_ones() + senders.count_ones());
        match self.0 {
            Fault::BoxesToSendAlone => u64::from(recipients.count_ones()).min(4),
            Fault::BoxesToReceiveAlone => u64::from(senders.count_ones()).min(4),
            Fault::BoxesByPartner => u64::from((recipients | senders).count_ones()).min(4),
            Fault::BoxesWithoutLimit => all,
            Fault::BoxesUpToThree => all.min(3),
            Fault::BoxesUpToOne => all.min(1),
            _ => all.min(4),
        }
    }

    /// The last op's ticks, the lines in the kernel's sets and the dirty lines in L1 of a
    /// domain without a right.
    fn without_rights(&self, leads: bool, lines: u64) -> [u64; 3] {
        match self.0 {
            Fault::NothingIsDenied if leads => [200, 0, lines],
            _ => [200, 1, lines],
        }
    }

    /// The same with a right, in the run's first window.
    fn with_rights(&self, boxes: u64, meets: bool, lines: u64) -> [u64; 3] {
        match (meets, self.0) {
            (_, Fault::WritesLast) => [104, 1 + boxes, lines],
            (true, Fault::ComputesLast) => [200, 1 + boxes, lines],
            (false, Fault::ComputesLast) => [200, 1 + boxes, lines + 1],
            (_, Fault::ReplacesAlways) => [213, 2, lines - 1],
            (true, Fault::ReplacesNothing) => [205, 2, lines - 1],
            (true, Fault::ReplacesOne) => [209, 2, lines - 1],
            (true, Fault::EntryLineIsDirty) => [213, 2, lines],
            (true, Fault::BoxIsClean) => [213, 2, lines - 2],
            (false, Fault::BoxIsClean) => [205, 2, lines],
            (true, Fault::CountsAllBoxes) => [213, 1 + boxes, lines - 1],
            (false, Fault::CountsAllBoxes) => [205, 1 + boxes, lines + 1],
            (true, _) => [213, 2, lines - 1],
            (false, _) => [205, 2, lines + 1],
        }
    }

    /// The same with a right, in any other window.
    fn behind(&self, boxes: u64, meets: bool, lines: u64) -> [u64; 3] {
        match (meets, self.0) {
            (_, Fault::WritesLast) => [104, 1 + boxes, lines],
            (true, Fault::MessageLastAnyway) => [5 + 14 + 104, 2, lines - 1],
            (false, Fault::MessageLastAnyway) => [5 + 1 + 100, 2, lines + 1],
            (false, Fault::EntryLineIsDirty) => [200, 1 + boxes, lines + 2],
            (false, Fault::BoxIsClean) => [200, 1 + boxes, lines],
            (true, Fault::BoxBesideItsPlace) => [200, 1 + boxes, lines + 1],
            (true, _) => [200, 1 + boxes, lines],
            (false, _) => [200, 1 + boxes, lines + 1],
        }
    }

    /// Those three added up, with what a switch takes besides.
    fn sum(&self, seen: &[u32; PLAN], [op, valid, dirty]: [u64; 3]) -> u64 {
        let valid = match self.0 {
            Fault::ForgetsTheEntryLine => valid - 1,
            _ => valid,
        };
        let is_only = seen[1] == 1 && seen[3] == 1;
        let touch = match self.0 {
            Fault::ForgetsTheTouch => 0,
            Fault::TouchHitsL1 => 1,
            Fault::TouchHitsL2 => 10,
            Fault::TouchReplaces => 104,
            Fault::LastIsNotTouched if is_only => 0,
            _ => 100,
        };
        let [past, kernel, near] = match self.0 {
            Fault::CountsTheWholeOp => [op, 8 + valid, 8 + 2 * dirty],
            Fault::ForgetsTheOp => [0, 8 + valid, 8 + 2 * dirty],
            Fault::ForgetsL1 => [op - 1, 8 + valid, 0],
            Fault::ForgetsTheKernel => [op - 1, 0, 8 + 2 * dirty],
            Fault::OneTickEach => [op - 1, 8 + valid, 8 + dirty],
            Fault::TwoTicksEach => [op - 1, 8 + 2 * valid, 8 + 2 * dirty],
            _ => [op - 1, 8 + valid, 8 + 2 * dirty],
        };
        let ticks = past + kernel + near + touch;
        match self.0 {
            Fault::OneMore => ticks + 1,
            Fault::OneLess => ticks - 1,
            Fault::TellsTheLeastPad => 376,
            Fault::TellsThePad => u64::from(seen[0]),
            Fault::TellsWhatIsLeft => u64::from(seen[0]).saturating_sub(ticks),
            Fault::TellsThePapers => 360,
            _ => ticks,
        }
    }

    /// Sees the plan as the script needs it: the length of the domain's first window,
    /// its colours and its rights.
    fn see_for_script(&self, seen: &mut [u32; PLAN], own: usize, window: usize) {
        let windows = 0..seen[3].min(32) as usize;
        let mut later = windows.rev();
        let last = later.find(|place| seen[20 + place] as usize == own);
        let length = seen[52 + window];
        let fitted = match self.0 {
            Fault::OneTickEarly => length.saturating_sub(1),
            Fault::OneTickLate => length.saturating_add(1),
            Fault::FitsTheLast => last.map_or(length, |place| seen[52 + place]),
            Fault::FitsThePlansFirst => seen[52],
            Fault::FitsTheShortest => 4_000,
            _ => length,
        };
        let leads = match self.0 {
            Fault::FitsABareStart => true,
            Fault::FitsATouchedStart => false,
            _ => seen[20] as usize == own,
        };
        // The window alone, or behind one of another domain. Where the length is beyond its
        // limit, any script will do.
        let other = if own == 0 { 1 } else { 0 };
        let owners = [if leads { own as u32 } else { other }, own as u32];
        seen[3] = 2;
        seen[20..22].copy_from_slice(&owners);
        seen[52..54].fill(fitted.min(30_000));
        let colours = &mut seen[84 + own];
        *colours = match self.0 {
            Fault::LinesFromZero => (1 << colours.count_ones()) - 1,
            Fault::LinesFurtherOn => (*colours << 1 | *colours >> 14) & 0x7fff,
            _ => *colours & 0x7fff,
        };
    }

    fn script(&self, seen: &[u32; PLAN], own: usize) -> Vec<u32> {
        let [with_right, denied, computing] = known_scripts(seen, own as u32);
        let leads = seen[20] as usize == own;
        let mut script = match (boxes_of(seen, own), leads, self.0) {
            (_, _, Fault::ComputesLast) => computing,
            (0, ..) => denied,
            (_, false, Fault::MessageLastAnyway) => with_right,
            (_, true, _) => with_right,
            (_, false, _) => computing,
        };
        let longest = Act::Compute(200).stored();
        let none = Act::Receive(own as u32).stored();
        let ops = ops_in(&script);
        let last = ops - 1;
        let (read, write) = (Act::Read(0).stored(), Act::Write(0).stored());
        let is_write = |number: &u32| number >> 20 == 2;
        let is_twelfth = |number: &u32| is_write(number) && number % 16 == 12;
        let first_write = script.iter().position(is_write);
        let twelfth = script.iter().position(is_twelfth);
        let compute = script.iter().position(|number| *number == longest);
        // As many ticks as a write of a line that neither cache holds.
        let pause = Act::Compute(100).stored();
        match (self.0, first_write, compute) {
            (Fault::ReadsALine, Some(place), _) => script[place] -= write - read,
            (Fault::LeavesALine, Some(place), _) => script[place] = pause,
            (Fault::LeavesTheTwelfth, ..) => {
                twelfth.into_iter().for_each(|place| script[place] = pause);
            }
            (Fault::SwapsReadAndWrite, ..) => {
                let writes = script.iter_mut().filter(|number| is_write(number));
                writes.for_each(|number| *number -= write - read);
            }
            (Fault::MessageBeforeTheLast, _, Some(place)) if ops < SCRIPT => {
                script[place] = none;
                script[place + 1..].rotate_right(1);
                script[place + 1] = Act::Compute(95).stored();
            }
            (Fault::DeniedAtTheEnd, ..) => script[last] = none,
            (Fault::ComputesAtTheEnd, ..) => script[last] = longest,
            (Fault::SendsToTheSender, ..) if script[last] >> 20 == 4 => {
                script[last] = Act::Send(script[last] >> 16 & 7, 1).stored();
            }
            (Fault::ComputesTooLong, _, Some(place)) => script[place] += 1,
            (Fault::LosesTheFirst, ..) => script.rotate_left(1),
            (Fault::LosesTheLast, ..) => script[last] = 0,
            (Fault::BeginsWithAnEnd, ..) => script[0] = 0,
            (Fault::CutsAtAHundred, ..) => script[100..].fill(0),
            (Fault::GoesOnBehindTheEnd, ..) if ops + 1 < SCRIPT => script[ops + 1] = longest,
            (Fault::FillsUp, ..) => script[ops..].fill(u32::MAX),
            _ => {}
        }
        script
    }

    fn hand_back(&self, number: u32, late: &[u32], script: &mut [u32]) {
        match (self.0, number) {
            (Fault::ClearsBesideEighteen, 18)
            | (Fault::ClearsBesideTwelve, 12)
            | (Fault::ClearsBesideEleven, 11) => return script.fill(0),
            (Fault::ClearsTheFirst, 1..) => {
                return script.iter_mut().take(1).for_each(|first| *first = 0);
            }
            (_, 1..) | (Fault::KeepsTheScript, _) => return,
            _ => {}
        }
        let written = match self.0 {
            Fault::KeepsTheRest => ops_in(late) + 1,
            Fault::KeepsTheEnd => ops_in(late),
            Fault::KeepsThe256th => SCRIPT - 1,
            _ => SCRIPT,
        };
        let written = written.min(script.len()).min(SCRIPT);
        script[..written].copy_from_slice(&late[..written]);
    }

    fn told(&self, number: u32, plan: &[u32], domain: u32, ticks: u64) -> [u64; ANSWER] {
        let [first, own] = [number, domain].map(u64::from);
        let count = plan.get(2).map_or(0, |count| u64::from(*count));
        match (number, self.0) {
            (0, Fault::TellsInTheSecond) => [0, ticks, 0, 0],
            (0, Fault::TellsInTheFourth) => [0, 0, 0, ticks],
            (0, Fault::SaysEnded) => [0, 0, ticks, 1],
            (0, Fault::CompanionBesideNothing) => [0, own, ticks, 0],
            (0, _) => [0, 0, ticks, 0],
            (4, _) => [4, 0, 0, 0],
            (18, Fault::NoCompanion) => [18, 0, 0, 0],
            (18, Fault::CompanionIsTheCount) => [18, count, 0, 0],
            (18, Fault::TellsBesideARefusal) => [18, own, ticks, 0],
            (18, _) => [18, u64::from(self.domain(domain)), 0, 0],
            (12, Fault::CompanionBesideTwelve) => [12, own, 0, 0],
            (11, Fault::CompanionBesideEleven) => [11, own, 0, 0],
            _ => [first, 0, 0, 0],
        }
    }

    fn tell(&self, told: [u64; ANSWER], answer: &mut [u64]) {
        let length = match (self.0, answer.len()) {
            (Fault::SilentOnRefusals, _) if told[0] != 0 => 0,
            (Fault::SilentOnLengths, _) if told[0] == 11 => 0,
            (Fault::KeepsTheFourth, ANSWER) => 3,
            (Fault::WritesShortAnswers, length) => length.min(ANSWER),
            (_, ANSWER) => ANSWER,
            _ => 0,
        };
        answer[..length].copy_from_slice(&told[..length]);
    }
}

/// How many boxes a domain may use.
fn boxes_of(plan: &[u32; PLAN], own: usize) -> u64 {
    let sent = plan[12 + own].count_ones();
    let received = plan[12..20].iter().filter(|may| **may >> own & 1 == 1);
    u64::from(sent) + received.count() as u64
}

/// How many ops stand before a script's end.
fn ops_in(script: &[u32]) -> usize {
    let ops = script.iter();
    ops.take_while(|number| Act::is_stored(**number)).count()
}
