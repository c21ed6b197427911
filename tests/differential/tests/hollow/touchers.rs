//! The reference with switches of its own, right ones or with a fault: document 01, "Window,
//! switch, run", and document 02, E9.

use crate::boards::plain_access;
use crate::engines::{again, kept_by_run};
use crate::touch_faults::TouchFault;
use pirkvezo_differential::engine::{Engine, Kept, Reference, Tables, PLAN};
use pirkvezo_differential::timeline::Timeline;

#[derive(Clone, Copy, Debug)]
pub struct Toucher(pub TouchFault);

const DIRTY: u16 = 32_768;
/// What stands for line 60 in a table, and where that is in L1 and in L2.
const TAG: u16 = 61;
const NEAR: usize = 12;
const SET: usize = 16 + 4 * 60;
/// The kernel's sets.
const KERNEL: usize = SET;

/// One switch.
struct Switch {
    /// The windows completed before it, and all that there are.
    completed: u64,
    count: u64,
    /// Windows of one pass.
    pass: u64,
    /// When the window ends and when the next one starts.
    end: u64,
    next: u64,
    /// Whether the next window is of the same domain, and whether its domain has a box.
    is_same: bool,
    has_box: bool,
}

impl Engine for Toucher {
    fn name(&self) -> &'static str {
        "toucher"
    }

    fn read_plan(
        &self,
        text: &[u8],
        scripts: &mut [u32],
        plan: &mut [u32],
        answer: &mut [u64],
    ) -> u32 {
        let mut read = text.to_vec();
        let pads = raise_pads(&mut read, |pad| self.reads(pad));
        let number = Reference.read_plan(&read, scripts, plan, answer);
        if let (0, [pad]) = (number, &pads[..]) {
            plan[0] = *pad;
        }
        number
    }

    fn fresh_start(
        &self,
        plan: &[u32],
        state: &mut [u64],
        cache: &mut [u16],
        boxes: &mut [u32],
        answer: &mut [u64],
    ) -> u32 {
        let number = Reference.fresh_start(&self.raised(plan), state, cache, boxes, answer);
        match (number, self.0) {
            (0, TouchFault::StartsTouched) => [cache[NEAR], cache[SET]] = [TAG; 2],
            (0, TouchFault::StartsWithL2Touched) => cache[SET] = TAG,
            _ => {}
        }
        number
    }

    fn step(&self, tables: Tables, answer: &mut [u64]) -> u32 {
        self.run(tables, 1, answer)
    }

    fn run(&self, tables: Tables, limit: u64, answer: &mut [u64]) -> u32 {
        let plan = self.raised(tables.plan);
        let mut tables = Tables {
            plan: &plan,
            ..tables
        };
        let number = self.judge(&mut tables, answer);
        let mut steps = 0;
        while number == 0 && steps < limit && answer[3] == 0 {
            let (completed, clock) = (tables.state[0], tables.state[1]);
            let before = tables.cache.to_vec();
            if Reference.step(again(&mut tables), answer) != 0 {
                // A fault has made the world impossible; that is difference enough.
                break;
            }
            steps += 1;
            if tables.state[0] != completed {
                tables.cache.copy_from_slice(&before);
                let switch = Switch::of(tables.plan, completed);
                tables.state[1] = self.switch(&switch, clock, tables.cache);
            }
        }
        if number == 0 {
            answer[2] = steps;
        }
        number
    }

    fn run_kept(&self, tables: Tables, kept: Kept, limit: u64, answer: &mut [u64]) -> u32 {
        kept_by_run(self, tables, kept, limit, answer)
    }

    fn log(&self, plan: &[u32], state: &[u64], log: &[u8], domain: u32, answer: &mut [u64]) -> u32 {
        Reference.log(&self.raised(plan), state, log, domain, answer)
    }
}

impl Switch {
    fn of(plan: &[u32], completed: u64) -> Self {
        let timeline = Timeline::of(plan).expect("a plan that was taken");
        let span = timeline.window(completed).expect("a window");
        let next = timeline.window(completed + 1);
        let has_box = |domain: usize| {
            let received = plan[12..20].iter().any(|may| may >> domain & 1 == 1);
            plan[12 + domain] != 0 || received
        };
        Switch {
            completed,
            count: timeline.count(),
            pass: u64::from(plan[3]),
            end: span.end,
            next: span.next,
            is_same: next.is_some_and(|next| next.domain == span.domain),
            has_box: next.is_some_and(|next| has_box(next.domain)),
        }
    }

    fn is_last(&self) -> bool {
        self.completed + 1 == self.count
    }

    /// Whether its window is the last of a pass.
    fn ends_pass(&self) -> bool {
        (self.completed + 1).is_multiple_of(self.pass)
    }
}

/// Its switches.
impl Toucher {
    /// Does a switch at this clock; gives the clock behind it.
    fn switch(&self, switch: &Switch, clock: u64, cache: &mut [u16]) -> u64 {
        let was_there = cache[SET..SET + 4].contains(&TAG);
        let mut clock = clock.max(switch.end);
        if self.0 == TouchFault::TouchesFirst {
            clock += plain_access(cache, 60, false);
        }
        clock += self.flush_kernel_sets(cache);
        if self.0 == TouchFault::TouchesBetween {
            clock += plain_access(cache, 60, false);
        }
        clock += self.flush_l1(cache);
        if self.touches(switch, was_there) {
            clock += self.touch(cache);
        }
        if self.empties(switch) {
            clock += self.empty(cache);
        }
        match self.0 {
            TouchFault::ChargesAfterThePad => clock.max(switch.next) + 100,
            TouchFault::PadsFromTheTouch => clock + (switch.next - switch.end),
            TouchFault::SkipsThePad => clock,
            _ => clock.max(switch.next),
        }
    }

    fn flush_kernel_sets(&self, cache: &mut [u16]) -> u64 {
        let first = match self.0 {
            TouchFault::KeepsTheSet => KERNEL + 4,
            _ => KERNEL,
        };
        let valid = cache[KERNEL..].iter().filter(|held| **held != 0).count();
        cache[first..].fill(0);
        8 + valid as u64
    }

    fn flush_l1(&self, cache: &mut [u16]) -> u64 {
        let near = &mut cache[..16];
        let dirty = near.iter().filter(|held| **held >= DIRTY).count();
        let keeps = self.0 == TouchFault::KeepsTheLine && near[NEAR] & !DIRTY == TAG;
        let kept = if keeps { near[NEAR] } else { 0 };
        near.fill(0);
        near[NEAR] = kept;
        8 + 2 * dirty as u64
    }

    /// Whether it touches anything where the paper says so.
    fn touches(&self, switch: &Switch, was_there: bool) -> bool {
        match self.0 {
            TouchFault::TouchesNothing | TouchFault::TouchesFirst | TouchFault::TouchesBetween => {
                false
            }
            TouchFault::NotForTheSame => !switch.is_same,
            TouchFault::NotForTheMute => switch.has_box,
            TouchFault::NotForAPass => !switch.ends_pass(),
            TouchFault::WhereItWasAlone => was_there,
            TouchFault::LastTouchesNothing => !switch.is_last(),
            _ => true,
        }
    }

    fn touch(&self, cache: &mut [u16]) -> u64 {
        let line = match self.0 {
            TouchFault::TouchesLine61 => 61,
            TouchFault::TouchesLine124 => 124,
            _ => 60,
        };
        let ticks = plain_access(cache, line, self.0 == TouchFault::TouchesByAWrite);
        match self.0 {
            TouchFault::TouchesL1Alone => cache[SET] = 0,
            TouchFault::TouchesL2Alone => cache[NEAR] = 0,
            _ => {}
        }
        match self.0 {
            TouchFault::ChargesOneMore => 101,
            TouchFault::ChargesForDirt => 104,
            TouchFault::ChargesAMessage => 105,
            TouchFault::ChargesNothing | TouchFault::ChargesAfterThePad => 0,
            TouchFault::ChargesAHitInL1 => 1,
            TouchFault::ChargesAHitInL2 => 10,
            _ => ticks,
        }
    }

    fn empties(&self, switch: &Switch) -> bool {
        match self.0 {
            TouchFault::LastKeeps => false,
            TouchFault::EmptiesEachPass => switch.ends_pass(),
            TouchFault::EmptiesTheFirstPass => switch.completed + 1 == switch.pass,
            _ => switch.is_last(),
        }
    }

    /// Empties what a touch has left; gives the ticks, of which there are none.
    fn empty(&self, cache: &mut [u16]) -> u64 {
        if self.0 != TouchFault::LastKeepsL1 {
            cache[..16].fill(0);
        }
        match self.0 {
            TouchFault::LastKeepsL2 => {}
            TouchFault::LastEmptiesAll => cache[16..].fill(0),
            _ => cache[KERNEL..].fill(0),
        }
        match self.0 {
            TouchFault::LastChargesATick => 1,
            TouchFault::LastChargesFlushes => (8 + 1) + 8,
            _ => 0,
        }
    }
}

/// What it judges of what it is lent.
impl Toucher {
    /// The number of a run with these tables; its answer is that of limit 0.
    fn judge(&self, tables: &mut Tables, answer: &mut [u64]) -> u32 {
        let number = Reference.run(again(tables), 0, answer);
        let timeline = Timeline::of(tables.plan);
        let (Some(timeline), 0 | 13) = (timeline, number) else {
            return number;
        };
        let (near, set) = (tables.cache[NEAR], &tables.cache[SET..SET + 4]);
        let is_near = near & !DIRTY == TAG;
        let is_whole = is_near && set.contains(&TAG);
        let span = timeline.window(tables.state[0]);
        let at_start = span.is_some_and(|span| tables.state[1] == span.start);
        let is_first = tables.state[0] == 0;
        let damaged = match self.0 {
            TouchFault::DemandsTheLine => at_start && !is_first && !is_whole,
            TouchFault::BarsTheLineAtFirst => is_first && is_near,
            TouchFault::BarsADirtyLine => near == DIRTY + TAG,
            TouchFault::BarsTheLineAfterTheEnd => span.is_none() && set.contains(&TAG),
            _ => false,
        };
        match (number, self.0) {
            (0, _) if damaged => {
                answer.copy_from_slice(&[13, 0, 0, 0]);
                13
            }
            (13, TouchFault::AllowsTheLineAfterTheEnd) if span.is_none() && near == TAG => {
                tables.cache[NEAR] = 0;
                let number = Reference.run(again(tables), 0, answer);
                tables.cache[NEAR] = near;
                number
            }
            _ => number,
        }
    }

    /// Whether it reads this pad, which is below the least.
    fn reads(&self, pad: u32) -> bool {
        match self.0 {
            TouchFault::ReadsOneTickLess => pad == 375,
            TouchFault::ReadsOldPads => (276..=375).contains(&pad),
            _ => false,
        }
    }

    /// The plan as it sees it: where it takes a pad that is too short, with the least.
    fn raised(&self, plan: &[u32]) -> Vec<u32> {
        let mut raised = plan.to_vec();
        match (self.0, raised.first_mut()) {
            (TouchFault::TakesOneTickLess, Some(pad @ 375))
            | (TouchFault::TakesOldPads, Some(pad @ 276..=375))
                if plan.len() == PLAN =>
            {
                *pad = 376;
            }
            _ => {}
        }
        raised
    }
}

/// Writes 376 for each pad of a text that is read, in as many digits; gives those pads.
fn raise_pads(text: &mut [u8], is_read: impl Fn(u32) -> bool) -> Vec<u32> {
    let mut pads = Vec::new();
    for at in 0..text.len() {
        if !text[at..].starts_with(b"pad ") {
            continue;
        }
        let digits = at + 4..text.len();
        let end = digits.clone().find(|place| !text[*place].is_ascii_digit());
        let digits = at + 4..end.unwrap_or(text.len());
        let number = std::str::from_utf8(&text[digits.clone()]).expect("digits");
        let pad = number.parse().ok().filter(|pad| is_read(*pad));
        if let Some(pad) = pad {
            text[digits.end - 3..digits.end].copy_from_slice(b"376");
            pads.push(pad);
        }
    }
    pads
}
