//! The reference with a fault put in from outside.

use pirkvezo_differential::engine::{Engine, Kept, Reference, Tables};
use pirkvezo_differential::timeline::Timeline;

#[derive(Clone, Copy, Debug, PartialEq, Eq)]
pub enum Fault {
    None,
    /// Its switches are right; of the ops, only those of the first window are run.
    PretendsLater,
    /// Reports a step count of its own.
    InventsSteps,
    /// Says stopped with steps left.
    StopsEarly,
    /// Logs the same record for every op.
    OneRecord,
    /// Refuses every plan.
    RefusesAll,
    /// Leaves all tables as lent.
    LeavesTables,
    /// Lets the L1 lines stand at a switch.
    KeepsL1,
    /// Refuses a send to a full box.
    MindsFullBoxes,
    /// Lets ops take no time.
    StopsTheClock,
    /// Does each op again and again.
    StaysInPlace,
    /// Writes clocks that hold a trace of the other domains' L2 sets.
    TellsTheTime,
    /// Drops lines from the sets of a domain that does not run.
    CrossesColours,
    /// Ends a domain's script where another has come far in its own.
    SharesPositions,
    /// Leaves the observer's later records to the others' count of records.
    SharesQuota,
}

impl Fault {
    /// Those that hold for one run alone.
    pub const HOLLOW: [Fault; 10] = [
        Fault::PretendsLater,
        Fault::InventsSteps,
        Fault::StopsEarly,
        Fault::OneRecord,
        Fault::RefusesAll,
        Fault::LeavesTables,
        Fault::KeepsL1,
        Fault::MindsFullBoxes,
        Fault::StopsTheClock,
        Fault::StaysInPlace,
    ];
    /// Those by which one domain learns of another.
    pub const LEAKS: [Fault; 4] = [
        Fault::TellsTheTime,
        Fault::CrossesColours,
        Fault::SharesPositions,
        Fault::SharesQuota,
    ];
}

#[derive(Clone, Copy, Debug)]
pub struct Hollow(pub Fault);

/// What a step may change, as it was before it.
pub struct Before {
    pub state: Vec<u64>,
    pub cache: Vec<u16>,
    pub boxes: Vec<u32>,
    pub log: Vec<u8>,
}

impl Before {
    pub fn of(tables: &Tables) -> Self {
        Before {
            state: tables.state.to_vec(),
            cache: tables.cache.to_vec(),
            boxes: tables.boxes.to_vec(),
            log: tables.log.to_vec(),
        }
    }
}

impl Engine for Hollow {
    fn name(&self) -> &'static str {
        "hollow"
    }

    fn read_plan(
        &self,
        text: &[u8],
        scripts: &mut [u32],
        plan: &mut [u32],
        answer: &mut [u64],
    ) -> u32 {
        if self.0 == Fault::RefusesAll {
            plan.fill(0);
            answer.copy_from_slice(&[2, 0, 0, 0]);
            return 2;
        }
        Reference.read_plan(text, scripts, plan, answer)
    }

    fn fresh_start(
        &self,
        plan: &[u32],
        state: &mut [u64],
        cache: &mut [u16],
        boxes: &mut [u32],
        answer: &mut [u64],
    ) -> u32 {
        Reference.fresh_start(plan, state, cache, boxes, answer)
    }

    fn step(&self, tables: Tables, answer: &mut [u64]) -> u32 {
        self.run(tables, 1, answer)
    }

    fn run(&self, mut tables: Tables, limit: u64, answer: &mut [u64]) -> u32 {
        let number = Reference.run(again(&mut tables), 0, answer);
        let mut steps = 0;
        let most = match self.0 {
            Fault::StopsEarly if limit > 3 => limit - 1,
            _ => limit,
        };
        while number == 0 && steps < most && answer[3] == 0 {
            let before = Before::of(&tables);
            if Reference.step(again(&mut tables), answer) != 0 {
                // A fault has made the world impossible; that is difference enough.
                break;
            }
            steps += 1;
            self.spoil(&before, &mut tables);
        }
        if number == 0 {
            answer[2] = match self.0 {
                Fault::InventsSteps => steps + u64::from(steps == 5),
                _ => steps,
            };
        }
        number
    }

    fn run_kept(&self, tables: Tables, kept: Kept, limit: u64, answer: &mut [u64]) -> u32 {
        kept_by_run(self, tables, kept, limit, answer)
    }

    fn log(&self, plan: &[u32], state: &[u64], log: &[u8], domain: u32, answer: &mut [u64]) -> u32 {
        Reference.log(plan, state, log, domain, answer)
    }
}

impl Hollow {
    /// Puts the fault into what one step has left.
    fn spoil(&self, before: &Before, tables: &mut Tables) {
        let switched = tables.state[0] != before.state[0];
        let timeline = Timeline::of(tables.plan).expect("a plan that was taken");
        let owner = timeline.window(before.state[0]).expect("a window").domain;
        let domains = tables.plan[2] as usize;
        let part = 8 * (tables.log.len() / (8 * domains)) * owner;
        let record = part + 8 * before.state[10 + owner] as usize;
        match self.0 {
            Fault::PretendsLater if !switched && before.state[0] > 0 => {
                tables.cache.copy_from_slice(&before.cache);
                tables.boxes.copy_from_slice(&before.boxes);
                tables.log.copy_from_slice(&before.log);
            }
            Fault::OneRecord if !switched => {
                let first: Vec<u8> = tables.log[part..part + 8].to_vec();
                tables.log[record..record + 8].copy_from_slice(&first);
            }
            Fault::LeavesTables => {
                tables.cache.copy_from_slice(&before.cache);
                tables.boxes.copy_from_slice(&before.boxes);
                tables.log.copy_from_slice(&before.log);
            }
            Fault::KeepsL1 if switched => tables.cache[..16].copy_from_slice(&before.cache[..16]),
            Fault::MindsFullBoxes if !switched => {
                let boxes = before.boxes.iter().zip(tables.boxes.iter_mut());
                for (old, new) in boxes.filter(|(old, _)| **old != 0) {
                    if *new != 0 {
                        *new = *old;
                    }
                }
            }
            Fault::StopsTheClock if !switched => tables.state[1] = before.state[1],
            Fault::StaysInPlace if !switched => {
                tables.state[2 + owner] = before.state[2 + owner];
            }
            Fault::TellsTheTime if !switched => {
                let colours = tables.plan[84 + owner];
                let sets = before.cache[16..].chunks(4).enumerate();
                let others = sets.filter(|(set, _)| colours >> (set / 4) & 1 == 0);
                let lines = others.flat_map(|(_, ways)| ways).filter(|way| **way != 0);
                tables.log[record + 4] ^= lines.count() as u8 & 1;
            }
            Fault::CrossesColours if !switched => {
                let colours = tables.plan[84 + owner] | 1 << 15;
                let touched = (before.state[1] / 7 % 64) as usize;
                if colours >> (touched / 4) & 1 == 0 {
                    tables.cache[16 + 4 * touched + 3] = 0;
                }
            }
            Fault::SharesPositions if switched => {
                let far = (0..domains).map(|domain| tables.state[2 + domain]).max();
                let next = (owner + 1) % domains;
                if far.is_some_and(|far| far > 100) {
                    tables.state[2 + next] = 256;
                }
            }
            Fault::SharesQuota if !switched => {
                let all: u64 = (10..18).map(|at| tables.state[at]).sum();
                if all.is_multiple_of(64) {
                    tables.log[record..record + 8].fill(0);
                }
            }
            _ => {}
        }
    }
}

/// A run that keeps one domain's log, as document 02, E8, says what it is: the engine's own run
/// with everyone's log, of which that domain's part is what was lent.
pub fn kept_by_run(
    engine: &dyn Engine,
    mut tables: Tables,
    kept: Kept,
    limit: u64,
    answer: &mut [u64],
) -> u32 {
    let number = Reference.run_kept(again(&mut tables), kept, 0, answer);
    if number != 0 {
        return number;
    }
    let part = tables.log.len();
    let own = part * kept.domain as usize..part * (kept.domain as usize + 1);
    let mut log = vec![0; part * tables.plan[2] as usize];
    log[own.clone()].copy_from_slice(tables.log);
    let whole = Tables {
        log: &mut log,
        ..again(&mut tables)
    };
    let number = engine.run(whole, limit, answer);
    tables.log.copy_from_slice(&log[own]);
    number
}

/// The same tables, lent once more.
pub fn again<'a>(tables: &'a mut Tables) -> Tables<'a> {
    Tables {
        plan: tables.plan,
        scripts: tables.scripts,
        state: tables.state,
        cache: tables.cache,
        boxes: tables.boxes,
        log: tables.log,
    }
}
