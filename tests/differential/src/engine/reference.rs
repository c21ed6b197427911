//! The reference behind the plain interfaces.

use super::{Bounder, Engine, FrameMaker, LatenessFinder, Writer};
use super::{Kept, Tables, ANSWER, PLAN, STATE};
use pirkvezo_reference::flat::{plan_from_flat, plan_to_flat, state_from_flat, state_to_flat};
use pirkvezo_reference::{self as reference, Lent, Outcome, Plan, Progress, Refusal};

#[derive(Clone, Copy, Debug, Default)]
pub struct Reference;

impl Engine for Reference {
    fn name(&self) -> &'static str {
        "reference"
    }

    fn read_plan(
        &self,
        text: &[u8],
        scripts: &mut [u32],
        plan: &mut [u32],
        answer: &mut [u64],
    ) -> u32 {
        let place: Option<&mut [u32; PLAN]> = plan.try_into().ok();
        match place.filter(|_| answer.len() == ANSWER) {
            None => refuse(Refusal::TableLength, answer),
            Some(plan) => {
                let (number, companion, read) = reference::read_plan(text, scripts);
                *plan = plan_to_flat(&read);
                tell([u64::from(number), companion, 0, 0], answer)
            }
        }
    }

    fn fresh_start(
        &self,
        plan: &[u32],
        state: &mut [u64],
        cache: &mut [u16],
        boxes: &mut [u32],
        answer: &mut [u64],
    ) -> u32 {
        let outcome = match (plan.try_into(), state.try_into(), answer.len()) {
            (Ok(plan), Ok(state), ANSWER) => start(plan, state, cache, boxes),
            _ => Err(Refusal::TableLength),
        };
        match outcome {
            Ok(()) => tell([0; ANSWER], answer),
            Err(refusal) => refuse(refusal, answer),
        }
    }

    fn step(&self, tables: Tables, answer: &mut [u64]) -> u32 {
        advance(tables, answer, reference::step)
    }

    fn run(&self, tables: Tables, limit: u64, answer: &mut [u64]) -> u32 {
        advance(tables, answer, |plan, scripts, state, lent| {
            reference::run(plan, scripts, state, lent, limit)
        })
    }

    fn run_kept(&self, tables: Tables, kept: Kept, limit: u64, answer: &mut [u64]) -> u32 {
        advance(tables, answer, |plan, scripts, state, lent| {
            reference::run_kept(plan, scripts, state, lent, native(kept), limit)
        })
    }

    fn log(&self, plan: &[u32], state: &[u64], log: &[u8], domain: u32, answer: &mut [u64]) -> u32 {
        let outcome = match (plan.try_into(), state.try_into(), answer.len()) {
            (Ok(plan), Ok(state), ANSWER) => {
                reference::log_of(&taken(plan), &state_from_flat(state), log, domain)
            }
            _ => Err(Refusal::TableLength),
        };
        match outcome {
            Ok(part) => tell([0, 0, part.place as u64, part.length as u64], answer),
            Err(refusal) => refuse(refusal, answer),
        }
    }
}

impl FrameMaker for Reference {
    fn name(&self) -> &'static str {
        "reference"
    }

    fn frame(&self, count: u32, weights: &[u32], frame: &mut [u32], answer: &mut [u64]) -> u32 {
        let outcome = match answer.len() {
            ANSWER => reference::write_frame(count, weights, frame),
            _ => Err(Refusal::TableLength),
        };
        match outcome {
            Ok(()) => tell([0; ANSWER], answer),
            Err(refusal) => refuse(refusal, answer),
        }
    }
}

impl Bounder for Reference {
    fn name(&self) -> &'static str {
        "reference"
    }

    fn step_bound(&self, plan: &[u32], scripts: &[u32], answer: &mut [u64]) -> u32 {
        let outcome = match (plan.try_into(), answer.len()) {
            (Ok(plan), ANSWER) => reference::step_bound(&taken(plan), scripts),
            _ => Err(Refusal::TableLength),
        };
        match outcome {
            Ok(bound) => tell([0, 0, bound.steps(), 0], answer),
            Err(refusal) => refuse(refusal, answer),
        }
    }
}

impl Writer for Reference {
    fn name(&self) -> &'static str {
        "reference"
    }

    fn write_plan(&self, plan: &[u32], scripts: &[u32], out: &mut [u8], answer: &mut [u64]) -> u32 {
        let outcome = match (plan.try_into(), answer.len()) {
            (Ok(plan), ANSWER) => reference::write_plan(&taken(plan), scripts, out),
            _ => Err(Refusal::TableLength),
        };
        match outcome {
            Ok(written) => tell([0, 0, written as u64, 0], answer),
            Err(refusal) => refuse(refusal, answer),
        }
    }
}

impl LatenessFinder for Reference {
    fn name(&self) -> &'static str {
        "reference"
    }

    fn latest(&self, plan: &[u32], domain: u32, script: &mut [u32], answer: &mut [u64]) -> u32 {
        let outcome = match (plan.try_into(), answer.len()) {
            (Ok(plan), ANSWER) => reference::write_latest(&taken(plan), domain, script),
            _ => Err(Refusal::TableLength),
        };
        match outcome {
            Ok(ticks) => tell([0, 0, ticks, 0], answer),
            Err(refusal) => refuse(refusal, answer),
        }
    }
}

fn start(
    plan: &[u32; PLAN],
    place: &mut [u64; STATE],
    cache: &mut [u16],
    boxes: &mut [u32],
) -> Result<(), Refusal> {
    let mut state = state_from_flat(place);
    reference::fresh_start(&taken(plan), &mut state, cache, boxes)?;
    *place = state_to_flat(&state);
    Ok(())
}

pub(super) fn advance(
    tables: Tables,
    answer: &mut [u64],
    go: impl FnOnce(&Plan, &[u32], &mut reference::State, Lent) -> Result<Progress, Refusal>,
) -> u32 {
    let place: Result<&mut [u64; STATE], _> = tables.state.try_into();
    let (Ok(plan), Ok(place), ANSWER) = (tables.plan.try_into(), place, answer.len()) else {
        return refuse(Refusal::TableLength, answer);
    };
    let mut state = state_from_flat(place);
    let lent = Lent {
        cache: tables.cache,
        boxes: tables.boxes,
        log: tables.log,
    };
    match go(&taken(plan), tables.scripts, &mut state, lent) {
        Ok(Progress { steps, outcome }) => {
            *place = state_to_flat(&state);
            tell([0, 0, steps, u64::from(outcome == Outcome::Ended)], answer)
        }
        Err(refusal) => refuse(refusal, answer),
    }
}

pub(super) fn native(Kept { domain, part }: Kept) -> reference::Kept {
    reference::Kept { domain, part }
}

/// The plan in these numbers. Where they have no such form, the empty plan, which
/// is refused as they are.
fn taken(plan: &[u32; PLAN]) -> Plan {
    plan_from_flat(plan).unwrap_or_default()
}

fn refuse(refusal: Refusal, answer: &mut [u64]) -> u32 {
    let number = u64::from(refusal.number());
    tell([number, refusal.companion(), 0, 0], answer)
}

/// Writes an answer if it has room for it; gives the refusal's number.
fn tell(told: [u64; ANSWER], answer: &mut [u64]) -> u32 {
    if answer.len() == ANSWER {
        answer.copy_from_slice(&told);
    }
    told[0] as u32
}
