//! The latest a domain can finish: document 02, E6, with the touch of its E9.

use crate::limits::{self, OPS};
use crate::machine::{fresh_start, run_watched, Lent, Manner};
use crate::op::Op;
use crate::plan::Plan;
use crate::refusal::Refusal;
use crate::search::{found_for, Start};
use crate::state::State;
use crate::tenant::Tenant;
use crate::{cache, mail};

/// What a plan and a domain are answered.
#[derive(Clone, Debug, PartialEq, Eq)]
pub struct Latest {
    /// The most ticks from the end of one of the domain's windows until the switch
    /// has made its touch.
    pub ticks: u64,
    /// One of the scripts that take so many in the domain's first window, where its
    /// part of the log has room for all of them.
    pub script: [u32; OPS],
}

/// Gives the ticks, and writes the script to a buffer: 11 first, then 12, then 18,
/// and a refused call writes nothing.
pub fn write_latest(plan: &Plan, domain: u32, script: &mut [u32]) -> Result<u64, Refusal> {
    let script: &mut [u32; OPS] = script.try_into().map_err(|_| Refusal::TableLength)?;
    let latest = latest(plan, domain)?;
    *script = latest.script;
    Ok(latest.ticks)
}

/// The latest end of a domain's windows over all of its scripts: 12 first, then 18.
pub fn latest(plan: &Plan, domain: u32) -> Result<Latest, Refusal> {
    plan.schedule()?;
    let length = first_length(plan, domain).ok_or(Refusal::Latest { domain })?;
    let tenant = Tenant::of(plan, domain as usize);
    let start = first_start(plan, domain);
    let found = found_for(&tenant, start);
    // A domain that has the run's first window can have others, all of which start
    // behind a switch. A denied message makes the one start of the other, so none of
    // them is later.
    let later = found_for(&tenant, Start::Touched);
    assert!(later.ticks <= found.ticks, "a later window ends later");
    let ops = tenant.ops(&found.moves);
    let (last, before) = ops.split_last().expect("some op is late");
    Ok(Latest {
        ticks: found.ticks,
        script: stored(&timed(&tenant, start, before, *last, u64::from(length))),
    })
}

/// How the first of a domain's windows starts.
fn first_start(plan: &Plan, domain: u32) -> Start {
    match plan.windows.first() {
        Some(window) if window.domain == domain => Start::Bare,
        _ => Start::Touched,
    }
}

/// The length of a domain's first window; none where the domain is undeclared, has
/// no window, or has one that is too short or too long.
fn first_length(plan: &Plan, domain: u32) -> Option<u32> {
    let own = plan.windows.iter().filter(|window| window.domain == domain);
    let mut lengths = own.map(|window| window.length);
    let first = lengths.clone().next()?;
    lengths
        .all(|length| limits::LATEST.contains(&length))
        .then_some(first)
}

/// These ops with as much computing before the last one that it begins in the last
/// tick of a domain's first window, which has this start.
pub(crate) fn timed(
    tenant: &Tenant,
    start: Start,
    before: &[Op],
    last: Op,
    length: u64,
) -> Vec<Op> {
    let mut caches = start.caches();
    let ops = before.iter();
    let busy: u64 = ops.map(|op| tenant.play(&mut caches, *op).ticks).sum();
    let most = *limits::COMPUTE.end() as u16;
    let idle = length - 1 - busy;
    let (whole, rest) = (idle / u64::from(most), idle % u64::from(most));
    let mut script = before.to_vec();
    script.extend(vec![Op::Compute(most); whole as usize]);
    script.extend((rest > 0).then_some(Op::Compute(rest as u16)));
    script.push(last);
    script
}

/// A script of these ops, of which there are at most as many as it can hold.
pub(crate) fn stored(ops: &[Op]) -> [u32; OPS] {
    let mut script = [0; OPS];
    for (number, op) in script[..ops.len()].iter_mut().zip(ops) {
        *number = op.stored();
    }
    script
}

/// A window that a run has completed.
#[derive(Clone, Copy, Debug, PartialEq, Eq)]
pub struct Finished {
    /// Whose window it was.
    pub domain: usize,
    /// The ticks from its end until the switch had made its touch.
    pub late: u64,
}

/// The windows of a whole run from a fresh start, with a log of so many bytes, as
/// the machine itself went through them.
pub fn finished_windows(
    plan: &Plan,
    scripts: &[u32],
    log: usize,
) -> Result<Vec<Finished>, Refusal> {
    let mut state = State::default();
    let (mut cache, mut boxes) = ([0; cache::TABLE], [0; mail::BOXES]);
    fresh_start(plan, &mut state, &mut cache, &mut boxes)?;
    let lent = Lent {
        cache: &mut cache,
        boxes: &mut boxes,
        log: &mut vec![0; log],
    };
    let mut windows = Vec::new();
    run_watched(
        Manner::USUAL,
        plan,
        scripts,
        &mut state,
        lent,
        u64::MAX,
        |turn, touched| {
            windows.push(Finished {
                domain: turn.domain,
                late: touched - turn.end,
            });
        },
    )?;
    Ok(windows)
}
