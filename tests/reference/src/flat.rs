//! Plans and states as rows of plain numbers, for callers that know nothing of
//! this library's types.
//!
//! A plan is 92 numbers: pad, run, the count of domains, the count of windows;
//! 8 shares; 8 masks of recipients, bit b for domain b; the domains of 32
//! windows; the lengths of 32 windows; 8 masks of colours. A state is 18
//! numbers: windows completed, clock, 8 script positions, 8 record counts.
//! Places without use hold 0.

use crate::colours::Colours;
use crate::limits::{DOMAINS, WINDOWS};
use crate::plan::{Domain, Plan, Recipients, Window};
use crate::state::{Counts, State};

/// How many numbers a flat plan has.
pub const PLAN: usize = 4 + 3 * DOMAINS + 2 * WINDOWS;
/// How many numbers a flat state has.
pub const STATE: usize = 2 + 2 * DOMAINS;

const SHARES: usize = 4;
const MAYS: usize = SHARES + DOMAINS;
const OWNERS: usize = MAYS + DOMAINS;
const LENGTHS: usize = OWNERS + WINDOWS;
const COLOURS: usize = LENGTHS + WINDOWS;

/// The flat form of a plan with at most 8 domains and 32 windows.
pub fn plan_to_flat(plan: &Plan) -> [u32; PLAN] {
    let mut flat = [0; PLAN];
    flat[..SHARES].copy_from_slice(&[
        plan.pad,
        plan.run,
        plan.domains.len() as u32,
        plan.windows.len() as u32,
    ]);
    for (number, domain) in plan.domains.iter().enumerate() {
        flat[SHARES + number] = domain.share;
        flat[MAYS + number] = domain.may.0;
        flat[COLOURS + number] = domain.colours.0;
    }
    for (place, window) in plan.windows.iter().enumerate() {
        flat[OWNERS + place] = window.domain;
        flat[LENGTHS + place] = window.length;
    }
    flat
}

/// The plan in these numbers, possible or not. None where they have no such
/// form: a count over its places, or something in a place without use. The
/// reader gives no such numbers either.
pub fn plan_from_flat(flat: &[u32; PLAN]) -> Option<Plan> {
    let [pad, run, domains, windows] = *flat.first_chunk()?;
    let (domains, windows) = (domains as usize, windows as usize);
    if domains > DOMAINS || windows > WINDOWS {
        return None;
    }
    let unused = [
        &flat[SHARES + domains..MAYS],
        &flat[MAYS + domains..OWNERS],
        &flat[OWNERS + windows..LENGTHS],
        &flat[LENGTHS + windows..COLOURS],
        &flat[COLOURS + domains..],
    ];
    if unused.into_iter().flatten().any(|number| *number != 0) {
        return None;
    }
    Some(Plan {
        pad,
        run,
        domains: (0..domains)
            .map(|number| Domain {
                share: flat[SHARES + number],
                may: Recipients(flat[MAYS + number]),
                colours: Colours(flat[COLOURS + number]),
            })
            .collect(),
        windows: (0..windows)
            .map(|place| Window {
                domain: flat[OWNERS + place],
                length: flat[LENGTHS + place],
            })
            .collect(),
    })
}

/// The flat form of a state.
pub fn state_to_flat(state: &State) -> [u64; STATE] {
    let mut flat = [0; STATE];
    let (small, counts) = flat.split_at_mut(2);
    small.copy_from_slice(&[state.completed, state.clock]);
    let (positions, records) = counts.split_at_mut(DOMAINS);
    for ((counts, position), record) in state.counts.iter().zip(positions).zip(records) {
        *position = counts.position;
        *record = counts.records;
    }
    flat
}

/// The state in these numbers, possible or not.
pub fn state_from_flat(flat: &[u64; STATE]) -> State {
    let mut counts = [Counts::default(); DOMAINS];
    for (domain, counts) in counts.iter_mut().enumerate() {
        counts.position = flat[2 + domain];
        counts.records = flat[2 + DOMAINS + domain];
    }
    State {
        completed: flat[0],
        clock: flat[1],
        counts,
    }
}
