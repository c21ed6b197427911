//! Calls of a lateness finder: document 02, E6, with the touch of its E9.

use super::bounds::spoil_plan;
use super::length_near;
use super::sketch::{Member, Sketch};
use crate::engine::{ANSWER, PLAN, SCRIPT};
use crate::latest::call::LatestCall;
use crate::rng::Rng;
use std::collections::BTreeSet;

/// A call that is not refused, and the ticks that it must be told, as they are worked
/// out from colours and rights.
#[derive(Clone, Debug)]
pub struct KnownLatest {
    pub sketch: Sketch,
    pub call: LatestCall,
    pub ticks: u64,
}

impl KnownLatest {
    pub fn random(rng: &mut Rng) -> Self {
        let mut sketch = random_sketch(rng);
        for window in &mut sketch.windows {
            window.1 = told_length(rng);
        }
        let (domain, _) = rng.pick(&sketch.windows);
        // What others have for windows does not count.
        for window in &mut sketch.windows {
            if window.0 != domain && rng.one_in(4) {
                window.1 = other_length(rng);
            }
        }
        sketch.fit_ticks();
        let mut call = LatestCall::new(&sketch.flat(), domain);
        fill(rng, &mut call);
        KnownLatest {
            ticks: known_ticks(&sketch, domain as usize),
            sketch,
            call,
        }
    }
}

/// What a domain must be told. Each of its lines in L1 can be dirty at the end.
///
/// Where it has a right, and the run's first window as well, its last op is its first
/// message, which leaves the kernel entry line and a box in L2 and the box dirty in L1.
/// Both are dearer by 4 ticks, and each takes a dirty line's place, if the domain has a
/// colour whose L1 indexes are the kernel's. Any other window starts with the kernel entry
/// line in L2, so that a message is cheap: then messages through up to four boxes come
/// before the writes, of which the last box is dirty unless a write takes its place, and
/// the last op is a compute. It is a compute without a right too, behind a denied message.
pub fn known_ticks(sketch: &Sketch, domain: usize) -> u64 {
    let quarters: BTreeSet<u32> = sketch.colours(domain).map(|colour| colour % 4).collect();
    let own = 4 * quarters.len() as u64;
    let meets = quarters.contains(&3);
    let boxes = boxes_of(sketch, domain);
    let leads = sketch.windows[0].0 as usize == domain;
    let (past, valid, dirty) = match (boxes, leads, meets) {
        (0, ..) => (200 - 1, 1, own),
        (_, true, false) => (205 - 1, 2, own + 1),
        (_, true, true) => (213 - 1, 2, own - 1),
        (_, false, false) => (200 - 1, 1 + boxes.min(4), own + 1),
        (_, false, true) => (200 - 1, 1 + boxes.min(4), own),
    };
    past + (8 + valid) + (8 + 2 * dirty) + 100
}

/// How many boxes a domain may send to or receive from.
fn boxes_of(sketch: &Sketch, domain: usize) -> u64 {
    let sent = sketch.members[domain].may.len();
    let to = |member: &&Member| member.may.contains(&(domain as u32));
    (sent + sketch.members.iter().filter(to).count()) as u64
}

/// A call with anything in its rows: a domain that is not told of, another plan, other
/// lengths, mostly one of them.
pub fn random_latest_call(rng: &mut Rng) -> LatestCall {
    let mut call = KnownLatest::random(rng).call;
    let [domain, windows, plan, lengths] = match rng.below(8) {
        0 => [true, false, false, false],
        1 | 2 => [false, true, false, false],
        3 => [false, false, true, false],
        4 => [false, false, false, true],
        5 => [(); 4].map(|()| rng.one_in(2)),
        _ => [false; 4],
    };
    if domain {
        call.domain = other_domain(rng, call.domain);
    }
    if windows {
        spoil_window(rng, &mut call);
    }
    if plan {
        spoil_plan(rng, &mut call.plan);
    }
    if lengths {
        disturb_lengths(rng, &mut call);
    }
    call
}

/// Gives one window, mostly one of the domain's, a length near the limits or any.
pub fn spoil_window(rng: &mut Rng, call: &mut LatestCall) {
    let windows = call.plan[3] as usize;
    let places = 0..windows;
    let own = places.filter(|place| call.plan[20 + place] == call.domain);
    let own: Vec<usize> = own.collect();
    let place = match own.is_empty() || rng.one_in(8) {
        true => rng.place(windows),
        false => rng.pick(&own),
    };
    // One pass of the longest windows is never too long.
    call.plan[1] = 1;
    call.plan[52 + place] = match rng.one_in(3) {
        true => told_length(rng),
        false => other_length(rng),
    };
}

/// Another domain, declared or not, or a number that is none.
pub fn other_domain(rng: &mut Rng, domain: u32) -> u32 {
    let above = rng.pick(&[8, 256, 65_536, 0x8000_0000]);
    let any = rng.any() as u32;
    match rng.below(4) {
        0 => rng.pick(&[8, 9, u32::MAX, any]),
        1 => domain + above,
        _ => rng.within(0..=7),
    }
}

/// Gives some of a call's rows another length, now and then none.
pub fn disturb_lengths(rng: &mut Rng, call: &mut LatestCall) {
    let lengths = [PLAN, SCRIPT, ANSWER].map(|right| length_near(rng, right));
    set_lengths(rng, call, lengths);
}

/// Gives a call's plan, script and answer these lengths.
pub fn set_lengths(rng: &mut Rng, call: &mut LatestCall, lengths: [usize; 3]) {
    call.plan.set_length(lengths[0]);
    call.script.set_length(lengths[1]);
    call.answer.set_length(lengths[2]);
    fill(rng, call);
}

/// What script and answer held before must be kept or must not matter. Half of the
/// time the script holds numbers that stand for ops.
pub fn fill(rng: &mut Rng, call: &mut LatestCall) {
    let junk = rng.pick(&[u32::MAX, 0x10_0fff]);
    let held = call.script.iter_mut();
    held.for_each(|number| *number = rng.any() as u32 & junk | 0x10_0000);
    call.answer.iter_mut().for_each(|n| *n = rng.any());
}

/// A plan that the reader accepts, with no rights, with one, with all, or with any.
fn random_sketch(rng: &mut Rng) -> Sketch {
    let mut sketch = Sketch::random(rng);
    match rng.below(6) {
        0 => clear_rights(&mut sketch),
        1 | 2 => leave_one_right(rng, &mut sketch),
        3 => {
            let all = 0..sketch.members.len() as u32;
            for (own, member) in sketch.members.iter_mut().enumerate() {
                member.may = all.clone().filter(|to| *to != own as u32).collect();
            }
        }
        _ => {}
    }
    sketch
}

fn clear_rights(sketch: &mut Sketch) {
    let members = sketch.members.iter_mut();
    members.for_each(|member| member.may.clear());
}

/// Leaves one right in all, often from the last domain or to it, and gives one of the
/// two the first window. A plan of one domain has none.
fn leave_one_right(rng: &mut Rng, sketch: &mut Sketch) {
    clear_rights(sketch);
    let count = sketch.members.len();
    let mut pair = [rng.place(count), rng.place(count)];
    if rng.one_in(2) {
        pair[0] = count - 1;
    }
    rng.shuffle(&mut pair);
    let [from, to] = pair;
    if from != to {
        sketch.members[from].may.push(to as u32);
    }
    sketch.windows[0].0 = rng.pick(&pair) as u32;
}

/// A length of which a latest end is told, often the least or the greatest.
pub fn told_length(rng: &mut Rng) -> u32 {
    match rng.below(4) {
        0 => rng.pick(&[4_000, 4_001, 19_999, 20_000]),
        1 => rng.within(4_000..=4_400),
        _ => rng.within(4_000..=20_000),
    }
}

/// A length of which none is told, mostly one tick off.
fn other_length(rng: &mut Rng) -> u32 {
    let (short, long) = (rng.within(1..=3_999), rng.within(20_001..=1_000_000));
    rng.pick(&[3_999, 3_999, 20_001, 20_001, short, long])
}

#[cfg(test)]
mod tests {
    use super::*;
    use std::collections::BTreeMap;

    /// Every figure that there is comes up, apart for domains that have the run's first
    /// window and for others: four numbers of L1 indexes without a right, and with one
    /// both with the kernel's indexes and without them, for others with one to four boxes.
    #[test]
    fn all_figures() {
        let mut met = BTreeMap::<(bool, u64), u32>::new();
        for seed in 0..12_000 {
            let known = KnownLatest::random(&mut Rng::new(seed));
            let leads = known.sketch.windows[0].0 == known.call.domain;
            *met.entry((leads, known.ticks)).or_default() += 1;
        }
        let without = [324, 332, 340, 348];
        let with = [332, 340, 348, 336, 344, 352, 360];
        let first = without.into_iter().chain(with).map(|ticks| (true, ticks));
        let met_by = [324, 332, 340, 348].into_iter();
        let apart = [326, 334, 342].into_iter();
        let behind = met_by
            .chain(apart)
            .flat_map(|ticks| (1..=4).map(move |boxes| ticks + boxes));
        let others = without
            .into_iter()
            .chain(behind)
            .map(|ticks| (false, ticks));
        let all: BTreeSet<(bool, u64)> = first.chain(others).collect();
        assert!(met.keys().eq(&all), "{met:?}");
    }

    /// A domain has few boxes and many, up to more than their L2 set holds, both where it
    /// has the run's first window and where not.
    #[test]
    fn all_numbers_of_boxes() {
        let mut met = BTreeMap::<(bool, u64), u32>::new();
        for seed in 0..4_000 {
            let KnownLatest { sketch, call, .. } = KnownLatest::random(&mut Rng::new(seed));
            let leads = sketch.windows[0].0 == call.domain;
            let boxes = boxes_of(&sketch, call.domain as usize).min(6);
            *met.entry((leads, boxes)).or_default() += 1;
        }
        assert_eq!(met.len(), 14, "{met:?}");
        assert!(met.values().all(|count| *count > 40), "{met:?}");
    }
}
