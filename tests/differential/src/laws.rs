//! What document 01 says of every call, whatever the engine: refused calls
//! change nothing, the answer fits the state, and only the log bytes of new
//! records are written. What document 02, E2, says of every plan: its shares give
//! its colours, and none is let twice. What its E7 leaves to a domain: lines that others
//! put out go back to sets of their own colours. What its E8 says of a part: its length is
//! that of its records, and those of other domains are not written to it. What its E9 says
//! of a window's start: line 60 is in both caches, and after the run's end in neither. These
//! hold for one engine alone, so they bind also where there is no second one.

use crate::engine::{Kept, ANSWER, BOXES, CACHE, PLAN, SCRIPTS, STATE};
use crate::timeline::Timeline;
use crate::world::{Call, World};

/// Judges one call by the worlds before and after it.
pub fn judge(call: &Call, before: &World, after: &World, number: u32) -> Result<(), String> {
    let say = |what: &str| Err(what.to_string());
    if !after.is_intact() {
        return say("something was written past what was lent");
    }
    if before.answer.len() != ANSWER {
        if number != 11 || after != before {
            return say("an answer of another length is 11 and nothing is written");
        }
        return Ok(());
    }
    if after.answer[0] != u64::from(number) {
        return say("the answer holds another number than was returned");
    }
    let wrong_length = has_wrong_length(call, before);
    if wrong_length != (number == 11) {
        return say("11 is for wrong lengths, and for them alone");
    }
    let mut expected = before.clone();
    expected.answer = after.answer.clone();
    if number != 0 {
        if matches!(call, Call::Read(_)) && before.plan.len() == PLAN {
            expected.plan.fill(0);
        }
        if *after != expected {
            return say("a refused call changed something");
        }
        if after.answer[2..] != [0, 0] {
            return say("a refused call answers 0, 0 behind its companion");
        }
        let companion = after.answer[1];
        return match number {
            4 => judge_undeclared(call, before, companion),
            16 if !matches!(call, Call::Read(_)) => say("16 is for readings alone"),
            16 if !(16..=19).contains(&companion) => say("16 has a total of 16 to 19 colours"),
            11..=15 | 17.. if companion != 0 => say("11 to 14 have the companion 0"),
            _ => Ok(()),
        };
    }
    if after.answer[1] != 0 {
        return say("acceptance is 0, 0");
    }
    judge_colours(after)?;
    match call {
        Call::Read(_) => {
            expected.plan = after.plan.clone();
            expected.scripts = after.scripts.clone();
        }
        Call::FreshStart => {
            expected.state.fill(0);
            expected.cache.fill(0);
            expected.boxes.fill(0);
        }
        Call::Log(domain) => return judge_log(*domain, before, after, expected),
        Call::Step => return judge_steps(Parts::of(before), 1, before, after, expected),
        Call::Run(limit) => {
            return judge_steps(Parts::of(before), *limit, before, after, expected);
        }
        Call::RunKept(kept, limit) => {
            if kept.domain as usize >= declared(before)? {
                return say("an undeclared domain's log was kept");
            }
            return judge_steps(Parts::kept(*kept), *limit, before, after, expected);
        }
    }
    if after.answer[2..] != [0, 0] {
        return say("readings and fresh starts answer 0, 0, 0, 0");
    }
    match *after == expected {
        true => Ok(()),
        false => say("a row was changed that the call does not write"),
    }
}

fn has_wrong_length(call: &Call, world: &World) -> bool {
    let plan = world.plan.len() != PLAN;
    let state = world.state.len() != STATE;
    let scripts = world.scripts.len() != SCRIPTS;
    let tables = world.cache.len() != CACHE || world.boxes.len() != BOXES;
    match call {
        Call::Read(_) => plan || scripts,
        Call::FreshStart => plan || state || tables,
        Call::Step | Call::Run(_) => plan || state || scripts || tables,
        Call::RunKept(kept, _) => plan || state || scripts || tables || !is_part(world, *kept),
        Call::Log(_) => plan || state,
    }
}

/// Whether a world's log is as long as so many records are.
fn is_part(world: &World, kept: Kept) -> bool {
    world.log.len() as u128 == 8 * u128::from(kept.part)
}

/// Judges 4 where it is not a reading's: the domain that was named is not declared.
fn judge_undeclared(call: &Call, before: &World, companion: u64) -> Result<(), String> {
    let named = match call {
        Call::RunKept(kept, _) => kept.domain,
        Call::Log(domain) => *domain,
        Call::Read(_) => return Ok(()),
        _ => return Err("4 is for calls that name a domain".into()),
    };
    match companion == 0 && named as usize >= declared(before)? {
        true => Ok(()),
        false => Err("4 has the companion 0 and is for undeclared domains".into()),
    }
}

/// The parts of a log that a run may write to.
#[derive(Clone, Copy)]
struct Parts {
    /// How many records each holds.
    room: u64,
    /// The one domain whose part was lent; none where everyone's was.
    kept: Option<usize>,
}

impl Parts {
    /// Those of everyone's log.
    fn of(world: &World) -> Self {
        Parts {
            room: room(world) as u64,
            kept: None,
        }
    }

    fn kept(kept: Kept) -> Self {
        Parts {
            room: kept.part,
            kept: Some(kept.domain as usize),
        }
    }

    /// Where a domain's part begins; none where it was not lent.
    fn place(self, domain: usize) -> Option<usize> {
        match self.kept {
            None => Some(8 * self.room as usize * domain),
            Some(kept) => (kept == domain).then_some(0),
        }
    }
}

/// How many domains a plan that was taken declares.
fn declared(world: &World) -> Result<usize, String> {
    match world.plan[2] as usize {
        count @ 1..=8 => Ok(count),
        _ => Err("a plan without domains was taken".into()),
    }
}

/// How many records each part holds.
fn room(world: &World) -> usize {
    world.log.len() / (8 * world.plan[2] as usize)
}

/// Judges the colours in a plan that was given or taken: to each domain the number
/// nearest to its share, an exact half going up, in one piece behind those of the
/// domain before it, and none past the fifteenth.
fn judge_colours(world: &World) -> Result<(), String> {
    let mut taken = 0;
    for domain in 0..declared(world)? {
        let (share, mask) = (world.plan[4 + domain], world.plan[84 + domain]);
        let held = mask.count_ones();
        // In thousandths of a colour.
        let gained = 1_000 * i64::from(held) - 15 * i64::from(share);
        if held == 0 || !(-499..=500).contains(&gained) {
            return Err("a domain has not the number of colours nearest to its share".into());
        }
        if taken + held > 15 {
            return Err("more colours were let than there are".into());
        }
        if mask >> taken != (1 << held) - 1 {
            return Err("colours were not let one behind the other".into());
        }
        taken += held;
    }
    Ok(())
}

fn judge_log(domain: u32, before: &World, after: &World, expected: World) -> Result<(), String> {
    let domain = domain as usize;
    if domain >= declared(before)? {
        return Err("an undeclared domain's log was handed back".into());
    }
    let place = 8 * room(before) * domain;
    let length = 8 * before.state[10 + domain];
    if after.answer[2..] != [place as u64, length] {
        return Err("another part of the log was handed back".into());
    }
    match *after == expected {
        true => Ok(()),
        false => Err("an asking changed something".into()),
    }
}

fn judge_steps(
    parts: Parts,
    limit: u64,
    before: &World,
    after: &World,
    mut expected: World,
) -> Result<(), String> {
    let timeline = Timeline::of(&before.plan).ok_or("a plan without windows was taken")?;
    let (steps, ended) = (after.answer[2], after.answer[3]);
    let over = after.state[0] == timeline.count();
    if ended != u64::from(over) {
        return Err("ended is said after the last switch, and then alone".into());
    }
    if steps > limit || (!over && steps != limit) {
        return Err("a run stops at its limit or at the end".into());
    }
    let mut numbers = before.state.iter().zip(after.state.iter());
    if numbers.any(|(old, new)| new < old) {
        return Err("a number of the state became smaller".into());
    }
    let windows = after.state[0] - before.state[0];
    let ops: u64 = (2..10).map(|at| after.state[at] - before.state[at]).sum();
    let records: u64 = (10..18).map(|at| after.state[at] - before.state[at]).sum();
    if steps != windows + ops || ops != records {
        return Err("each step is one switch, or one op and its record".into());
    }
    match timeline.window(after.state[0]) {
        None if after.state[1] != timeline.ticks() => {
            return Err("the run took another number of ticks than the plan gives".into());
        }
        Some(span) if !(span.start..=span.end + 212).contains(&after.state[1]) => {
            return Err("the clock left its window".into());
        }
        _ => {}
    }
    for domain in 0..declared(before)? {
        if after.state[10 + domain] > parts.room {
            return Err("there are more records than a part holds".into());
        }
        let Some(part) = parts.place(domain) else {
            continue;
        };
        let new = part + 8 * before.state[10 + domain] as usize
            ..part + 8 * after.state[10 + domain] as usize;
        expected.log[new.clone()].copy_from_slice(&after.log[new]);
    }
    judge_sets(&timeline, before, after)?;
    if windows > 0 {
        judge_start(&timeline, steps, after)?;
    }
    expected.state = after.state.clone();
    if steps > 0 {
        expected.cache = after.cache.clone();
        expected.boxes = after.boxes.clone();
    }
    match *after == expected {
        true => Ok(()),
        false => Err("a step wrote where it may not".into()),
    }
}

/// Judges what L1 and the kernel's sets hold where a switch was the last step. It was where
/// the run has ended, where it was the only one, and where the clock stands at a window's
/// start, since every op takes a tick.
fn judge_start(timeline: &Timeline, steps: u64, after: &World) -> Result<(), String> {
    let mut due = [0; 32];
    if let Some(span) = timeline.window(after.state[0]) {
        match (after.state[1] == span.start, steps) {
            (false, 1) => return Err("a window starts at another tick than the plan says".into()),
            (false, _) => return Ok(()),
            // Line 60 is clean, at L1 index 12, and alone in the first of the kernel's sets.
            (true, _) => [due[12], due[16]] = [61, 61],
        }
    }
    let held = after.cache[..16].iter().chain(&after.cache[16 + 4 * 60..]);
    match held.eq(&due) {
        true => Ok(()),
        false => Err("L1 and the kernel's sets hold line 60 at a window's start alone".into()),
    }
}

/// Judges that no L2 set has changed but those of the kernel and of the domains whose
/// windows there were.
fn judge_sets(timeline: &Timeline, before: &World, after: &World) -> Result<(), String> {
    // A pass has 32 windows at most, so those behind are of domains that had one.
    let windows = before.state[0]..=after.state[0].min(before.state[0] + 32);
    let spans = windows.filter_map(|completed| timeline.window(completed));
    let colours = spans.fold(1 << 15, |colours, span| {
        colours | before.plan[84 + span.domain]
    });
    let sets = before.cache[16..]
        .chunks(4)
        .zip(after.cache[16..].chunks(4));
    let mut changed = sets.enumerate().filter(|(_, (old, new))| old != new);
    match changed.all(|(set, _)| colours >> (set / 4) & 1 == 1) {
        true => Ok(()),
        false => Err("a set changed of a domain that did not run".into()),
    }
}
