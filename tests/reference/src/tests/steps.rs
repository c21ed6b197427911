//! What the bound promises, tried on the machine: document 02, E3.

use super::desk::{Desk, WORKED};
use crate::machine::Outcome;
use crate::op::Op;
use crate::{step_bound, Refusal};

/// Domain and length of each window.
type Windows = &'static [(usize, u32)];

const WINDOWS: [Windows; 6] = [
    &[(0, 1)],
    &[(0, 1), (1, 1), (2, 1)],
    &[(0, 5), (0, 3), (1, 400)],
    &[(2, 1_000), (0, 213), (1, 214), (2, 1)],
    &[(1, 60_000)],
    &[(0, 60_000), (1, 60_000), (2, 60_000)],
];

/// Bytes of logs: none, too few for a record each, just enough, some, many.
const LOGS: [usize; 9] = [0, 1, 23, 24, 25, 48, 240, 6_144, 16_384];

const LENGTHS: [usize; 6] = [0, 1, 2, 17, 255, 256];

/// Ops that a script repeats.
const HABITS: [&[Op]; 4] = [
    &[Op::Compute(1)],
    &[Op::Compute(200), Op::Compute(3)],
    &[Op::Write(0), Op::Read(64), Op::Read(5_000), Op::Write(32)],
    &[
        Op::Send { to: 1, word: 4 },
        Op::Receive { from: 0 },
        Op::Send { to: 7, word: 4 },
    ],
];

fn desk(run: u32, windows: Windows) -> Desk {
    let mut text = format!("(pad 376)\n(run {run})\n(domain 0(share 300)(may 1 2))\n");
    text += "(domain 1(share 300)(may))\n(domain 2(share 300)(may 0))\n";
    for (domain, length) in windows {
        text += &format!("(window {domain}(length {length}))\n");
    }
    Desk::of(&text)
}

/// Gives every domain a script of this length, undeclared ones too, each with
/// another habit than the one before it.
fn fill(desk: &mut Desk, length: usize, first: usize) {
    for domain in 0..8 {
        let habit = HABITS[(first + domain) % HABITS.len()];
        let ops: Vec<Op> = habit.iter().copied().cycle().take(length).collect();
        desk.put_ops(domain, &ops);
    }
}

/// Fresh starts of all these together.
fn desks() -> impl Iterator<Item = Desk> {
    let plans = WINDOWS.iter().flat_map(|windows| {
        let runs = [1, 2, 7].into_iter();
        runs.map(|run| desk(run, windows))
    });
    plans.flat_map(|plan| {
        LENGTHS
            .into_iter()
            .enumerate()
            .flat_map(move |(at, length)| {
                let mut desk = plan.clone();
                fill(&mut desk, length, at);
                LOGS.into_iter().map(move |bytes| {
                    desk.log = vec![0xa5; bytes];
                    desk.clone()
                })
            })
    })
}

fn bound(desk: &Desk) -> u64 {
    step_bound(&desk.plan, &desk.scripts)
        .expect("a bound")
        .steps()
}

/// The steps that a run does, and whether it ended.
fn run(desk: &mut Desk, limit: u64) -> (u64, bool) {
    let progress = desk.run(limit).expect("a possible desk");
    (progress.steps, progress.outcome == Outcome::Ended)
}

#[test]
fn a_run_ends_within_its_bound() {
    for desk in desks() {
        let bound = bound(&desk);
        let (steps, ended) = run(&mut desk.clone(), bound);
        assert!(
            ended && steps <= bound,
            "{steps} of {bound}: {:?}",
            desk.plan
        );
        assert_eq!(run(&mut desk.clone(), u64::MAX), (steps, true));
        assert_eq!(run(&mut desk.clone(), steps - 1), (steps - 1, false));
    }
}

/// Where nothing cuts a script short, and only declared domains have one, the
/// bound is the run.
#[test]
fn a_run_of_exactly_its_bound() {
    for length in LENGTHS {
        for run_count in [1, 3] {
            let mut desk = desk(run_count, WINDOWS[5]);
            fill(&mut desk, length, 0);
            desk.scripts[3 * 256..].fill(0);
            let bound = bound(&desk);
            assert_eq!(bound, 3 * (length as u64 + u64::from(run_count)));
            assert_eq!(run(&mut desk.clone(), bound - 1), (bound - 1, false));
            assert_eq!(run(&mut desk.clone(), bound), (bound, true));
            assert_eq!(run(&mut desk.clone(), bound + 1), (bound, true));
        }
    }
}

/// Eight domains, four windows of a tick each, a thousand times: each window has
/// time for one op at least, so every script runs out.
#[test]
fn the_largest_bound_is_reached() {
    let mut text = String::from("(pad 376)\n(run 1000)\n");
    for domain in 0..8 {
        text += &format!("(domain {domain}(share 99)(may))\n");
        text += &format!("(window {domain}(length 1))\n").repeat(4);
    }
    let mut desk = Desk::of(&text);
    for domain in 0..8 {
        desk.put_ops(domain, &[Op::Compute(1); 256]);
    }
    assert_eq!(bound(&desk), 34_048);
    assert_eq!(run(&mut desk.clone(), 34_047), (34_047, false));
    assert_eq!(run(&mut desk, 34_048), (34_048, true));
}

/// Whatever the bound cannot know of keeps a run below it: an undeclared domain's
/// script, one without a window, a log without room, windows that are too short.
#[test]
fn runs_that_stay_below_their_bound() {
    let mut undeclared = Desk::of(WORKED);
    undeclared.put_ops(2, &[Op::Compute(1); 10]);
    assert_eq!(bound(&undeclared), 17);
    assert_eq!(run(&mut undeclared, 17), (7, true));

    let mut idle = desk(1, WINDOWS[4]);
    idle.put_ops(0, &[Op::Compute(1); 10]);
    assert_eq!((bound(&idle), run(&mut idle, 11)), (11, (1, true)));

    let mut crowded = Desk::of(WORKED);
    crowded.log.truncate(16);
    assert_eq!((bound(&crowded), run(&mut crowded, 7)), (7, (4, true)));

    let mut short = desk(2, WINDOWS[0]);
    short.put_ops(0, &[Op::Compute(1); 10]);
    assert_eq!((bound(&short), run(&mut short, 12)), (12, (4, true)));
}

/// The steps of a list add up to at most the bound, and what they leave of it
/// takes the run to its end. Refused calls do none.
#[test]
fn lists_of_calls() {
    let limits = [1, 3, 0, 2, 40, 1, 700, 5];
    for (start, mut desk) in desks().enumerate() {
        let bound = bound(&desk);
        let mut done = 0;
        for at in start..start + start % 12 {
            done += run(&mut desk, limits[at % limits.len()]).0;
            assert!(done <= bound);
            let mut lent = desk.clone();
            lent.cache.pop();
            assert_eq!(lent.run(bound), Err(Refusal::TableLength));
            assert!(run(&mut desk.clone(), bound - done).1);
        }
        let (rest, ended) = run(&mut desk, bound - done);
        assert!(ended && done + rest <= bound);
    }
}

/// The steps of each window, its switch among them.
fn steps_of_windows(desk: &mut Desk) -> Vec<u64> {
    let mut windows = Vec::new();
    let mut steps = 0;
    loop {
        let before = desk.state.completed;
        let progress = desk.step().expect("a possible desk");
        if progress.steps == 0 {
            return windows;
        }
        steps += 1;
        if desk.state.completed > before {
            windows.push(steps);
            steps = 0;
        }
    }
}

#[test]
fn a_window_takes_at_most_its_length_and_one() {
    for mut desk in desks() {
        let all = bound(&desk);
        let windows = steps_of_windows(&mut desk);
        let lengths = desk.plan.windows.iter().cycle();
        for (steps, window) in windows.iter().zip(lengths) {
            assert!(*steps <= u64::from(window.length) + 1, "{:?}", desk.plan);
        }
        let count = desk.plan.windows.len() * desk.plan.run as usize;
        assert_eq!(windows.len(), count);
        assert!(windows.iter().sum::<u64>() <= all);
    }
}

/// Ops of one tick each fill a window to its last.
#[test]
fn windows_of_their_length_and_one() {
    for length in [1, 2, 3, 100, 255, 256] {
        let text = "(pad 376)\n(run 2)\n(domain 0(share 1000)(may))\n";
        let mut desk = Desk::of(&format!("{text}(window 0(length {length}))"));
        desk.put_ops(0, &[Op::Compute(1); 256]);
        let second = (256 - length).min(length) + 1;
        assert_eq!(steps_of_windows(&mut desk), [length + 1, second]);
    }
    // A line that was read once is in L1 for the rest of the window.
    let mut hits = Desk::alone(&[Op::Read(3); 50]);
    hits.plan.windows[0].length = 102;
    assert_eq!(steps_of_windows(&mut hits), [1 + 2 + 1]);
}
