//! Windows, switches, limits and the log's parts: document 01, "Window, switch,
//! run" and "What a domain sees".

use super::desk::{Desk, WORKED};
use crate::cache::Cache;
use crate::journal::Part;
use crate::machine::{Outcome, Progress};
use crate::op::Op;
use crate::{Refusal, State};

fn ended(steps: u64) -> Result<Progress, Refusal> {
    Ok(Progress {
        steps,
        outcome: Outcome::Ended,
    })
}

fn stopped(steps: u64) -> Result<Progress, Refusal> {
    Ok(Progress {
        steps,
        outcome: Outcome::Stopped,
    })
}

#[test]
fn limits_and_answers() {
    let mut desk = Desk::of(WORKED);
    assert_eq!(desk.run(0), stopped(0));
    assert_eq!(desk, Desk::of(WORKED));
    assert_eq!(desk.run(6), stopped(6));
    assert_eq!(desk.run(0), stopped(0));
    assert_eq!(desk.clone().run(1), ended(1));
    assert_eq!(desk.clone().run(2), ended(1));
    assert_eq!(desk.clone().step(), ended(1));
    assert_eq!(desk.run(u64::MAX), ended(1));
    let end = desk.clone();
    for limit in [0, 1, 2, u64::MAX] {
        assert_eq!(desk.run(limit), ended(0));
    }
    assert_eq!(desk.step(), ended(0));
    assert_eq!(desk, end);
}

#[test]
fn many_short_runs_are_one_long_run() {
    let mut whole = Desk::of(WORKED);
    assert_eq!(whole.run(u64::MAX), ended(7));
    for limit in 1..8 {
        let mut pieces = Desk::of(WORKED);
        while pieces.run(limit).unwrap().outcome == Outcome::Stopped {}
        assert_eq!(pieces, whole);
    }
}

#[test]
fn a_fresh_start_takes_damaged_things() {
    let mut desk = Desk::of(WORKED);
    desk.run(3).unwrap();
    let (log, scripts) = (desk.log.clone(), desk.scripts.clone());
    desk.cache.fill(40_000);
    desk.boxes.fill(u32::MAX);
    desk.state.completed = u64::MAX;
    desk.state.counts[7].position = 9;
    assert_eq!(desk.fresh_start(), Ok(()));
    assert_eq!(desk.state, State::default());
    assert!(desk.cache.iter().all(|held| *held == 0));
    assert!(desk.boxes.iter().all(|held| *held == 0));
    assert_eq!((desk.log, desk.scripts), (log, scripts));
}

#[test]
fn windows_start_when_the_plan_says() {
    let text = "(pad 400)\n(run 3)\n(domain 0(share 500)(may))\n(domain 1(share 400)(may))\n\
                (window 0(length 10))\n(window 0(length 20))\n(window 1(length 5))";
    let mut desk = Desk::of(text);
    desk.put_ops(0, &[Op::Compute(200); 256]);
    desk.put_ops(1, &[Op::Write(32); 256]);
    let mut starts = vec![0];
    while desk.state.completed < 9 {
        let before = desk.state.completed;
        desk.step().unwrap();
        if desk.state.completed > before {
            starts.push(desk.state.clock);
        }
    }
    let expected = [0, 410, 830, 1_235, 1_645, 2_065, 2_470, 2_880, 3_300, 3_705];
    assert_eq!(starts, expected);
    assert_eq!(desk.run(1), ended(0));
}

/// But for line 60, which it touches: the tests of that have more.
#[test]
fn a_switch_empties_l1_and_the_kernels_sets_alone() {
    let mut desk = Desk::of(WORKED);
    desk.run(3).unwrap();
    assert_eq!(
        (desk.set(3), desk.set(60), desk.set(61)),
        (vec![3], vec![60], vec![125])
    );
    desk.run(1).unwrap();
    assert_eq!(desk.near(), [60]);
    assert_eq!((desk.set(3), desk.set(60)), (vec![3], vec![60]));
    assert!((61..64).all(|number| desk.set(number).is_empty()));
    assert_eq!(desk.boxes[1], 78);
}

#[test]
fn ticks_of_the_kernels_flush() {
    let mut table = vec![0; 272];
    assert_eq!(Cache::over(&mut table).unwrap().flush_kernel_sets(), 8);
    for set in 58..64 {
        for way in 0..4 {
            table[16 + 4 * set + way] = (set + 64 * way) as u16 + 1;
        }
    }
    assert_eq!(Cache::over(&mut table).unwrap().flush_kernel_sets(), 24);
    assert_eq!(table.iter().filter(|held| **held != 0).count(), 8);
    assert_eq!(Cache::over(&mut table).unwrap().flush_kernel_sets(), 8);
}

#[test]
fn a_late_switch_still_fits_into_the_least_pad() {
    // An op begun at the last tick takes 213, all sixteen L1 lines are dirty.
    let mut desk = Desk::of(
        "(pad 376)\n(run 1)\n(domain 0(share 900)(may 1))\n(domain 1(share 99)(may))\n\
         (window 0(length 1601))\n",
    );
    let mut ops: Vec<Op> = (0..16).map(Op::Write).collect();
    ops.push(Op::Send { to: 1, word: 1 });
    desk.put_ops(0, &ops);
    desk.run(17).unwrap();
    assert_eq!(desk.state.clock, 1_600 + 213);
    assert_eq!(desk.run(1), ended(1));
    assert_eq!(desk.state.clock, 1_601 + 376);
}

#[test]
fn a_script_goes_on_in_the_domains_next_window() {
    let mut desk = Desk::of(
        "(pad 376)\n(run 2)\n(domain 0(share 500)(may))\n(domain 1(share 400)(may))\n\
         (window 0(length 1))\n(window 1(length 1))\n",
    );
    desk.put_ops(0, &[Op::Compute(1), Op::Compute(2), Op::Compute(3)]);
    assert_eq!(desk.run(u64::MAX), ended(6));
    assert_eq!(desk.seen(0), [("ran", 1, 1), ("ran", 2, 754 + 2)]);
    assert_eq!(desk.state.counts[0].position, 2);
}

#[test]
fn a_full_part_of_the_log_makes_a_switch() {
    let mut desk = Desk::of(WORKED);
    desk.log = vec![0xa5; 2 * 8 * 2 + 15];
    assert_eq!(desk.run(u64::MAX), ended(6));
    assert_eq!(desk.seen(0), [("miss", 3, 100), ("hit1", 3, 101)]);
    assert_eq!(desk.seen(1), [("empty", 0, 882), ("miss", 100, 982)]);
    assert_eq!(desk.log[32..], [0xa5; 15]);
}

#[test]
fn a_log_without_room_makes_every_step_a_switch() {
    for bytes in [0, 1, 15] {
        let mut desk = Desk::of(WORKED);
        desk.log = vec![0xa5; bytes];
        assert_eq!(desk.run(u64::MAX), ended(2));
        assert_eq!(
            (desk.state.clock, desk.state.counts[0].position),
            (1_452, 0)
        );
        assert_eq!(desk.log, vec![0xa5; bytes]);
        assert_eq!(
            desk.log_of(1),
            Ok(Part {
                place: 0,
                length: 0
            })
        );
    }
}

#[test]
fn parts_of_the_log() {
    let mut desk = Desk::of(WORKED);
    desk.log = vec![0; 100];
    let part = |place, length| Ok(Part { place, length });
    assert_eq!((desk.log_of(0), desk.log_of(1)), (part(0, 0), part(48, 0)));
    desk.run(u64::MAX).unwrap();
    assert_eq!(
        (desk.log_of(0), desk.log_of(1)),
        (part(0, 24), part(48, 16))
    );
    for domain in [2, 3, 7, 8, 255, 256, 65_536, u32::MAX] {
        assert_eq!(desk.log_of(domain), Err(Refusal::Domain { at: 0 }));
    }
}

#[test]
fn the_log_and_the_position_may_differ() {
    let mut desk = Desk::of(WORKED);
    desk.state.counts[0].position = 1;
    desk.state.counts[0].records = 40;
    desk.step().unwrap();
    assert_eq!(desk.state.counts[0].position, 2);
    assert_eq!(desk.state.counts[0].records, 41);
    assert_eq!(desk.log[320..328], [3, 0, 3, 0, 100, 0, 0, 0]);
}
