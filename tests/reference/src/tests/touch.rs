//! The line that a switch touches before it waits: document 02, E9.

use super::desk::{Desk, WORKED};
use super::drawn::Drawn;
use crate::cache::{Access, Board, Cache, TABLE};
use crate::geometry::Line;
use crate::journal::{Keeping, Kept};
use crate::limits::PAD;
use crate::machine::{run_watched, Lent, Manner, Outcome};
use crate::op::Op;
use crate::{read_plan, Refusal};

/// Domain 0 has the colours 0 to 13 and may send to domain 1, which has colour 14. There are
/// four windows to a pass, two of them one behind the other of one domain.
const PLAN: &str = "\
(pad 376)
(run 3)
(domain 0 (share 966) (may 1))
(domain 1 (share 34) (may))
(window 0 (length 500))
(window 1 (length 300))
(window 1 (length 7))
(window 0 (length 1))
";

const WINDOWS: u64 = 12;

/// A script of any ops, many of which use line 60 or put it out of L1.
fn busy_desk() -> Desk {
    let mut desk = Desk::of(PLAN);
    let mut drawn = Drawn(60);
    for domain in 0..2 {
        let ops: Vec<Op> = (0..256)
            .map(|_| match drawn.below(6) {
                0 => Op::Send { to: 1, word: 9 },
                1 => Op::Receive { from: 0 },
                2 => Op::Compute(1 + drawn.below(200)),
                _ => Op::Write(12 + drawn.below(4) + 64 * drawn.below(8)),
            })
            .collect();
        desk.put_ops(domain, &ops);
    }
    desk
}

/// Whether L1 and the kernel's sets hold line 60 clean, and nothing else.
fn is_touched(desk: &Desk) -> bool {
    let others = (61..64).all(|set| desk.set(set).is_empty());
    desk.near() == [60] && desk.set(60) == [60] && others
}

/// Whether L1 and the kernel's sets hold nothing.
fn is_bare(desk: &Desk) -> bool {
    desk.near().is_empty() && (60..64).all(|set| desk.set(set).is_empty())
}

/// Does one step, and gives whether it was a switch.
fn switches(desk: &mut Desk) -> bool {
    let before = desk.state.completed;
    desk.step().unwrap();
    desk.state.completed > before
}

/// The first window of each later pass starts with it as any other does.
#[test]
fn each_window_but_the_runs_first_starts_with_line_60() {
    for mut desk in [Desk::of(PLAN), busy_desk()] {
        assert!(is_bare(&desk));
        let mut starts = 0;
        while desk.state.completed < WINDOWS {
            if switches(&mut desk) && desk.state.completed < WINDOWS {
                assert!(is_touched(&desk), "{}", desk.state.completed);
                starts += 1;
            }
        }
        assert_eq!(starts, WINDOWS - 1);
        assert!(is_bare(&desk));
    }
}

/// In one call, in two, and in single steps.
#[test]
fn the_last_switch_leaves_nothing() {
    let mut whole = busy_desk();
    let steps = whole.run(u64::MAX).unwrap().steps;
    assert!(is_bare(&whole));
    let mut pieces = busy_desk();
    pieces.run(steps - 1).unwrap();
    assert_eq!(pieces.state.completed, WINDOWS - 1);
    assert_eq!(pieces.step().unwrap().outcome, Outcome::Ended);
    assert_eq!(pieces, whole);
    // The domains' own sets are as they were.
    assert!(!whole.set(12).is_empty() && !whole.set(15).is_empty());
    whole.assert_let_through();
}

/// A run of one window: its only switch is its last.
#[test]
fn a_single_window() {
    for ops in [&[][..], &[Op::Receive { from: 0 }, Op::Write(12)]] {
        let mut desk = Desk::alone(ops);
        desk.plan.windows[0].length = 500;
        desk.run(u64::MAX).unwrap();
        assert!(is_bare(&desk));
        assert_eq!(desk.state.clock, 876);
    }
}

/// A message in the run's first window, in a later one, and behind a write that has put
/// line 60 out of L1.
#[test]
fn what_a_message_finds() {
    let send = Op::Send { to: 1, word: 1 };
    let mut desk = Desk::of(PLAN);
    let ops = [send, Op::Compute(200), Op::Compute(200)];
    desk.put_ops(0, &[&ops[..], &[send; 2]].concat());
    desk.put_ops(1, &[Op::Write(56), Op::Receive { from: 0 }]);
    desk.run(u64::MAX).unwrap();
    let pass = 500 + 300 + 7 + 1 + 4 * 376;
    let last = pass - 377;
    let seen: Vec<_> = desk.seen(0).iter().map(|(_, _, clock)| *clock).collect();
    // One message fills the last window of the first pass, one the first of the second.
    assert_eq!(seen, [205, 405, 605, last + 106, pass + 106]);
    // Line 56 has index 8, so it does not meet line 60.
    assert_eq!(desk.seen(1), [("miss", 56, 976), ("got", 1, 976 + 106)]);

    let mut desk = Desk::of(PLAN);
    desk.run(4).unwrap();
    desk.put_ops(0, &[Op::Write(12), send]);
    desk.run(2).unwrap();
    // It is found in L2, and a dirty line goes out for it.
    let clock = pass + 100 + 5 + 14 + 100;
    assert_eq!(desk.state.clock, u64::from(clock));
    assert_eq!((desk.set(60), desk.set(12)), (vec![60], vec![12]));
}

/// A lent desk in the given window, at this tick past its end, with these caches.
fn lent(completed: u64, past: u64, table: [u16; TABLE]) -> Desk {
    let mut desk = Desk::of(PLAN);
    let (passes, place) = (completed / 4, completed as usize % 4);
    let lengths = [500, 300, 7, 1];
    let spans: u64 = lengths[..place].iter().map(|length| length + 376).sum();
    let end = passes * (808 + 4 * 376) + spans + lengths[place];
    desk.state.completed = completed;
    desk.state.clock = end + past;
    desk.cache = table.to_vec();
    desk.assert_let_through();
    desk
}

/// Takes one switch; gives the ticks from the window's end until its touch is made.
fn watched(desk: &mut Desk, board: Board) -> u64 {
    let lent = Lent {
        cache: &mut desk.cache,
        boxes: &mut desk.boxes,
        log: &mut desk.log,
    };
    let mut late = None;
    let manner = Manner {
        board,
        ..Manner::USUAL
    };
    let scripts = [0; 2_048];
    let state = &mut desk.state;
    let watch = |turn: crate::schedule::Turn, touched| late = Some(touched - turn.end);
    run_watched(manner, &desk.plan, &scripts, state, lent, 1, watch).unwrap();
    late.expect("a switch")
}

/// The kernel's sets full, and sixteen dirty lines in L1, of domain 0's or the kernel's.
/// Line 60 is among them and in its set, in front or behind, or is not.
fn full_tables() -> Vec<[u16; TABLE]> {
    let orders: [[u16; 4]; 3] = [[0, 1, 2, 3], [3, 2, 1, 0], [4, 5, 6, 7]];
    let mut tables = Vec::new();
    for above in orders {
        for line in [12, 28, 60, 124] {
            let mut table = [0; TABLE];
            for index in 0..16 {
                table[usize::from(index)] = 32_768 + index + 1;
            }
            table[12] = 32_768 + line + 1;
            for set in 60..64 {
                for (way, above) in above.iter().enumerate() {
                    table[16 + 4 * set + way] = set as u16 + 64 * above + 1;
                }
            }
            tables.push(table);
        }
    }
    tables
}

/// No switch takes longer, and this one takes just as long as the least pad, in a first
/// window, in the middle, at a pass's end and at the run's. With a pad one shorter the next
/// window would start a tick later than the plan says, so no such plan is taken.
#[test]
fn the_least_pad_is_the_longest_switch() {
    assert_eq!(*PAD.start(), 212 + (8 + 16) + (8 + 32) + 100);
    for completed in [0, 3, 4, 7, 8, 11] {
        for table in full_tables() {
            let mut desk = lent(completed, 212, table);
            let end = desk.state.clock - 212;
            assert_eq!(watched(&mut desk, Board::New), 376);
            assert_eq!(desk.state.clock, end + 376);
            assert_eq!(desk.state.completed, completed + 1);
            desk.assert_let_through();
            let mut desk = lent(completed, 212, table);
            desk.plan.pad = 375;
            desk.assert_refused(Refusal::Plan);
        }
    }
    let text = PLAN.replace("376", "375");
    let (number, companion, _) = read_plan(text.as_bytes(), &mut [0; 2_048]);
    assert_eq!((number, companion), (3, 5));
}

/// Each part of that sum counts: a tick earlier, a line fewer.
#[test]
fn a_switch_that_is_not_the_longest() {
    let full = full_tables()[0];
    let late = |past, table| watched(&mut lent(0, past, table), Board::New);
    assert_eq!(late(211, full), 375);
    assert_eq!(late(0, full), 164);
    let mut clean = full;
    clean[5] -= 32_768;
    assert_eq!(late(212, clean), 374);
    for set in 60..64 {
        let mut fewer = full;
        fewer[16 + 4 * set + 3] = 0;
        assert_eq!(late(212, fewer), 375);
    }
    assert_eq!(late(0, [0; TABLE]), 8 + 8 + 100);
}

/// Whatever the caches hold, the touch takes 100 ticks and leaves line 60 clean and alone.
/// The old board's touch does the same.
#[test]
fn the_touch_always_takes_100_ticks() {
    let mut drawn = Drawn(100);
    for _ in 0..2_000 {
        let mut table = [0; TABLE];
        for index in 0..16 {
            let sets = [index, 16 + index, 32 + index, 48 + index];
            // Domain 0 has every set but those of colour 14.
            let fitting = sets.into_iter().filter(|set| set / 4 != 14);
            let line = drawn.pick(&fitting.collect::<Vec<u16>>()) + 64 * drawn.below(3);
            table[usize::from(index)] = drawn.pick(&[0, line + 1, 32_768 + line + 1]);
        }
        for set in 56..64 {
            let first = drawn.below(4);
            for way in 0..drawn.below(5) {
                table[usize::from(16 + 4 * set + way)] = set + 64 * ((first + way) % 4) + 1;
            }
        }
        let valid = table[16 + 4 * 60..].iter().filter(|held| **held != 0);
        let dirty = table[..16].iter().filter(|held| **held >= 32_768);
        let flushes = 16 + valid.count() as u64 + 2 * dirty.count() as u64;
        let completed = drawn.pick(&[0, 3, 4, 7, 8, 11]);
        let past = u64::from(drawn.below(213));
        for board in [Board::New, Board::Old] {
            let mut desk = lent(completed, past, table);
            assert_eq!(watched(&mut desk, board), past + flushes + 100);
            match completed {
                11 => assert!(is_bare(&desk)),
                _ => assert!(is_touched(&desk)),
            }
            // The other sets stay.
            assert_eq!(desk.cache[16..256], table[16..256]);
        }
    }
}

/// In every manner in which a run can be made.
#[test]
fn on_both_boards_and_in_kept_runs() {
    let mut whole = busy_desk();
    let progress = whole.run(u64::MAX);
    let kept = Kept {
        domain: 1,
        part: 256,
    };
    for board in [Board::New, Board::Old] {
        let mut desk = busy_desk();
        assert_eq!(desk.run_on(board, u64::MAX), progress);
        assert_eq!(desk, whole);
        let mut part = busy_desk();
        part.log.truncate(8 * 256);
        let keeping = Keeping::One(kept);
        let manner = Manner { board, keeping };
        for _ in 0..progress.unwrap().steps {
            part.run_in(manner, 1).unwrap();
        }
        assert_eq!((&part.cache, part.state), (&whole.cache, whole.state));
    }
}

/// A window's start without line 60, and the run's first with it, are no damage; a dirty
/// line 60 is none either, wherever a window runs. After the end L1 is empty, but L2 need
/// not be.
#[test]
fn line_60_is_judged_like_other_kernel_lines() {
    for completed in 0..4 {
        let mut desk = Desk::of(WORKED);
        desk.plan.run = 2;
        let starts = [0, 776, 1_452, 2_228];
        (desk.state.completed, desk.state.clock) = (completed, starts[completed as usize]);
        for near in [0, 61, 32_768 + 61] {
            for far in [[0, 0], [61, 0], [61, 125], [125, 61]] {
                desk.cache[12] = near;
                desk.cache[256..258].copy_from_slice(&far);
                desk.assert_let_through();
            }
        }
    }
    let mut desk = Desk::of(WORKED);
    desk.run(u64::MAX).unwrap();
    desk.cache[256] = 61;
    desk.assert_let_through();
    desk.cache[12] = 61;
    desk.assert_refused(Refusal::Damaged);
}

/// Another line in front of it, behind it, and in its place in L1.
#[test]
fn forgetting_a_line() {
    let line = |number| Line::new(number).unwrap();
    for held in [&[][..], &[60], &[60, 124], &[124, 60], &[124, 188, 60, 252]] {
        for near in [None, Some(60), Some(12)] {
            for access in [Access::Read, Access::Write] {
                let mut table = [0; TABLE];
                let mut cache = Cache::over(&mut table).unwrap();
                for number in held.iter().rev() {
                    cache.access(line(*number), Access::Read);
                }
                table[12] = 0;
                if let Some(number) = near {
                    let dirty = if access == Access::Write { 32_768 } else { 0 };
                    table[12] = dirty + line(number).tag();
                }
                let due_near = if near == Some(60) { 0 } else { table[12] };
                let mut due: Vec<u16> = held.iter().filter(|n| **n != 60).copied().collect();
                Cache::over(&mut table).unwrap().forget(Line::GATE);
                due.iter_mut().for_each(|number| *number += 1);
                due.resize(4, 0);
                assert_eq!((table[12], &table[256..260]), (due_near, &due[..]));
                let rest = table.iter().filter(|held| **held != 0).count();
                let lines = due.iter().filter(|held| **held != 0).count();
                assert_eq!(rest, lines + usize::from(due_near != 0));
            }
        }
    }
}
