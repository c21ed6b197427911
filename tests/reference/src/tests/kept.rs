//! A run that stores one domain's records alone: document 02, E8.

use super::desk::{Desk, WORKED};
use super::drawn::Drawn;
use crate::cache::Board;
use crate::journal::{Keeping, Kept, RECORD};
use crate::machine::{Manner, Outcome};
use crate::op::Op;
use crate::{Plan, Refusal};

/// A desk whose log is one part of so many records.
fn desk_with(part: usize) -> Desk {
    let mut desk = Desk::of(WORKED);
    desk.log = vec![0xa5; RECORD * part];
    desk
}

fn kept(domain: u32, part: u64) -> Kept {
    Kept { domain, part }
}

/// Refuses so with every limit, and changes nothing.
fn assert_refused(desk: &Desk, kept: Kept, refusal: Refusal) {
    for limit in [0, 1, 2, u64::MAX] {
        let mut after = desk.clone();
        assert_eq!(after.run_kept(kept, limit), Err(refusal), "{kept:?}");
        assert_eq!(&after, desk);
    }
}

fn assert_taken(desk: &Desk, kept: Kept) {
    let mut after = desk.clone();
    let progress = after.run_kept(kept, 0).unwrap();
    assert_eq!(progress.steps, 0, "{kept:?}");
    assert_eq!(&after, desk);
}

#[test]
fn a_part_of_another_length() {
    for part in [0_usize, 1, 2, 3, 100] {
        let right = RECORD * part;
        for length in (0..=right + 17).filter(|length| length.abs_diff(right) < 18) {
            let mut desk = desk_with(0);
            desk.log = vec![0xa5; length];
            let kept = kept(0, part as u64);
            match length == right {
                true => assert_taken(&desk, kept),
                false => assert_refused(&desk, kept, Refusal::TableLength),
            }
        }
    }
}

/// Eight times such a number of records is more than 64 bits hold, and what they hold of
/// it may be the length that was lent.
#[test]
fn a_part_that_no_buffer_has() {
    for records in [0_usize, 1, 3, 8] {
        let desk = desk_with(records);
        let records = records as u64;
        for above in [
            1 << 61,
            1 << 62,
            3 << 61,
            1 << 63,
            7 << 61,
            1 << 32,
            1 << 29,
        ] {
            assert_refused(&desk, kept(0, above + records), Refusal::TableLength);
        }
        for part in [u64::MAX, u64::MAX / 8, u64::MAX - 7, i64::MAX as u64] {
            assert_refused(&desk, kept(0, part), Refusal::TableLength);
        }
    }
}

/// A desk on which everything is wrong from one refusal on, 4 being the last.
fn wrong_from(first: u32) -> (Desk, Kept) {
    let mut desk = desk_with(4);
    if first <= 14 {
        desk.state.counts[1].records = 5;
    }
    if first <= 13 {
        desk.cache[0] = 32_768;
    }
    if first <= 12 {
        desk.plan.run = 0;
    }
    if first <= 11 {
        desk.log.pop();
    }
    (desk, kept(2, 4))
}

#[test]
fn the_order_of_refusals() {
    let undeclared = Refusal::Domain { at: 0 };
    let order = [
        (11, Refusal::TableLength),
        (12, Refusal::Plan),
        (13, Refusal::Damaged),
        (14, Refusal::State),
        (15, undeclared),
    ];
    for (first, refusal) in order {
        let (desk, kept) = wrong_from(first);
        assert_refused(&desk, kept, refusal);
    }
    assert_eq!((undeclared.number(), undeclared.companion()), (4, 0));
}

#[test]
fn each_table_has_its_length() {
    let changes: [fn(&mut Desk); 6] = [
        |desk| desk.scripts.truncate(2_047),
        |desk| desk.scripts.push(0),
        |desk| desk.cache.truncate(271),
        |desk| desk.cache.push(0),
        |desk| desk.boxes.truncate(63),
        |desk| desk.boxes.push(0),
    ];
    for change in changes {
        for plan in [Desk::of(WORKED).plan, Plan::default()] {
            let mut desk = desk_with(4);
            desk.plan = plan;
            change(&mut desk);
            for domain in [0, 2] {
                assert_refused(&desk, kept(domain, 4), Refusal::TableLength);
            }
        }
    }
}

/// The plan's domains are not counted before it is known to be possible.
#[test]
fn a_plan_just_refused() {
    for records in [0, 4] {
        let mut desk = desk_with(records);
        desk.plan = Plan::default();
        for domain in [0, 1, u32::MAX] {
            assert_refused(&desk, kept(domain, records as u64), Refusal::Plan);
        }
        assert_refused(&desk, kept(0, 5), Refusal::TableLength);
    }
}

#[test]
fn undeclared_domains() {
    for records in [0, 4] {
        let desk = desk_with(records);
        for domain in [2, 3, 7, 8, 255, 256, 65_536, 1 << 31, u32::MAX] {
            let kept = kept(domain, records as u64);
            assert_refused(&desk, kept, Refusal::Domain { at: 0 });
        }
        for domain in [0, 1] {
            assert_taken(&desk, kept(domain, records as u64));
        }
    }
}

/// They are still refused where no step is left.
#[test]
fn an_undeclared_domain_after_the_end() {
    let mut desk = desk_with(4);
    desk.run_kept(kept(1, 4), u64::MAX).unwrap();
    assert_refused(&desk, kept(2, 4), Refusal::Domain { at: 0 });
}

/// The part holds as many records as it is told to, whoever's it is.
#[test]
fn records_over_the_part() {
    for part in [0, 1, 4] {
        for (own, counted) in [(0, 0), (0, 1), (1, 0), (1, 1)] {
            let mut desk = desk_with(part as usize);
            desk.state.counts[counted].records = part;
            assert_taken(&desk, kept(own, part));
            for more in [part + 1, 1_024, 1 << 32, u64::MAX] {
                desk.state.counts[counted].records = more;
                assert_refused(&desk, kept(own, part), Refusal::State);
            }
        }
    }
}

#[test]
fn the_worked_run() {
    let first = [
        [3, 0, 3, 0, 100, 0, 0, 0],
        [1, 0, 3, 0, 101, 0, 0, 0],
        [4, 0, 1, 0, 50, 1, 0, 0],
    ];
    let second = [[5, 0, 77, 0, 114, 3, 0, 0], [3, 0, 100, 0, 214, 3, 0, 0]];
    let mut whole = Desk::of(WORKED);
    let progress = whole.run(u64::MAX);
    for (domain, seen) in [(0, &first[..]), (1, &second)] {
        let mut desk = desk_with(4);
        assert_eq!(desk.run_kept(kept(domain, 4), u64::MAX), progress);
        let (new, old) = desk.log.split_at(RECORD * seen.len());
        assert_eq!(new, seen.as_flattened());
        assert!(old.iter().all(|byte| *byte == 0xa5));
        desk.log = whole.log.clone();
        assert_eq!(desk, whole);
    }
}

/// Domain 0 has three ops. With room for two, domain 1 is sent nothing, whichever of the
/// two is kept.
#[test]
fn another_domain_goes_idle() {
    for domain in [0, 1] {
        let mut desk = desk_with(2);
        let progress = desk.run_kept(kept(domain, 2), u64::MAX).unwrap();
        assert_eq!((progress.steps, progress.outcome), (6, Outcome::Ended));
        let counts = desk.state.counts.map(|counts| counts.records);
        assert_eq!(counts, [2, 2, 0, 0, 0, 0, 0, 0]);
        let seen = [
            [[3, 0, 3, 0, 100, 0, 0, 0], [1, 0, 3, 0, 101, 0, 0, 0]],
            [[6, 0, 0, 0, 114, 3, 0, 0], [3, 0, 100, 0, 214, 3, 0, 0]],
        ];
        assert_eq!(desk.log, seen[domain as usize].as_flattened());
    }
}

/// A full part does not make others idle.
#[test]
fn a_full_part_is_its_own_domains_alone() {
    for (full, own) in [(0, 0), (0, 1), (1, 0), (1, 1)] {
        let mut desk = desk_with(4);
        desk.state.counts[full].records = 4;
        desk.run_kept(kept(own, 4), u64::MAX).unwrap();
        let ops = [3, 2];
        let positions = [0, 1].map(|domain| desk.state.counts[domain].position);
        let due = [0, 1].map(|domain| if domain == full { 0 } else { ops[domain] });
        assert_eq!(positions, due);
        if full == own as usize {
            assert_eq!(desk.log, [0xa5; 32]);
        }
    }
}

#[test]
fn a_part_without_room_makes_every_step_a_switch() {
    for domain in [0, 1] {
        let mut desk = desk_with(0);
        let progress = desk.run_kept(kept(domain, 0), u64::MAX).unwrap();
        assert_eq!((progress.steps, progress.outcome), (2, Outcome::Ended));
        assert_eq!(
            (desk.state.clock, desk.state.counts[0].position),
            (1_452, 0)
        );
    }
}

/// Three domains with many ops and short windows, and a whole log of so many records each.
fn drawn_desk(drawn: &mut Drawn, room: usize) -> Desk {
    let mut text = String::from("(pad 376)\n(run 9)\n");
    for (domain, may) in ["1 2", "0 2", "0 1"].into_iter().enumerate() {
        let length = drawn.pick(&[1, 300, 2_000]);
        text += &format!("(domain {domain}(share 333)(may {may}))\n");
        text += &format!("(window {domain}(length {length}))\n");
    }
    let mut desk = Desk::of(&text);
    for domain in 0..3 {
        let ops: Vec<Op> = (0..256).map(|_| drawn_op(drawn, domain)).collect();
        desk.put_ops(usize::from(domain), &ops);
    }
    let left_over = usize::from(drawn.below(24));
    desk.log = (0..24 * room + left_over)
        .map(|_| drawn.below(256) as u8)
        .collect();
    desk
}

fn drawn_op(drawn: &mut Drawn, domain: u16) -> Op {
    let line = 20 * domain + drawn.below(20) + 64 * drawn.below(6);
    let other = drawn.below(3) as u8;
    match drawn.below(6) {
        0 => Op::Send { to: other, word: 1 },
        1 => Op::Receive { from: other },
        2 => Op::Compute(1 + drawn.below(200)),
        3 => Op::Read(line),
        _ => Op::Write(line),
    }
}

/// The same desk with one domain's part for its log.
fn cut(desk: &Desk, domain: u32, room: usize) -> Desk {
    let place = RECORD * room * domain as usize;
    Desk {
        log: desk.log[place..][..RECORD * room].to_vec(),
        ..desk.clone()
    }
}

/// One run with the whole log and one with each domain's part: after every call of a list
/// what is left and what is answered is the same.
#[test]
fn what_the_whole_log_gives() {
    let mut drawn = Drawn(8);
    let mut full = 0;
    for _ in 0..300 {
        let room = drawn.pick(&[0, 1, 2, 5, 17, 60, 300]);
        let mut whole = drawn_desk(&mut drawn, room);
        let mut parts = [0, 1, 2].map(|domain| cut(&whole, domain, room));
        for limit in drawn_limits(&mut drawn) {
            let progress = whole.run(limit);
            for (domain, desk) in (0..).zip(&mut parts) {
                let kept = kept(domain, room as u64);
                assert_eq!(desk.run_kept(kept, limit), progress);
                assert_eq!(*desk, cut(&whole, domain, room));
            }
        }
        let counts = whole.state.counts[..3].iter();
        full += counts.filter(|at| at.records == room as u64).count();
    }
    assert!(full > 300, "{full} parts were full");
}

/// The limits of a list of runs, the last of which goes on to the end.
fn drawn_limits(drawn: &mut Drawn) -> Vec<u64> {
    let count = drawn.below(40);
    let limits = (0..count).map(|_| drawn.pick(&[0, 1, 1, 2, 9, 50]));
    limits.chain([u64::MAX]).collect()
}

/// The board before E7 keeps one domain's records too.
#[test]
fn on_the_old_board() {
    let mut drawn = Drawn(9);
    let manner = Manner {
        board: Board::Old,
        keeping: Keeping::One(kept(2, 9)),
    };
    for _ in 0..20 {
        let mut whole = drawn_desk(&mut drawn, 9);
        let mut desk = cut(&whole, 2, 9);
        let progress = whole.run_on(Board::Old, u64::MAX);
        assert_eq!(desk.run_in(manner, u64::MAX), progress);
        assert_eq!(desk, cut(&whole, 2, 9));
    }
}
