//! What each op costs, sees and leaves: document 01, "What an op costs" and
//! "What a domain sees".

use super::desk::Desk;
use crate::cache::{Access, Accessed, Cache, Found, PutOut};
use crate::geometry::Line;
use crate::op::Op;

/// The kinds and the ticks of a script's ops, each counted on its own.
fn ticks(desk: &mut Desk, domain: u32) -> Vec<(&'static str, u32)> {
    desk.run(u64::MAX).unwrap();
    let mut before = 0;
    let seen = desk.seen(domain).into_iter();
    seen.map(|(kind, _, clock)| (kind, clock - std::mem::replace(&mut before, clock)))
        .collect()
}

#[test]
fn a_second_access_hits_l1() {
    let ops = [Op::Read(5), Op::Read(5), Op::Write(5), Op::Read(5)];
    let mut desk = Desk::alone(&ops);
    let expected = [("miss", 100), ("hit1", 1), ("hit1", 1), ("hit1", 1)];
    assert_eq!(ticks(&mut desk, 0), expected);
}

#[test]
fn a_hit_in_l1_moves_nothing_in_l2() {
    // Lines 0 and 64 share set 0 and L1 index 0; line 0 is looked at in L1 only
    // after it, so line 64 stays in front once it is there.
    let mut desk = Desk::alone(&[Op::Read(64), Op::Read(0), Op::Read(0)]);
    desk.run(3).unwrap();
    assert_eq!(desk.set(0), [0, 64]);

    let mut table = vec![0; 272];
    let [front, second] = [0, 64].map(|number| Line::new(number).unwrap());
    table[0] = second.tag();
    table[16] = front.tag();
    table[17] = second.tag();
    let before = table.clone();
    let mut cache = Cache::over(&mut table).unwrap();
    let hit = Accessed {
        found: Found::InL1,
        ticks: 1,
        put_out: PutOut::Nothing,
    };
    assert_eq!(cache.access(second, Access::Read), hit);
    assert_eq!(table, before);
}

#[test]
fn a_dirty_line_replaced_adds_4_ticks() {
    // Lines 0, 16 and 32 share L1 index 0 but no set.
    let ops = [
        Op::Write(0),
        Op::Read(16),
        Op::Write(0),
        Op::Write(16),
        Op::Read(0),
        Op::Read(32),
    ];
    let expected = [
        ("miss", 100),
        ("miss", 104),
        ("hit2", 10),
        ("hit2", 14),
        ("hit2", 14),
        ("miss", 100),
    ];
    assert_eq!(ticks(&mut Desk::alone(&ops), 0), expected);
}

/// From a fresh start a line that is put out is in front of its set already.
#[test]
fn a_write_back_moves_nothing() {
    let mut desk = Desk::alone(&[Op::Write(0), Op::Read(16)]);
    desk.run(1).unwrap();
    assert_eq!(desk.cache[0], 32_769);
    assert_eq!(desk.cache[16..20], [1, 0, 0, 0]);
    desk.run(1).unwrap();
    assert_eq!(desk.cache[0], 17);
    assert_eq!(desk.cache[16..20], [1, 0, 0, 0]);
}

#[test]
fn a_dirty_line_stays_dirty_when_read_and_a_clean_one_becomes_dirty_when_written() {
    let mut desk = Desk::alone(&[Op::Write(0), Op::Read(0), Op::Read(1), Op::Write(1)]);
    desk.run(3).unwrap();
    assert_eq!(desk.cache[..2], [32_769, 2]);
    desk.run(1).unwrap();
    assert_eq!(desk.cache[..2], [32_769, 32_770]);
}

#[test]
fn lines_that_are_barred() {
    // With 67 thousandths, domain 0 has colour 0 alone: sets 0 to 3.
    let text = "(pad 376)\n(run 1)\n(domain 0(share 67)(may))\n(window 0(length 10000))\n";
    let mut desk = Desk::of(text);
    desk.put_ops(
        0,
        &[
            Op::Read(3),
            Op::Read(4),
            Op::Write(60),
            Op::Read(63),
            Op::Read(67),
            Op::Read(4_035),
            Op::Write(4_096),
            Op::Read(65_535),
            Op::Write(4_099),
        ],
    );
    desk.run(9).unwrap();
    let expected = [
        ("miss", 3, 100),
        ("barred", 4, 105),
        ("barred", 60, 110),
        ("barred", 63, 115),
        ("miss", 67, 215),
        ("miss", 4_035, 315),
        ("barred", 4_096, 320),
        ("barred", 65_535, 325),
        ("barred", 4_099, 330),
    ];
    assert_eq!(desk.seen(0), expected);
    assert_eq!(desk.set(3), [4_035, 67, 3]);
    assert!(desk.cache[16 + 16..].iter().all(|held| *held == 0));
}

#[test]
fn the_kernels_colour_is_nobodys() {
    let mut desk = Desk::alone(&[Op::Read(59), Op::Read(60), Op::Write(61), Op::Read(4_095)]);
    let expected = [("miss", 100), ("barred", 5), ("barred", 5), ("barred", 5)];
    assert_eq!(ticks(&mut desk, 0), expected);
}

/// Three domains: 0 may send to 1 and 2, 1 to 2, and 2 to nobody.
fn three() -> Desk {
    Desk::of(
        "(pad 376)\n(run 1)\n(domain 0(share 300)(may 1 2))\n(domain 1(share 300)(may 2))\n\
         (domain 2(share 300)(may))\n(window 0(length 5000))\n(window 1(length 5000))\n\
         (window 2(length 5000))\n",
    )
}

#[test]
fn messages_and_their_lines() {
    let mut desk = three();
    let ops = [
        Op::Send {
            to: 1,
            word: 65_535,
        },
        Op::Send { to: 1, word: 0 },
        Op::Send { to: 0, word: 5 },
        Op::Send { to: 7, word: 5 },
        Op::Receive { from: 1 },
        Op::Receive { from: 0 },
        Op::Receive { from: 7 },
    ];
    desk.put_ops(0, &ops);
    desk.run(1).unwrap();
    assert_eq!(desk.boxes[1], 65_536);
    desk.run(1).unwrap();
    assert_eq!(desk.boxes[1], 1);
    // Line 60 is index 12 and stays clean; line 125 is index 13 and is dirty.
    assert_eq!(desk.cache[12..14], [61, 32_768 + 126]);
    desk.run(5).unwrap();
    let expected = [
        ("sent", 1, 205),
        ("sent", 1, 212),
        ("denied", 0, 218),
        ("denied", 7, 224),
        ("denied", 1, 230),
        ("denied", 0, 236),
        ("denied", 7, 242),
    ];
    assert_eq!(desk.seen(0), expected);
    assert_eq!(desk.boxes[1], 1);
    assert_eq!(desk.boxes.iter().filter(|held| **held != 0).count(), 1);
}

#[test]
fn a_box_is_emptied_when_it_is_received() {
    let mut desk = three();
    desk.put_ops(0, &[Op::Send { to: 2, word: 9 }]);
    let twice = [
        Op::Receive { from: 0 },
        Op::Receive { from: 0 },
        Op::Receive { from: 1 },
    ];
    desk.put_ops(2, &twice);
    desk.run(u64::MAX).unwrap();
    // Line 125 is box 0 to 1; box 0 to 2 is line 189 and box 1 to 2 is line 701,
    // all at L1 index 13. Line 60 is in L1 from the window's start on.
    let start = 2 * 5_376;
    let expected = [
        ("got", 9, start + 5 + 1 + 100),
        ("empty", 0, start + 106 + 5 + 1 + 1),
        ("empty", 1, start + 113 + 5 + 1 + 104),
    ];
    assert_eq!(desk.seen(2), expected);
    assert!(desk.boxes.iter().all(|held| *held == 0));
}

#[test]
fn the_dearest_op_takes_213_ticks() {
    // Index 12 and index 13 hold dirty lines of the domain's own.
    let mut desk = Desk::of(
        "(pad 376)\n(run 1)\n(domain 0(share 400)(may 1))\n(domain 1(share 300)(may))\n\
         (window 0(length 5000))\n",
    );
    desk.put_ops(
        0,
        &[Op::Write(12), Op::Write(13), Op::Send { to: 1, word: 1 }],
    );
    desk.run(3).unwrap();
    assert_eq!(desk.state.clock, 200 + 213);
}

/// In the run's first window it brings the line in; in any other the line is there.
#[test]
fn a_denied_op_touches_line_60_alone() {
    for (domain, switches, first) in [(0, 0, 105), (2, 2, 6)] {
        let mut desk = three();
        let denied = [Op::Send { to: 7, word: 1 }, Op::Receive { from: domain }];
        desk.put_ops(usize::from(domain), &denied);
        desk.run(switches + 2).unwrap();
        let start = switches as u32 * 5_376 + first;
        let expected = [
            ("denied", 7, start),
            ("denied", u16::from(domain), start + 6),
        ];
        assert_eq!(desk.seen(domain.into()), expected);
        let held: Vec<_> = desk.cache.iter().filter(|held| **held != 0).collect();
        assert_eq!(held, [&61, &61]);
    }
}

#[test]
fn records_in_bytes() {
    let mut desk = Desk::alone(&[Op::Compute(200), Op::Read(0x1234), Op::Read(0x0234)]);
    desk.run(3).unwrap();
    assert_eq!(desk.log[..8], [8, 0, 200, 0, 200, 0, 0, 0]);
    assert_eq!(desk.log[8..16], [9, 0, 0x34, 0x12, 205, 0, 0, 0]);
    assert_eq!(desk.log[16..24], [3, 0, 0x34, 0x02, 0x31, 0x01, 0, 0]);
    assert_eq!(desk.log[24..], [0xa5; 16_360]);
}
