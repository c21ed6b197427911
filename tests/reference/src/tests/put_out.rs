//! Dirty lines that are replaced go back through L2: document 02, E7. On tables that are
//! lent, since no run from a fresh start shows it.

use super::desk::Desk;
use crate::cache::{Access, Accessed, Board, Cache, Found, PutOut, TABLE};
use crate::geometry::Line;
use crate::journal::Kind;
use crate::op::Op;
use crate::plan::Plan;
use crate::shift::Effect;
use crate::tenant::Tenant;

fn line(number: u16) -> Line {
    Line::new(number).expect("a line")
}

fn put_out(number: u16) -> PutOut {
    PutOut::Dirty(line(number))
}

/// A table with these dirty lines in L1, and with these L2 sets, each by its lines.
fn lent(dirty: &[u16], sets: &[&[u16]]) -> [u16; TABLE] {
    let mut table = [0; TABLE];
    for number in dirty {
        table[line(*number).index()] = 32_768 + line(*number).tag();
    }
    for set in sets {
        for (way, number) in set.iter().enumerate() {
            table[16 + 4 * line(*number).set() + way] = line(*number).tag();
        }
    }
    table
}

/// One L2 set's lines, the most recently used first.
fn set(table: &[u16; TABLE], number: usize) -> Vec<u16> {
    let held = table[16 + 4 * number..][..4].iter();
    held.filter(|held| **held != 0)
        .map(|held| held - 1)
        .collect()
}

/// Domain 0 has the colours 0 to 13 and may send to domain 1, which may send to nobody.
fn plan() -> Plan {
    let text = "(pad 376)\n(run 1)\n(domain 0(share 966)(may 1))\n(domain 1(share 34)(may))\n\
                (window 0(length 5000))\n(window 1(length 5000))\n";
    Desk::of(text).plan
}

/// An op of domain 0 on this table.
fn play(table: &mut [u16; TABLE], op: Op) -> Effect {
    Tenant::of(&plan(), 0).play(table, op)
}

/// The effect of a read or a write.
fn effect(ticks: u64, kind: Kind, value: u16, first: PutOut) -> Effect {
    Effect {
        ticks,
        kind,
        value,
        put_out: [first, PutOut::Nothing],
    }
}

/// Line 0 goes in front of a full set, which drops line 256, the one that is asked for.
#[test]
fn the_line_that_is_sought_can_be_dropped() {
    let mut table = lent(&[0], &[&[64, 128, 192, 256]]);
    assert_eq!(table[0], 32_769);
    assert_eq!(table[16..20], [65, 129, 193, 257]);
    let read = play(&mut table, Op::Read(256));
    assert_eq!(read, effect(104, Kind::Miss, 256, put_out(0)));
    assert_eq!(set(&table, 0), [256, 0, 64, 128]);
    assert_eq!(table[0], 257);
}

/// The set has room, so it drops nothing, and the line that is asked for is found.
#[test]
fn a_set_with_room_drops_nothing() {
    let mut table = lent(&[0], &[&[64, 128, 192]]);
    let read = play(&mut table, Op::Read(64));
    assert_eq!(read, effect(14, Kind::Hit2, 64, put_out(0)));
    assert_eq!(set(&table, 0), [64, 0, 128, 192]);
}

#[test]
fn a_line_that_its_set_holds_moves_to_the_front() {
    let sets: [[u16; 4]; 4] = [
        [0, 64, 128, 192],
        [64, 0, 128, 192],
        [64, 128, 0, 192],
        [64, 128, 192, 0],
    ];
    for held in sets {
        // A line that the set holds, and one that it lacks.
        let mut table = lent(&[0], &[&held]);
        let read = play(&mut table, Op::Read(192));
        assert_eq!(read, effect(14, Kind::Hit2, 192, put_out(0)));
        assert_eq!(set(&table, 0), [192, 0, 64, 128]);

        let mut table = lent(&[0], &[&held]);
        let write = play(&mut table, Op::Write(256));
        assert_eq!(write, effect(104, Kind::Miss, 256, put_out(0)));
        assert_eq!(set(&table, 0), [256, 0, 64, 128]);
        assert_eq!(table[0], 32_768 + 257);
    }
}

#[test]
fn a_line_of_another_set() {
    // Lines 16, 80, .. are of set 16 and have L1 index 0, as line 0 has.
    let mut table = lent(&[16], &[&[80, 144, 208, 272], &[64, 0]]);
    let read = play(&mut table, Op::Read(0));
    assert_eq!(read, effect(14, Kind::Hit2, 0, put_out(16)));
    assert_eq!(set(&table, 16), [16, 80, 144, 208]);
    assert_eq!(set(&table, 0), [0, 64]);

    let mut table = lent(&[16], &[]);
    let read = play(&mut table, Op::Read(0));
    assert_eq!(read, effect(104, Kind::Miss, 0, put_out(16)));
    assert_eq!((set(&table, 16), set(&table, 0)), (vec![16], vec![0]));
}

/// Box 0 to 1 is line 125, of set 61; line 13 is the domain's own and has its index.
#[test]
fn a_line_of_the_kernels_colour() {
    let mut table = lent(&[125], &[&[61, 189, 253, 317]]);
    let read = play(&mut table, Op::Read(13));
    assert_eq!(read, effect(104, Kind::Miss, 13, put_out(125)));
    assert_eq!(set(&table, 61), [125, 61, 189, 253]);
    // The switch counts it with the others of the kernel's sets.
    let mut table = lent(&[125], &[&[61, 189]]);
    play(&mut table, Op::Read(13));
    let mut cache = Cache::over(&mut table).unwrap();
    assert_eq!(cache.flush_kernel_sets(), 8 + 3);
}

#[test]
fn a_clean_line_is_not_put_out() {
    for held in [0, 16, 128] {
        let before = lent(&[], &[&[64, 128, 192, 256]]);
        let mut table = before;
        table[0] = line(held).tag();
        let read = play(&mut table, Op::Read(256));
        assert_eq!(read, effect(10, Kind::Hit2, 256, PutOut::Nothing));
        assert_eq!(set(&table, 0), [256, 64, 128, 192]);
        assert_eq!(set(&table, 16), []);
    }
}

#[test]
fn an_empty_index_puts_nothing_out() {
    let mut table = lent(&[1, 15], &[&[65, 129]]);
    let write = play(&mut table, Op::Write(0));
    assert_eq!(write, effect(100, Kind::Miss, 0, PutOut::Nothing));
    assert_eq!(set(&table, 1), [65, 129]);
}

#[test]
fn a_hit_in_l1_puts_nothing_out() {
    for op in [Op::Read(0), Op::Write(0)] {
        let before = lent(&[0], &[&[64, 0, 128]]);
        let mut table = before;
        let hit = play(&mut table, op);
        assert_eq!(hit, effect(1, Kind::Hit1, 0, PutOut::Nothing));
        assert_eq!(table, before);
    }
}

#[test]
fn ops_without_an_access_put_nothing_out() {
    let dirty: Vec<u16> = (0..16).collect();
    let before = lent(&dirty, &[]);
    for op in [Op::Read(56), Op::Write(61), Op::Read(4_096), Op::Compute(9)] {
        let mut table = before;
        assert_eq!(play(&mut table, op).put_out, [PutOut::Nothing; 2]);
        assert_eq!(table, before);
    }
}

/// Both accesses of a message replace a dirty line of the domain's own. Line 60 has
/// index 12 and the box's line index 13.
#[test]
fn a_send_puts_two_lines_out() {
    let mut table = lent(&[12, 29], &[&[76, 140], &[93, 157, 221, 285]]);
    let sent = play(&mut table, Op::Send { to: 1, word: 5 });
    let expected = Effect {
        ticks: 213,
        kind: Kind::Sent,
        value: 1,
        put_out: [put_out(12), put_out(29)],
    };
    assert_eq!(sent, expected);
    assert_eq!(set(&table, 12), [12, 76, 140]);
    assert_eq!(set(&table, 29), [29, 93, 157, 221]);
    assert_eq!((set(&table, 60), set(&table, 61)), (vec![60], vec![125]));
    assert_eq!(table[12..14], [61, 32_768 + 126]);
}

/// Line 124 is of the set of line 60, and line 189 of that of the box.
#[test]
fn a_send_puts_two_lines_of_the_kernel_out() {
    let sets: [&[u16]; 2] = [&[188, 252, 316, 60], &[253, 189, 125, 317]];
    let mut table = lent(&[124, 189], &sets);
    let sent = play(&mut table, Op::Send { to: 1, word: 5 });
    assert_eq!(sent.ticks, 5 + (100 + 4) + (10 + 4));
    assert_eq!(sent.put_out, [put_out(124), put_out(189)]);
    assert_eq!(set(&table, 60), [60, 124, 188, 252]);
    assert_eq!(set(&table, 61), [125, 189, 253, 317]);
}

/// The second access alone, where line 60 is in L1; the first alone, where the box is.
#[test]
fn a_send_puts_one_line_out() {
    let send = Op::Send { to: 1, word: 5 };
    let mut table = lent(&[60, 13], &[&[60], &[77, 13]]);
    let sent = play(&mut table, send);
    assert_eq!(sent.put_out, [PutOut::Nothing, put_out(13)]);
    assert_eq!(sent.ticks, 5 + 1 + 104);
    assert_eq!(set(&table, 13), [13, 77]);

    let mut table = lent(&[12, 125], &[&[76, 12]]);
    let sent = play(&mut table, send);
    assert_eq!(sent.put_out, [put_out(12), PutOut::Nothing]);
    assert_eq!(sent.ticks, 5 + 104 + 1);
    assert_eq!(set(&table, 12), [12, 76]);
}

/// Domain 0 may not receive from domain 1, but line 60 is read all the same.
#[test]
fn a_denied_message_puts_one_line_out() {
    let denied = [Op::Receive { from: 1 }, Op::Send { to: 0, word: 5 }];
    for op in denied {
        let mut table = lent(&[12, 13], &[&[76], &[77]]);
        let effect = play(&mut table, op);
        assert_eq!((effect.ticks, effect.kind), (5 + 104, Kind::Denied));
        assert_eq!(effect.put_out, [put_out(12), PutOut::Nothing]);
        assert_eq!((set(&table, 12), set(&table, 13)), (vec![12, 76], vec![77]));
    }
}

/// Domain 1 has colour 14 alone, so only the kernel's lines can be in its way.
#[test]
fn a_receive_puts_two_lines_out() {
    let mut table = lent(&[124, 61], &[&[60, 188], &[125, 189]]);
    let empty = Tenant::of(&plan(), 1).play(&mut table, Op::Receive { from: 0 });
    let expected = Effect {
        ticks: 5 + 14 + 14,
        kind: Kind::Empty,
        value: 0,
        put_out: [put_out(124), put_out(61)],
    };
    assert_eq!(empty, expected);
    assert_eq!(set(&table, 60), [60, 124, 188]);
    assert_eq!(set(&table, 61), [125, 61, 189]);
}

/// A flush counts dirty lines and drops them.
#[test]
fn a_flush_writes_nothing_to_l2() {
    let dirty: Vec<u16> = (0..16).collect();
    let before = lent(&dirty, &[&[64, 0, 128], &[81, 17]]);
    let mut table = before;
    assert_eq!(Cache::over(&mut table).unwrap().flush_l1(), 40);
    assert_eq!(table[..16], [0; 16]);
    assert_eq!(table[16..], before[16..]);
}

/// A whole switch, the run's last: L1 and the kernel's sets are empty, and the other sets
/// as they were. Line 127 is the kernel's and was nowhere in L2.
#[test]
fn a_switch_writes_nothing_to_l2() {
    let mut desk = Desk::alone(&[]);
    let before = lent(&[32, 1, 2, 127], &[&[64, 0], &[96, 160], &[60, 124]]);
    desk.cache = before.to_vec();
    desk.step().unwrap();
    assert_eq!(desk.state.completed, 1);
    assert_eq!(desk.cache[..16], [0; 16]);
    assert_eq!(desk.cache[16..256], before[16..256]);
    assert_eq!(desk.cache[256..], [0; 16]);
}

/// What is written back is seen by the kinds of records and by the clock. Here the two
/// boards come to the same set and the same clock in the end.
#[test]
fn a_step_of_the_machine() {
    let mut desk = Desk::alone(&[Op::Read(256), Op::Read(0), Op::Read(192)]);
    desk.cache = lent(&[0], &[&[64, 128, 192, 256]]).to_vec();
    let mut old = desk.clone();
    for _ in 0..3 {
        desk.step().unwrap();
        old.run_on(Board::Old, 1).unwrap();
    }
    let expected = [("miss", 256, 104), ("hit2", 0, 114), ("miss", 192, 214)];
    assert_eq!(desk.seen(0), expected);
    assert_eq!(desk.set(0), [192, 0, 256, 64]);
    let expected = [("hit2", 256, 14), ("miss", 0, 114), ("miss", 192, 214)];
    assert_eq!(old.seen(0), expected);
    assert_eq!(old.set(0), [192, 0, 256, 64]);
}

/// All ways in which up to four of these lines can stand in a set.
fn arrangements(lines: &[u16]) -> Vec<Vec<u16>> {
    let mut all = vec![Vec::new()];
    let mut longest = all.clone();
    for _ in 0..4 {
        longest = longest
            .iter()
            .flat_map(|set| one_longer(set, lines))
            .collect();
        all.extend(longest.clone());
    }
    all
}

/// A set with each of the lines that it lacks behind its own.
fn one_longer(set: &[u16], lines: &[u16]) -> Vec<Vec<u16>> {
    let others = lines.iter().filter(|line| !set.contains(line));
    others.map(|line| [set, &[*line]].concat()).collect()
}

/// E7 in so many words, on a list: the line moves to the front of its set, or goes in at
/// the front, and a full set drops its last. Gives whether it was there.
fn to_front(set: &mut Vec<u16>, line: u16) -> bool {
    let place = set.iter().position(|held| *held == line);
    if let Some(place) = place {
        set.remove(place);
    }
    set.insert(0, line);
    set.truncate(4);
    place.is_some()
}

/// Every set of up to four of six lines, each of the six as the dirty line, and each as
/// the line that is asked for.
#[test]
fn every_way_in_one_set() {
    let lines = [0, 64, 128, 192, 256, 4_032];
    let sets = arrangements(&lines);
    assert_eq!(sets.len(), 1 + 6 + 30 + 120 + 360);
    for held in &sets {
        for dirty in lines {
            for asked in lines.into_iter().filter(|asked| *asked != dirty) {
                let mut table = lent(&[dirty], &[held]);
                let mut cache = Cache::over(&mut table).unwrap();
                let answer = cache.access(line(asked), Access::Read);
                let mut model = held.clone();
                to_front(&mut model, dirty);
                let found = to_front(&mut model, asked);
                let (found, ticks) = match found {
                    true => (Found::InL2, 14),
                    false => (Found::Nowhere, 104),
                };
                let expected = Accessed {
                    found,
                    ticks,
                    put_out: put_out(dirty),
                };
                assert_eq!(answer, expected);
                assert_eq!(set(&table, 0), model);
                assert_eq!(table, lent_clean(asked, &model));
            }
        }
    }
}

/// Every set of up to four of six lines again, where the line that is asked for is of
/// another set, which holds it in front, holds it further back, or lacks it.
#[test]
fn every_way_in_two_sets() {
    let lines = [16, 80, 144, 208, 272, 4_048];
    let others: [&[u16]; 4] = [&[], &[0, 64], &[64, 0], &[64, 128, 192, 256]];
    for held in arrangements(&lines) {
        for dirty in lines {
            for other in others {
                let mut table = lent(&[dirty], &[&held, other]);
                let mut cache = Cache::over(&mut table).unwrap();
                let answer = cache.access(line(0), Access::Write);
                let (mut model, mut asked) = (held.clone(), other.to_vec());
                to_front(&mut model, dirty);
                let ticks = if to_front(&mut asked, 0) { 14 } else { 104 };
                assert_eq!((answer.ticks, answer.put_out), (ticks, put_out(dirty)));
                assert_eq!(table, lent(&[0], &[&model, &asked]));
            }
        }
    }
}

/// A table with this clean line in L1, and with one L2 set.
fn lent_clean(near: u16, held: &[u16]) -> [u16; TABLE] {
    let mut table = lent(&[], &[held]);
    table[line(near).index()] = line(near).tag();
    table
}
