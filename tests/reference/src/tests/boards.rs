//! The new board beside the old one: document 02, E7. From a fresh start nothing shows
//! which one it is, on lent tables much does, and the latest ends of E6 stay as they were.

use super::desk::Desk;
use super::drawn::Drawn;
use super::latest::many_plans;
use crate::cache::{Board, PutOut, TABLE};
use crate::geometry::Line;
use crate::op::Op;
use crate::search::{search, Start};
use crate::tenant::Tenant;

/// Three domains that may all send to each other and that share all colours; each has
/// lines at every L1 index.
fn desk(drawn: &mut Drawn) -> Desk {
    let length = drawn.pick(&[300, 2_000, 9_000]);
    let mut text = String::from("(pad 376)\n(run 3)\n");
    for (domain, may) in ["1 2", "0 2", "0 1"].into_iter().enumerate() {
        text += &format!("(domain {domain}(share 333)(may {may}))\n");
        text += &format!("(window {domain}(length {length}))\n");
    }
    let mut desk = Desk::of(&text);
    for domain in 0..3 {
        let ops: Vec<Op> = (0..256).map(|_| random_op(drawn, domain)).collect();
        desk.put_ops(usize::from(domain), &ops);
    }
    desk
}

/// An op of a domain with the colours 5 * domain to 5 * domain + 4, mostly a write, and
/// mostly of lines that meet each other in L1 and in L2.
fn random_op(drawn: &mut Drawn, domain: u16) -> Op {
    let near = 20 * domain + drawn.pick(&[0, 1, 16, 17, 12, 13]);
    let line = near + 64 * drawn.below(6);
    let other = drawn.below(3) as u8;
    match drawn.below(8) {
        0 => Op::Read(line),
        1 => Op::Send { to: other, word: 1 },
        2 => Op::Receive { from: other },
        3 => Op::Read(20 * domain + drawn.below(20) + 64 * drawn.below(64)),
        _ => Op::Write(line),
    }
}

/// Puts the desk's tables into a sound state that no run from a fresh start reaches:
/// dirty lines of the domain that runs first and of the kernel, anywhere in their sets or
/// nowhere.
fn scatter(drawn: &mut Drawn, desk: &mut Desk) {
    for set in 0..64 {
        let first = drawn.below(6);
        for way in 0..drawn.below(5) {
            let above = (first + way) % 6;
            desk.cache[usize::from(16 + 4 * set + way)] = set + 64 * above + 1;
        }
    }
    for index in 0..16 {
        // Sets 0 to 19 are domain 0's own.
        let sets = [index, index, 16 + index % 4, 60 + index % 4];
        let fitting = sets.into_iter().filter(|set| set % 16 == index);
        let fitting: Vec<u16> = fitting.collect();
        let line = drawn.pick(&fitting) + 64 * drawn.below(6);
        let dirty = if drawn.one_in(4) { 0 } else { 32_768 };
        desk.cache[usize::from(index)] = dirty + line + 1;
    }
}

/// Whether each line of L1 is in front of its L2 set.
fn is_settled(table: &[u16]) -> bool {
    let held = table[..16].iter().filter(|held| **held != 0);
    let lines = held.map(|held| held & 32_767);
    lines
        .filter_map(Line::from_tag)
        .all(|line| table[16 + 4 * line.set()] == line.tag())
}

/// Both boards leave the same after every step: state, tables, boxes and log. A line that
/// is put out is in front of its set by then.
#[test]
fn from_a_fresh_start_nothing_shows() {
    let mut drawn = Drawn(7);
    let mut steps = 0;
    for _ in 0..60 {
        let mut new = desk(&mut drawn);
        let mut old = new.clone();
        loop {
            let progress = new.step().unwrap();
            assert_eq!(old.run_on(Board::Old, 1), Ok(progress));
            assert_eq!(new, old);
            assert!(is_settled(&new.cache));
            steps += progress.steps;
            if progress.steps == 0 {
                break;
            }
        }
    }
    assert!(steps > 10_000, "{steps}");
}

/// On most lent tables the very first steps differ.
#[test]
fn on_lent_tables_much_shows() {
    let mut drawn = Drawn(8);
    let mut shown = 0;
    for _ in 0..500 {
        let mut new = desk(&mut drawn);
        scatter(&mut drawn, &mut new);
        new.assert_let_through();
        let mut old = new.clone();
        for _ in 0..3 {
            new.step().unwrap();
            old.run_on(Board::Old, 1).unwrap();
            // What is left is a table like any other.
            new.assert_let_through();
        }
        shown += u32::from(new != old);
    }
    assert!(shown > 250, "{shown} of 500");
}

/// A board may be changed for the other in the middle of a run.
#[test]
fn single_steps_of_either_board() {
    let mut drawn = Drawn(9);
    for _ in 0..20 {
        let mut whole = desk(&mut drawn);
        let mut pieces = whole.clone();
        let steps = whole.run(u64::MAX).unwrap().steps;
        for _ in 0..steps {
            let board = drawn.pick(&[Board::New, Board::Old]);
            pieces.run_on(board, 1).unwrap();
        }
        assert_eq!(pieces, whole);
    }
}

/// The lines that an op puts out are those that L1 held dirty and holds no more, and both
/// boards answer the same ones. Neither touches a set of another domain.
#[test]
fn what_an_op_puts_out() {
    let mut drawn = Drawn(10);
    let mut counts = [0; 3];
    for _ in 0..500 {
        let mut desk = desk(&mut drawn);
        scatter(&mut drawn, &mut desk);
        let new = Tenant::of(&desk.plan, 0);
        let old = Tenant::on(Board::Old, &desk.plan, 0);
        let before: [u16; TABLE] = desk.cache[..].try_into().unwrap();
        for number in &desk.scripts[..20] {
            let op = Op::from_stored(*number).unwrap();
            let (mut table, mut other) = (before, before);
            let (here, there) = (new.play(&mut table, op), old.play(&mut other, op));
            assert_eq!(here.put_out, there.put_out);
            assert_eq!(table[..16], other[..16]);
            // Sets 20 to 59 are those of domains 1 and 2.
            assert_eq!(table[96..256], before[96..256]);
            let replaced = |index: &usize| before[*index] & 32_767 != table[*index] & 32_767;
            let gone = (0..16).filter(|index| before[*index] >= 32_768 && replaced(index));
            let gone: Vec<_> = gone.map(|index| before[index] & 32_767).collect();
            let put_out = here.put_out.iter().filter_map(|put_out| match put_out {
                PutOut::Nothing => None,
                PutOut::Dirty(line) => Some(line.tag()),
            });
            assert!(put_out.eq(gone.iter().copied()));
            counts[gone.len()] += 1;
        }
    }
    assert!(counts.iter().all(|count| *count > 500), "{counts:?}");
}

/// The search of E6 finds the same ticks on both boards, by the same moves.
#[test]
fn the_latest_ends_are_the_same() {
    for (plan, domain) in many_plans() {
        let new = Tenant::of(&plan, domain as usize);
        let old = Tenant::on(Board::Old, &plan, domain as usize);
        for start in [Start::Bare, Start::Touched] {
            assert_eq!(search(&new, start), search(&old, start));
        }
    }
}
