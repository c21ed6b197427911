//! Each clause of refusal 13 at its edge: document 01, "The plan text".

use super::desk::{Desk, WORKED};
use crate::Refusal;

/// The worked run in domain 0's window, whose colours are 0 to 5.
fn desk() -> Desk {
    let mut desk = Desk::of(WORKED);
    desk.run(2).unwrap();
    desk.cache.fill(0);
    desk.assert_let_through();
    desk
}

fn with_cache(entries: &[(usize, u16)]) -> Desk {
    let mut desk = desk();
    for (place, held) in entries {
        desk.cache[*place] = *held;
    }
    desk
}

/// The table's place of an L2 entry.
fn l2(set: usize, way: usize) -> usize {
    16 + 4 * set + way
}

/// What a table holds for a line.
fn tag(line: u16) -> u16 {
    line + 1
}

#[test]
fn numbers_that_stand_for_no_line() {
    // 4,096 stands for line 4,095: index 15, set 63, the kernel's colour.
    with_cache(&[(15, 4_096)]).assert_let_through();
    with_cache(&[(15, 32_768 + 4_096)]).assert_let_through();
    with_cache(&[(l2(63, 0), 4_096)]).assert_let_through();
    for held in [4_097, 8_192, 32_767, 32_768, 32_768 + 4_097, 65_535] {
        for index in 0..16 {
            with_cache(&[(index, held)]).assert_refused(Refusal::Damaged);
        }
        for set in 0..64 {
            with_cache(&[(l2(set, 0), held)]).assert_refused(Refusal::Damaged);
        }
    }
}

#[test]
fn l2_bears_no_dirty_mark() {
    with_cache(&[(l2(0, 0), tag(0))]).assert_let_through();
    with_cache(&[(l2(0, 0), 32_768 + tag(0))]).assert_refused(Refusal::Damaged);
}

#[test]
fn lines_of_another_set() {
    for set in 0..64u16 {
        let place = l2(usize::from(set), 0);
        with_cache(&[(place, tag(set))]).assert_let_through();
        with_cache(&[(place, tag(4_032 + set))]).assert_let_through();
        with_cache(&[(place, tag((set + 1) % 64))]).assert_refused(Refusal::Damaged);
        with_cache(&[(place, tag((set + 32) % 64))]).assert_refused(Refusal::Damaged);
    }
}

#[test]
fn repeats_in_a_set() {
    let full = [(0, 3), (1, 67), (2, 131), (3, 195)];
    let entries = full.map(|(way, line)| (l2(3, way), tag(line)));
    with_cache(&entries).assert_let_through();
    for first in 0..4 {
        for second in first + 1..4 {
            let mut entries = entries;
            entries[second].1 = entries[first].1;
            with_cache(&entries).assert_refused(Refusal::Damaged);
        }
    }
}

#[test]
fn empties_before_a_line() {
    for held in 0..16u16 {
        let entries: Vec<_> = (0..4u16)
            .filter(|way| held >> way & 1 == 1)
            .map(|way| (l2(3, usize::from(way)), tag(3 + 64 * way)))
            .collect();
        match held {
            0b0000 | 0b0001 | 0b0011 | 0b0111 | 0b1111 => with_cache(&entries).assert_let_through(),
            _ => with_cache(&entries).assert_refused(Refusal::Damaged),
        }
    }
}

#[test]
fn lines_of_another_index() {
    for index in 0..16 {
        for line in 0..16 {
            let desk = with_cache(&[(index, tag(line))]);
            match usize::from(line) == index {
                true => desk.assert_let_through(),
                false => desk.assert_refused(Refusal::Damaged),
            }
        }
    }
}

#[test]
fn lines_of_another_colour() {
    for line in 0..64 {
        for dirty in [0, 32_768] {
            let desk = with_cache(&[(usize::from(line % 16), dirty + tag(line))]);
            match line / 4 {
                0..=5 | 15 => desk.assert_let_through(),
                _ => desk.assert_refused(Refusal::Damaged),
            }
        }
    }
}

#[test]
fn the_running_domain_is_the_lent_states() {
    // Line 24 is of colour 6, domain 1's; line 0 is domain 0's.
    let mut desk = Desk::of(WORKED);
    desk.run(4).unwrap();
    assert_eq!(desk.state.completed, 1);
    desk.cache[8] = tag(24);
    desk.assert_let_through();
    desk.cache[0] = tag(0);
    desk.assert_refused(Refusal::Damaged);
    desk.state = Default::default();
    desk.assert_refused(Refusal::Damaged);
    desk.cache[8] = 0;
    desk.assert_let_through();
}

#[test]
fn any_line_in_l1_after_the_end() {
    let mut desk = Desk::of(WORKED);
    desk.run(u64::MAX).unwrap();
    desk.assert_let_through();
    for line in [0, 12, 60] {
        let mut desk = desk.clone();
        desk.cache[usize::from(line % 16)] = tag(line);
        desk.assert_refused(Refusal::Damaged);
    }
}

#[test]
fn windows_above_the_total() {
    for completed in [3, 4, 1_000, u64::MAX] {
        let mut desk = Desk::of(WORKED);
        desk.state.completed = completed;
        desk.assert_refused(Refusal::State);
        desk.cache[0] = tag(0);
        desk.assert_refused(Refusal::Damaged);
    }
}

#[test]
fn l2_lines_of_any_domain_are_no_damage() {
    // Sets of nobody's colour, of the other domain's and of the kernel's, and a
    // line in L1 that L2 lacks.
    let entries = [
        (l2(59, 0), tag(59)),
        (l2(30, 0), tag(30)),
        (l2(62, 0), tag(62)),
        (2, tag(2)),
    ];
    with_cache(&entries).assert_let_through();
}

#[test]
fn boxes() {
    let desk = desk();
    for held in [1, 2, 65_535, 65_536] {
        let mut desk = desk.clone();
        desk.boxes[1] = held;
        desk.assert_let_through();
    }
    for held in [65_537, 65_538, 131_072, u32::MAX] {
        let mut desk = desk.clone();
        desk.boxes[1] = held;
        desk.assert_refused(Refusal::Damaged);
    }
    for place in (0..64).filter(|place| *place != 1) {
        for held in [1, 65_536, 65_537] {
            let mut desk = desk.clone();
            desk.boxes[place] = held;
            desk.assert_refused(Refusal::Damaged);
        }
    }
}

#[test]
fn an_asking_and_a_fresh_start_do_not_look_at_tables() {
    let mut desk = desk();
    desk.cache.fill(u16::MAX);
    desk.boxes.fill(u32::MAX);
    assert!(desk.log_of(0).is_ok());
    assert_eq!(desk.fresh_start(), Ok(()));
}
