//! Plans and states as plain numbers and back.

use super::desk::{Desk, WORKED};
use crate::flat::{plan_from_flat, plan_to_flat, state_from_flat, state_to_flat};
use crate::state::Counts;

#[test]
fn the_worked_plan() {
    let plan = Desk::of(WORKED).plan;
    let flat = plan_to_flat(&plan);
    let mut expected = [0; 92];
    expected[..6].copy_from_slice(&[376, 1, 2, 2, 400, 300]);
    expected[12] = 0b10;
    expected[20..22].copy_from_slice(&[0, 1]);
    expected[52..54].copy_from_slice(&[400, 300]);
    expected[84..86].copy_from_slice(&[0b111111, 0b11111000000]);
    assert_eq!(flat, expected);
    assert_eq!(plan_from_flat(&flat), Some(plan));
}

#[test]
fn the_largest_plan() {
    // Seven times two colours and once one: all fifteen.
    let domains: String = (0..8)
        .map(|own| {
            let may: String = (0..8)
                .filter(|other| *other != own)
                .map(|other| format!(" {other}"))
                .collect();
            let share = if own < 7 { 125 } else { 99 };
            format!("(domain {own}(share {share})(may{may}))\n")
        })
        .collect();
    let windows: String = (0..32)
        .map(|place| format!("(window {}(length {}))\n", place % 8, place + 1))
        .collect();
    let plan = Desk::of(&format!("(pad 376)\n(run 1000)\n{domains}{windows}")).plan;
    let flat = plan_to_flat(&plan);
    assert_eq!(plan_from_flat(&flat), Some(plan));
    assert_eq!(flat[12..20], [254, 253, 251, 247, 239, 223, 191, 127]);
    assert_eq!(flat[84], 0b11);
    assert_eq!(flat[91], 1 << 14);
    assert_eq!((flat[51], flat[83]), (7, 32));
}

#[test]
fn impossible_numbers_are_kept() {
    let mut flat = plan_to_flat(&Desk::of(WORKED).plan);
    for place in [0, 1, 4, 5, 12, 13, 20, 21, 52, 53, 84, 85] {
        flat[place] = u32::MAX - place as u32;
    }
    let plan = plan_from_flat(&flat).unwrap();
    assert_eq!(plan_to_flat(&plan), flat);
    assert!(!plan.is_possible());
}

#[test]
fn states() {
    let numbers: [u64; 18] = std::array::from_fn(|place| u64::MAX - place as u64);
    let state = state_from_flat(&numbers);
    assert_eq!((state.completed, state.clock), (u64::MAX, u64::MAX - 1));
    let last = Counts {
        position: u64::MAX - 9,
        records: u64::MAX - 17,
    };
    assert_eq!(state.counts[7], last);
    assert_eq!(state_to_flat(&state), numbers);
}
