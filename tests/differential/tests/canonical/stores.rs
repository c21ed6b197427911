//! Plans and stores that no text gives, and numbers where they may and may not stand.

use crate::trial::{assert_told, lent, Trial};
use pirkvezo_differential::canonical::call::WriteCall;
use pirkvezo_differential::engine::{Reference, SCRIPTS};
use pirkvezo_differential::generate::bounds::spoil_plan;
use pirkvezo_differential::generate::canonical::short_sketch;
use pirkvezo_differential::generate::sketch::Act;
use pirkvezo_differential::generate::write_calls::{lent_to_write, random_write_call, spoil_store};
use pirkvezo_differential::seed::cases;

fn assert_refused(change: impl Fn(&mut WriteCall), number: u64) {
    assert_told(&change, [number, 0, 0, 0]);
    // All of it comes before 17.
    let without_room = |call: &mut WriteCall| {
        change(call);
        call.out.set_length(0);
    };
    assert_told(without_room, [number, 0, 0, 0]);
}

#[test]
fn fixed_refusals() {
    for length in [0, 1, 256, 1_792, 2_047, 2_049, 4_096] {
        assert_refused(|call| call.scripts.set_length(length), 11);
        let both = |call: &mut WriteCall| {
            call.scripts.set_length(length);
            call.plan.fill(0);
        };
        assert_refused(both, 11);
    }
    for length in [0, 1, 91, 93, 184] {
        assert_refused(|call| call.plan.set_length(length), 11);
    }
    assert_refused(|call| call.plan.fill(0), 12);
    assert_refused(|call| call.plan[0] = 276, 12);
    assert_refused(|call| call.plan[0] = 375, 12);
    assert_refused(|call| call.plan[1] = 1_001, 12);
    assert_refused(|call| call.plan[2] = 3, 12);
    assert_refused(|call| call.plan[3] = 33, 12);
    assert_refused(|call| call.plan[12] = 0b11, 12);
    assert_refused(|call| call.plan[12] = 0b110, 12);
    assert_refused(|call| call.plan[84] = 0b1_1111, 12);
    assert_refused(|call| call.plan[91] = 1, 12);
    // At an end, behind it, at a script's last place; an op taken out.
    for number in [1, 0x10_0000, 0x50_0000, 0x50_00c9, u32::MAX] {
        for place in [4, 255, 259, 511] {
            assert_refused(|call| call.scripts[place] = number, 12);
        }
    }
    assert_refused(|call| call.scripts[3] = 1, 12);
    assert_refused(|call| call.scripts[3] = 0x60_0000, 12);
    assert_refused(|call| call.scripts[1] = 0, 12);
    assert_refused(|call| call.scripts[256] = 0, 12);
    // Anything of a domain that is not declared.
    for place in [512, 513, 767, 768, 1_792, 2_047] {
        assert_refused(|call| call.scripts[place] = 0x10_0003, 12);
        assert_refused(|call| call.scripts[place] = 1, 12);
    }
}

/// Anything in all rows.
#[test]
fn random_calls() {
    let mut trial = Trial::new();
    for (case, mut rng) in cases("random writings", 8_000) {
        trial.call(&random_write_call(&mut rng), &case);
    }
    trial.finish("random writings", &[0, 11, 12, 17]);
}

#[test]
fn damaged_stores() {
    let mut trial = Trial::new();
    for (case, mut rng) in cases("writings of damaged stores", 6_000) {
        let sketch = short_sketch(&mut rng);
        let mut call = lent_to_write(&mut rng, &sketch);
        spoil_store(&mut rng, sketch.members.len(), &mut call.scripts);
        trial.call(&call, &case);
    }
    trial.finish("writings of damaged stores", &[0, 12, 17]);
}

#[test]
fn impossible_plans() {
    let mut trial = Trial::new();
    for (case, mut rng) in cases("writings of other plans", 6_000) {
        let sketch = short_sketch(&mut rng);
        let mut call = lent_to_write(&mut rng, &sketch);
        spoil_plan(&mut rng, &mut call.plan);
        trial.call(&call, &case);
    }
    trial.finish("writings of other plans", &[0, 12, 17]);
}

/// One number at every place of a store without ops, and of one whose scripts have
/// one op each. What is no op of a declared domain in its turn is 12.
#[test]
fn a_number_at_every_place() {
    let mut trial = Trial::new();
    let plan = lent(&Reference).plan;
    let (op, no_op) = (Act::Read(7).stored(), 7);
    let mut empty = [0; SCRIPTS];
    let mut begun = empty;
    (begun[0], begun[256]) = (op, op);
    for place in 0..SCRIPTS {
        for (store, ops) in [(&mut empty, 0), (&mut begun, 1)] {
            let before = store[place];
            for number in [op, no_op] {
                store[place] = number;
                let in_turn = place < 512 && place % 256 <= ops;
                let due = if number == op && in_turn { 0 } else { 12 };
                let call = WriteCall::new(&plan, store.as_slice(), 300);
                assert_eq!(trial.call(&call, &place).0, due, "{place}");
            }
            store[place] = before;
        }
    }
    trial.finish("a number at every place", &[0, 12]);
}

/// Every kind with every other domain, and values at their limits: as the third
/// number of a script, in a domain that is declared and in one that is not.
#[test]
fn numbers_at_their_limits() {
    let mut trial = Trial::new();
    let plan = lent(&Reference).plan;
    let values = [
        0, 1, 9, 10, 99, 100, 199, 200, 201, 255, 256, 9_999, 10_000, 65_535,
    ];
    for kind in (0..=17).chain([4_095]) {
        for other in 0..16 {
            for value in values {
                let is_op = match kind {
                    1 | 2 => other == 0,
                    3 => other < 8,
                    4 => other < 8 && value == 0,
                    5 => other == 0 && (1..=200).contains(&value),
                    _ => false,
                };
                let number = kind << 20 | other << 16 | value;
                let script = 256 * (value as usize % 2);
                let mut store = [0; SCRIPTS];
                store[script..script + 2].fill(Act::Compute(9).stored());
                store[script + 2] = number;
                let due = if is_op || number == 0 { 0 } else { 12 };
                let call = WriteCall::new(&plan, &store, 300);
                assert_eq!(trial.call(&call, &number).0, due, "{number}");
                store.copy_within(0..512, 512);
                store[..512].fill(0);
                let call = WriteCall::new(&plan, &store, 300);
                assert_eq!(trial.call(&call, &number).0, 12, "{number}");
            }
        }
    }
    trial.finish("numbers at their limits", &[0, 12]);
}
