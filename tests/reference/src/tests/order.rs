//! The order of refusals: document 01, "The plan text". The reader's own order
//! is in the tests of readings and of colour totals; here are 11, 12, 13, 14 and
//! last 4.

use super::desk::{Desk, WORKED};
use crate::{Plan, Refusal};

/// A desk on which everything is wrong from one refusal on.
fn wrong_from(first: u32) -> Desk {
    let mut desk = Desk::of(WORKED);
    if first <= 14 {
        desk.state.clock = u64::MAX;
    }
    if first <= 13 {
        desk.boxes[0] = 1;
    }
    if first <= 12 {
        desk.plan.pad = 375;
    }
    if first <= 11 {
        desk.cache.pop();
    }
    desk
}

#[test]
fn steps_and_runs() {
    wrong_from(11).assert_refused(Refusal::TableLength);
    wrong_from(12).assert_refused(Refusal::Plan);
    wrong_from(13).assert_refused(Refusal::Damaged);
    wrong_from(14).assert_refused(Refusal::State);
    wrong_from(15).assert_let_through();
}

#[test]
fn each_table_of_a_step_has_its_length() {
    let changes: [fn(&mut Desk, usize); 3] = [
        |desk, length| desk.scripts.resize(length, 0),
        |desk, length| desk.cache.resize(length, 0),
        |desk, length| desk.boxes.resize(length, 0),
    ];
    for (change, right) in changes.into_iter().zip([2_048, 272, 64]) {
        for length in [0, 1, right / 2, right - 1, right + 1, right + 4, 2 * right] {
            for mut desk in [wrong_from(12), wrong_from(15)] {
                change(&mut desk, length);
                desk.assert_refused(Refusal::TableLength);
            }
        }
        let mut desk = wrong_from(15);
        change(&mut desk, right);
        desk.assert_let_through();
    }
}

#[test]
fn fresh_starts() {
    let mut desk = wrong_from(11);
    let before = desk.clone();
    assert_eq!(desk.fresh_start(), Err(Refusal::TableLength));
    assert_eq!(desk, before);

    let mut desk = wrong_from(12);
    desk.boxes.push(0);
    let before = desk.clone();
    assert_eq!(desk.fresh_start(), Err(Refusal::TableLength));
    assert_eq!(desk, before);

    let mut desk = wrong_from(12);
    let before = desk.clone();
    assert_eq!(desk.fresh_start(), Err(Refusal::Plan));
    assert_eq!(desk, before);

    assert_eq!(wrong_from(13).fresh_start(), Ok(()));
    assert_eq!(wrong_from(14).fresh_start(), Ok(()));
}

#[test]
fn askings() {
    for domain in [0, 2] {
        assert_eq!(wrong_from(11).log_of(domain), Err(Refusal::Plan));
        assert_eq!(wrong_from(12).log_of(domain), Err(Refusal::Plan));
        assert_eq!(wrong_from(13).log_of(domain), Err(Refusal::State));
        assert_eq!(wrong_from(14).log_of(domain), Err(Refusal::State));
    }
    assert!(wrong_from(15).log_of(0).is_ok());
    let undeclared = Refusal::Domain { at: 0 };
    assert_eq!(wrong_from(15).log_of(2), Err(undeclared));
    assert_eq!((undeclared.number(), undeclared.companion()), (4, 0));
}

#[test]
fn a_plan_just_refused_is_refused_again() {
    let mut desk = Desk::of(WORKED);
    desk.plan = Plan::default();
    desk.assert_refused(Refusal::Plan);
    assert_eq!(desk.fresh_start(), Err(Refusal::Plan));
}

#[test]
fn numbers_and_companions() {
    let all = [
        (Refusal::TooLong, (1, 0)),
        (Refusal::Shape { at: 7 }, (2, 7)),
        (Refusal::Number { at: 7 }, (3, 7)),
        (Refusal::Domain { at: 7 }, (4, 7)),
        (Refusal::Once { at: 7 }, (5, 7)),
        (Refusal::NoColour { domain: 7 }, (6, 7)),
        (Refusal::Shares { sum: 1_007 }, (7, 1_007)),
        (Refusal::Recipient { at: 7 }, (8, 7)),
        (Refusal::Ticks, (9, 0)),
        (Refusal::TooMany { at: 7 }, (10, 7)),
        (Refusal::TableLength, (11, 0)),
        (Refusal::Plan, (12, 0)),
        (Refusal::Damaged, (13, 0)),
        (Refusal::State, (14, 0)),
        (Refusal::Frame, (15, 0)),
        (Refusal::Colours { total: 17 }, (16, 17)),
    ];
    for (refusal, expected) in all {
        assert_eq!((refusal.number(), refusal.companion()), expected);
    }
}
