//! Each clause of refusal 14 at its edge: document 01, "The plan text".

use super::desk::{Desk, WORKED};
use crate::{Refusal, State};

/// Every way in that takes the state refuses it so.
fn assert_impossible(desk: &Desk) {
    desk.assert_refused(Refusal::State);
    for domain in [0, 1, 2, u32::MAX] {
        assert_eq!(desk.log_of(domain), Err(Refusal::State));
    }
}

fn assert_possible(desk: &Desk) {
    desk.assert_let_through();
    assert!(desk.log_of(0).is_ok());
}

fn with_state(change: impl FnOnce(&mut State)) -> Desk {
    let mut desk = Desk::of(WORKED);
    change(&mut desk.state);
    desk
}

fn at(completed: u64, clock: u64) -> Desk {
    with_state(|state| (state.completed, state.clock) = (completed, clock))
}

#[test]
fn clocks_of_the_first_window() {
    assert_possible(&at(0, 0));
    assert_possible(&at(0, 400));
    assert_possible(&at(0, 612));
    for clock in [613, 775, 776, 4_294_967_296, u64::MAX] {
        assert_impossible(&at(0, clock));
    }
}

#[test]
fn clocks_of_the_second_window() {
    assert_possible(&at(1, 776));
    assert_possible(&at(1, 776 + 300 + 212));
    for clock in [0, 775, 776 + 300 + 213, 1_452, u64::MAX] {
        assert_impossible(&at(1, clock));
    }
}

#[test]
fn the_clock_after_the_end() {
    assert_possible(&at(2, 1_452));
    for clock in [0, 1_076, 1_451, 1_453, u64::MAX] {
        assert_impossible(&at(2, clock));
    }
}

#[test]
fn windows_above_the_total() {
    for completed in [3, 4, 4_294_967_296, u64::MAX] {
        for clock in [0, 1_452, u64::MAX] {
            assert_impossible(&at(completed, clock));
        }
    }
}

#[test]
fn clocks_of_later_passes() {
    let text = "(pad 400)\n(run 1000)\n(domain 0(share 500)(may))\n\
                (window 0(length 10))\n(window 0(length 20))\n";
    let at = |completed, clock| {
        let mut desk = Desk::of(text);
        (desk.state.completed, desk.state.clock) = (completed, clock);
        desk
    };
    for (completed, start, length) in [(2, 830, 10), (3, 1_240, 20), (1_999, 829_580, 20)] {
        assert_possible(&at(completed, start));
        assert_possible(&at(completed, start + length + 212));
        assert_impossible(&at(completed, start - 1));
        assert_impossible(&at(completed, start + length + 213));
    }
    assert_possible(&at(2_000, 830_000));
    assert_impossible(&at(2_000, 830_001));
    assert_impossible(&at(2_001, 830_000));
}

#[test]
fn positions() {
    for domain in 0..2 {
        for position in [0, 255, 256] {
            assert_possible(&with_state(|state| {
                state.counts[domain].position = position;
            }));
        }
        for position in [257, 65_536, 4_294_967_296, u64::MAX] {
            assert_impossible(&with_state(|state| {
                state.counts[domain].position = position;
            }));
        }
    }
}

#[test]
fn records() {
    // The log has 16,384 bytes, so each part holds 1,024 records.
    for domain in 0..2 {
        let with = |records| with_state(|state| state.counts[domain].records = records);
        for records in [0, 257, 1_024] {
            assert_possible(&with(records));
        }
        for records in [1_025, 4_294_967_296, u64::MAX] {
            assert_impossible(&with(records));
        }
        let mut desk = with(1_024);
        desk.log.truncate(16_383);
        assert_impossible(&desk);
        let mut desk = with(1);
        desk.log.truncate(16);
        assert_possible(&desk);
        desk.log.truncate(15);
        assert_impossible(&desk);
    }
}

#[test]
fn counts_of_undeclared_domains() {
    for domain in 2..8 {
        for count in [1, 256, 257, u64::MAX] {
            assert_impossible(&with_state(|state| state.counts[domain].position = count));
            assert_impossible(&with_state(|state| state.counts[domain].records = count));
        }
    }
}
