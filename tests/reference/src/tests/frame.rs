//! Frames by weights: document 02, E1.

use crate::frame::{make_frame, write_frame, Frame};
use crate::Refusal;

/// Weights whose missing ones are 0.
fn weights(first: &[u32]) -> [u32; 8] {
    let mut weights = [0; 8];
    weights[..first.len()].copy_from_slice(first);
    weights
}

/// The windows of an accepted frame; the rest of it must be 0.
fn laid(count: u32, first: &[u32]) -> Vec<u32> {
    let frame = make_frame(count, weights(first)).expect("a frame");
    let (laid, rest) = frame.split_at(count as usize);
    assert!(rest.iter().all(|number| *number == 0), "{frame:?}");
    laid.to_vec()
}

/// How many windows each domain has.
fn counted(laid: &[u32]) -> [usize; 8] {
    std::array::from_fn(|domain| laid.iter().filter(|own| **own == domain as u32).count())
}

fn is_refused(count: u32, weights: [u32; 8]) -> bool {
    match make_frame(count, weights) {
        Ok(_) => false,
        Err(refusal) => {
            assert_eq!((refusal.number(), refusal.companion()), (15, 0));
            true
        }
    }
}

#[test]
fn turns_and_who_is_left_in_them() {
    assert_eq!(laid(7, &[3, 2, 2]), [0, 1, 2, 0, 1, 2, 0]);
    assert_eq!(laid(5, &[0, 0, 7, 0, 0, 0, 0, 1]), [2, 7, 2, 2, 2]);
    assert_eq!(laid(1, &[1; 8]), [0]);
    assert_eq!(laid(6, &[1_000, 1, 1]), [0; 6]);
    assert_eq!(laid(8, &[5; 8]), [0, 1, 2, 3, 4, 5, 6, 7]);
    assert_eq!(laid(6, &[1, 2, 3]), [0, 1, 2, 1, 2, 2]);
}

#[test]
fn who_gets_a_window_more() {
    assert_eq!(counted(&laid(10, &[1; 3]))[..3], [4, 3, 3]);
    let four = counted(&laid(32, &[500, 300, 150, 50]));
    assert_eq!(four[..4], [16, 10, 5, 1]);
    // Quotas of 4/5, 6/5 and 10/5: one window is left, and the first has the
    // largest remainder though the smallest weight.
    assert_eq!(counted(&laid(4, &[2, 3, 5]))[..3], [1, 1, 2]);
    // Quotas of 9/5, 3/5 and 3/5: two are left; domain 1 comes before its equal.
    assert_eq!(counted(&laid(3, &[3, 1, 1]))[..3], [2, 1, 0]);
    // The same remainder beside another weight counts as equal too: 6/4 and 10/4.
    assert_eq!(counted(&laid(4, &[3, 5]))[..2], [2, 2]);
    assert_eq!(counted(&laid(4, &[5, 3]))[..2], [3, 1]);
}

#[test]
fn limits_of_the_count() {
    for count in 1..=32 {
        assert_eq!(laid(count, &[1]).len(), count as usize);
    }
    for count in [0, 33, 34, 64, 257, 65_537, 1 << 31, u32::MAX] {
        for weights in [[1; 8], [0; 8], [1_000; 8], [1_001; 8]] {
            assert!(is_refused(count, weights), "{count}");
        }
    }
}

#[test]
fn limits_of_each_weight() {
    for domain in 0..8 {
        let with = |weight| {
            let mut weights = [0, 1, 0, 1_000, 0, 0, 7, 0];
            weights[domain] = weight;
            weights
        };
        for count in [1, 32] {
            for weight in [0, 1, 999, 1_000] {
                assert!(!is_refused(count, with(weight)), "{domain}: {weight}");
            }
            for weight in [1_001, 1_002, 65_536, 1 << 31, u32::MAX] {
                assert!(is_refused(count, with(weight)), "{domain}: {weight}");
            }
        }
    }
}

#[test]
fn no_weight_at_all_is_refused() {
    for count in 0..=33 {
        assert!(is_refused(count, [0; 8]));
        for domain in 0..8 {
            let mut alone = [0; 8];
            alone[domain] = 1;
            let expected = (1..=32).contains(&count);
            assert_eq!(is_refused(count, alone), !expected);
            if expected {
                let own = vec![domain as u32; count as usize];
                assert_eq!(laid(count, &alone), own);
            }
        }
    }
}

/// Asserts what the planners were promised of this frame.
fn assert_promises(count: u32, weights: [u32; 8]) {
    let laid = laid(count, &weights);
    let scene = || format!("{count} windows by {weights:?}: {laid:?}");
    let got = counted(&laid);
    let total: u32 = weights.iter().sum();
    assert_eq!(got.iter().sum::<usize>(), count as usize, "{}", scene());
    let whole = weights.map(|weight| (count * weight / total) as usize);
    let rest = weights.map(|weight| count * weight % total);
    for domain in 0..8 {
        let more = got[domain].wrapping_sub(whole[domain]);
        assert!(more <= 1, "{}", scene());
        assert!(weights[domain] > 0 || got[domain] == 0, "{}", scene());
        for other in (0..8).filter(|other| got[*other] == whole[*other] && more == 1) {
            let first = rest[domain] > rest[other];
            let equal = rest[domain] == rest[other] && domain < other;
            assert!(first || equal, "{}", scene());
        }
    }
    // A domain's k-th window stands in the k-th turn, and a turn's go upwards.
    let turn = |at: usize| laid[..at].iter().filter(|own| **own == laid[at]).count();
    let in_turns = (1..laid.len()).all(|at| (turn(at - 1), laid[at - 1]) < (turn(at), laid[at]));
    assert!(in_turns, "{}", scene());
}

#[test]
fn promises_on_small_weights() {
    for choice in 1..4_u32.pow(8) {
        let weights = std::array::from_fn(|domain| choice >> (2 * domain) & 3);
        assert_promises(1 + choice % 32, weights);
    }
}

#[test]
fn promises_on_all_weights() {
    let strides = [1, 10, 77, 143, 358, 500, 613, 999];
    for start in 1..=1_000 {
        let weights = strides.map(|stride| start * stride % 1_001);
        for count in 1..=32 {
            assert_promises(count, weights);
        }
    }
}

#[test]
fn rows_that_are_lent() {
    let before: Frame = std::array::from_fn(|at| 0xdead_0000 + at as u32);
    let mut frame = before;
    assert_eq!(write_frame(7, &weights(&[3, 2, 2]), &mut frame), Ok(()));
    assert_eq!(make_frame(7, weights(&[3, 2, 2])), Ok(frame));
    for (count, weight) in [(0, 1), (33, 1), (7, 1_001), (7, 0)] {
        let mut frame = before;
        let refused = write_frame(count, &[weight; 8], &mut frame);
        assert_eq!((refused, frame), (Err(Refusal::Frame), [0; 32]));
    }
}

#[test]
fn rows_of_another_length() {
    for (own, room) in [(0, 32), (7, 32), (9, 32), (8, 0), (8, 31), (8, 33), (9, 31)] {
        for (count, weight) in [(7, 1), (33, 1), (7, 1_001), (7, 0)] {
            let mut frame = vec![0xdead_beef; room];
            let refused = write_frame(count, &vec![weight; own], &mut frame);
            assert_eq!(refused, Err(Refusal::TableLength));
            assert_eq!(frame, vec![0xdead_beef; room]);
        }
    }
}
