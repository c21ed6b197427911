//! Plans that the reader could not give are refusal 12: document 01, "The plan
//! text" and "Two lists of calls", and document 02, E2.

use super::desk::{Desk, WORKED};
use crate::colours::Colours;
use crate::flat::{plan_from_flat, plan_to_flat};
use crate::plan::{Domain, Recipients, Window};
use crate::{Plan, Refusal, State};

/// Every way in that takes the plan refuses it.
fn assert_impossible(plan: Plan) {
    let mut desk = Desk::of(WORKED);
    desk.plan = plan;
    desk.assert_refused(Refusal::Plan);
    let before = desk.clone();
    assert_eq!(desk.fresh_start(), Err(Refusal::Plan));
    assert_eq!(desk, before);
    for domain in [0, 9] {
        assert_eq!(desk.log_of(domain), Err(Refusal::Plan));
    }
}

fn worked() -> Plan {
    Desk::of(WORKED).plan
}

fn with(change: impl FnOnce(&mut Plan)) -> Plan {
    let mut plan = worked();
    change(&mut plan);
    plan
}

#[test]
fn the_empty_plan() {
    assert_impossible(Plan::default());
    assert_eq!(plan_to_flat(&Plan::default()), [0; 92]);
    assert_eq!(plan_from_flat(&[0; 92]), Some(Plan::default()));
}

#[test]
fn single_numbers_past_their_limits() {
    for pad in [0, 275, 276, 375, 1_000_001, u32::MAX] {
        assert_impossible(with(|plan| plan.pad = pad));
    }
    for run in [0, 1_001, u32::MAX] {
        assert_impossible(with(|plan| plan.run = run));
    }
    for length in [0, 1_000_001, u32::MAX] {
        assert_impossible(with(|plan| plan.windows[1].length = length));
    }
    for domain in [2, 7, 8, u32::MAX] {
        assert_impossible(with(|plan| plan.windows[0].domain = domain));
    }
    for share in [0, 1, 33, 601, 1_001, u32::MAX] {
        assert_impossible(with(|plan| plan.domains[1].share = share));
    }
}

#[test]
fn colours_that_the_shares_do_not_give() {
    for colours in [0, 0b1, 0b111110, 0b1111111, 0xffff, 0x1_003f, u32::MAX] {
        assert_impossible(with(|plan| plan.domains[0].colours.0 = colours));
    }
    // 367 to 433 thousandths all give six colours.
    for (share, possible) in [(366, false), (367, true), (433, true), (434, false)] {
        let plan = with(|plan| plan.domains[0].share = share);
        assert_eq!(plan.is_possible(), possible, "{share}");
    }
}

/// The worked plan with domains of these shares, which hold these colours.
fn divided(domains: &[(u32, u32)]) -> Plan {
    with(|plan| {
        let domains = domains.iter().map(|(share, colours)| Domain {
            share: *share,
            may: Recipients::default(),
            colours: Colours(*colours),
        });
        plan.domains = domains.collect();
    })
}

#[test]
fn shares_that_give_too_many_colours() {
    // Two times eight. The second mask runs into the kernel's colour, is cut off
    // there, begins in the first, is the first, or is none.
    for second in [0xff00, 0x7f00, 0x7f80, 0x00ff, 0] {
        assert_impossible(divided(&[(500, 0x00ff), (500, second)]));
    }
    // Seven each, as if halves went down.
    assert_impossible(divided(&[(500, 0x007f), (500, 0x3f80)]));
    // Seven times two and five more: 19 colours.
    for cut in [u32::MAX, 0xffff, 0x7fff] {
        let pairs = (0..7).map(|own| (100, (0b11 << (2 * own)) & cut));
        let all: Vec<_> = pairs.chain([(300, (0b11111 << 14) & cut)]).collect();
        assert_impossible(divided(&all));
    }
    // Eight times two, the first without any, each with one, or all with two.
    let eight = |masks: fn(u32) -> u32| {
        let domains: Vec<_> = (0..8).map(|own| (125, masks(own))).collect();
        divided(&domains)
    };
    assert_impossible(eight(|own| 0b11 << (2 * own)));
    assert_impossible(eight(|own| 0b11 << (2 * own) >> 2));
    assert_impossible(eight(|own| 1 << own));
    assert_impossible(eight(|_| 0b11));
}

#[test]
fn shares_that_give_all_the_colours_or_fewer() {
    for domains in [
        &[(500, 0x00ff), (499, 0x7f00)][..],
        &[(966, 0x3fff), (34, 0x4000)],
        &[(300, 0x001f), (300, 0x03e0), (300, 0x7c00)],
        &[(34, 0b1), (34, 0b10), (99, 0b100)],
    ] {
        assert!(divided(domains).is_possible(), "{domains:?}");
    }
}

#[test]
fn shares_past_their_limits_with_masks_to_match() {
    for domains in [
        // A share without a colour.
        [(33, 0b0), (400, 0b11_1111)],
        [(400, 0b11_1111), (0, 0b0)],
        // Fifteen colours, but over the whole.
        [(533, 0x00ff), (499, 0x7f00)],
        [(1_000, 0x7fff), (33, 0)],
    ] {
        assert_impossible(divided(&domains));
    }
}

#[test]
fn recipients_that_no_text_names() {
    for (domain, may, possible) in [
        (0, 0b00, true),
        (0, 0b10, true),
        (0, 0b01, false),
        (0, 0b11, false),
        (0, 0b110, false),
        (0, 1 << 8, false),
        (0, 1 << 31, false),
        (1, 0b01, true),
        (1, 0b10, false),
        (1, 0b101, false),
    ] {
        let plan = with(|plan| plan.domains[domain].may = Recipients(may));
        assert_eq!(plan.is_possible(), possible, "{domain} {may:b}");
    }
}

#[test]
fn counts_past_their_limits() {
    assert_impossible(with(|plan| plan.windows.clear()));
    assert_impossible(with(|plan| plan.domains.clear()));
    assert_impossible(with(|plan| {
        plan.windows = vec![
            Window {
                domain: 0,
                length: 1
            };
            33
        ]
    }));
    let plan = with(|plan| {
        plan.windows = vec![
            Window {
                domain: 0,
                length: 1
            };
            32
        ]
    });
    assert!(plan.is_possible());
    assert_impossible(with(|plan| {
        let domain = Domain {
            share: 67,
            ..plan.domains[1]
        };
        plan.domains = vec![domain; 9];
    }));
}

#[test]
fn too_many_ticks() {
    // 255 × 16,843,009 is the most that a run may take.
    let long = |last| {
        with(|plan| {
            (plan.pad, plan.run) = (1_000_000, 255);
            let mut windows = vec![
                Window {
                    domain: 0,
                    length: 871_445
                };
                8
            ];
            windows.push(Window {
                domain: 1,
                length: last,
            });
            plan.windows = windows;
        })
    };
    assert!(long(871_449).is_possible());
    assert_impossible(long(871_450));
}

#[test]
fn flat_counts_over_their_places() {
    for (place, count) in [(2, 9), (2, 255), (2, u32::MAX), (3, 33), (3, u32::MAX)] {
        let mut flat = plan_to_flat(&worked());
        flat[place] = count;
        assert_eq!(plan_from_flat(&flat), None);
    }
}

#[test]
fn every_place_of_a_flat_plan_matters() {
    let mut desk = Desk::of(WORKED);
    let possible = |flat: &[u32; 92]| plan_from_flat(flat).is_some_and(|plan| plan.is_possible());
    let flat = plan_to_flat(&desk.plan);
    assert!(possible(&flat));
    for place in 0..92 {
        for number in [u32::MAX, 1 << 31, flat[place] | 1 << 20] {
            let mut changed = flat;
            changed[place] = number;
            assert!(!possible(&changed), "place {place} holding {number}");
        }
    }
    for place in [6, 14, 22, 54, 86] {
        let mut changed = flat;
        changed[place] = 1;
        assert!(!possible(&changed), "place {place} is without use");
    }
    desk.plan = plan_from_flat(&flat).unwrap();
    assert_eq!(desk, Desk::of(WORKED));
    assert_eq!(desk.state, State::default());
}
