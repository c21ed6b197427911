//! How many colours a share gives, and which: document 02, E2.

use crate::colours::{colours_for, deal, total_for, Colours};

#[test]
fn settled_figures() {
    for (share, colours) in [
        (33, 0),
        (34, 1),
        (100, 2),
        (125, 2),
        (300, 5),
        (400, 6),
        (966, 14),
        (1_000, 15),
    ] {
        assert_eq!(colours_for(share), colours, "{share}");
    }
}

#[test]
fn an_exact_half_goes_up() {
    let is_half = |share: &u32| share * 15 % 1_000 == 500;
    let halves: Vec<u32> = (0..=1_000).filter(is_half).collect();
    assert_eq!(halves, [100, 300, 500, 700, 900]);
    assert_eq!(
        [100, 300, 500, 700, 900].map(colours_for),
        [2, 5, 8, 11, 14]
    );
    assert_eq!([99, 299, 499, 699, 899].map(colours_for), [1, 4, 7, 10, 13]);
}

/// No other count of colours lies nearer to a share, and one that lies as near
/// is smaller.
#[test]
fn every_share_gives_the_nearest() {
    for share in 0..=1_000u32 {
        let distance = |colours: &u32| (1_000 * colours).abs_diff(15 * share);
        let given = colours_for(share);
        assert!(distance(&given) <= 500, "{share}");
        // Of several least ones the first is taken, so the greatest count leads.
        let nearest = (0..=16).rev().min_by_key(distance);
        assert_eq!(Some(given), nearest, "{share}");
    }
}

#[test]
fn where_each_count_begins() {
    let least = [
        34, 100, 167, 234, 300, 367, 434, 500, 567, 634, 700, 767, 834, 900, 967,
    ];
    for (share, count) in least.into_iter().zip(1..) {
        assert_eq!(colours_for(share - 1), count - 1, "{share}");
        assert_eq!(colours_for(share), count, "{share}");
    }
}

/// The masks of any shares that are not refused: one behind the other from
/// colour 0 on, so that none is dealt twice, and never the kernel's.
#[test]
fn colours_are_dealt_upwards() {
    for first in 34..=966 {
        for second in 34..=1_000 - first {
            let shares = [first, second];
            let total = total_for(shares.into_iter());
            if total <= 15 {
                let masks: Vec<Colours> = deal(shares.into_iter()).collect();
                let holdings: Vec<u32> = masks.iter().map(|mask| mask.holding()).collect();
                assert_eq!(holdings, shares.map(colours_for), "{shares:?}");
                assert_eq!(masks[0].0 & masks[1].0, 0, "{shares:?}");
                assert_eq!(masks[0].0, (1 << holdings[0]) - 1, "{shares:?}");
                assert_eq!(masks[0].0 | masks[1].0, (1 << total) - 1, "{shares:?}");
            }
        }
    }
}
