//! Refusal 16, shares that give too many colours together, and its place in the
//! order of what is judged after a text's last line: document 02, E2.

use super::desk::{offset, reading, Desk};
use crate::colours::{colours_for, total_for};
use crate::planrun::planrun;

/// What can be wrong with a text as a whole, in the order in which it is judged.
const ORDER: [u32; 6] = [5, 4, 7, 16, 6, 9];

/// A text of these shares in which all else is as these refusals want it.
fn text(shares: &[u32], wrong: &[u32]) -> String {
    let mut text = String::new();
    if !wrong.contains(&5) {
        text += "(pad 1000000)\n";
    }
    let may = if wrong.contains(&4) {
        "(may 7)"
    } else {
        "(may)"
    };
    for (own, share) in shares.iter().enumerate() {
        text += &format!("(domain {own}(share {share}){may})\n");
    }
    let run = if wrong.contains(&9) { 1_000 } else { 1 };
    text + &format!("(run {run})\n") + &"(window 0(length 1000000))\n".repeat(3)
}

fn good(shares: &[u32]) -> String {
    text(shares, &[])
}

/// Shares with which these of 7, 16 and 6 are wrong, and no other of the three.
fn shares_for(wrong: &[u32]) -> &'static [u32] {
    let shares: &[u32] = match [7, 16, 6].map(|number| wrong.contains(&number)) {
        [false, false, false] => &[400, 300],
        [false, false, true] => &[400, 33, 300, 1],
        [false, true, false] => &[500, 500],
        [false, true, true] => &[100, 500, 100, 33, 100, 100],
        [true, false, false] => &[533, 499],
        [true, false, true] => &[33, 1_000],
        [true, true, false] => &[600, 500],
        [true, true, true] => &[600, 33, 500],
    };
    assert_eq!(shares.iter().sum::<u32>() > 1_000, wrong.contains(&7));
    assert_eq!(total_for(shares.iter().copied()) > 15, wrong.contains(&16));
    let bare = |share: &u32| colours_for(*share) == 0;
    assert_eq!(shares.iter().any(bare), wrong.contains(&6));
    shares
}

/// What comes with a refusal of such a text.
fn companion(number: u32, shares: &[u32], text: &str) -> u64 {
    match number {
        5 => text.len() as u64,
        4 => text.find("7))").expect("a recipient") as u64,
        7 => shares.iter().map(|share| u64::from(*share)).sum(),
        16 => u64::from(total_for(shares.iter().copied())),
        6 => {
            let bare = |share: &u32| colours_for(*share) == 0;
            shares.iter().position(bare).expect("a bare share") as u64
        }
        _ => 0,
    }
}

/// All choices of what is wrong: the first in the order is told.
#[test]
fn the_order_after_the_last_line() {
    for choice in 0..1 << ORDER.len() {
        let chosen = ORDER.iter().enumerate();
        let wrong: Vec<u32> = chosen
            .filter(|(place, _)| choice >> place & 1 == 1)
            .map(|(_, number)| *number)
            .collect();
        let shares = shares_for(&wrong);
        let text = text(shares, &wrong);
        let number = wrong.first().copied().unwrap_or(0);
        let expected = (number, companion(number, shares, &text));
        assert_eq!(reading(&text), expected, "{wrong:?}\n{text}");
    }
}

#[test]
fn what_a_line_tells_comes_first() {
    let crowded = good(&[500, 500]);
    assert_eq!(reading(&crowded), (16, 16));
    for (line, number, words) in [
        ("(run 1)", 5, "("),
        ("(run 0)", 3, "0"),
        ("(domain 1(share 1)(may))", 4, "1("),
        ("(domain 2(share 1)(may 2))", 8, "2"),
        ("run", 2, "r"),
    ] {
        let at = crowded.len() as u64 + offset(line, words);
        assert_eq!(reading(format!("{crowded}{line}")), (number, at), "{line}");
    }
}

#[test]
fn totals_over_15() {
    for (shares, total) in [
        (&[125; 8][..], 16),
        (&[100; 8], 16),
        (&[500, 500], 16),
        (&[100, 900], 16),
        (&[700, 300], 16),
        (&[234; 4], 16),
        (&[100, 100, 800], 16),
        (&[600, 100, 100, 100, 100], 17),
        (&[300, 100, 500, 100], 17),
        (&[100, 100, 100, 500, 100, 100], 18),
        (&[100, 100, 100, 100, 100, 100, 400], 18),
        (&[300, 100, 100, 100, 100, 100, 100, 99], 18),
    ] {
        assert_eq!(reading(good(shares)), (16, total), "{shares:?}");
    }
    for place in 0..8 {
        let mut shares = [100; 8];
        shares[place] = 300;
        assert_eq!(reading(good(&shares)), (16, 19), "{shares:?}");
    }
    assert_eq!(planrun(good(&[125; 8]).as_bytes()), "(refused 16 16)\n");
}

#[test]
fn a_total_of_15_is_taken() {
    for shares in [
        &[1_000][..],
        &[967],
        &[966, 34],
        &[500, 499],
        &[899, 101],
        &[300, 300, 300],
        &[100, 100, 100, 100, 100, 100, 100, 99],
        &[166, 100, 100, 100, 100, 100, 100, 99],
        &[34, 34, 34, 34, 34, 34, 34, 500],
    ] {
        let desk = Desk::of(&good(shares));
        let held = desk.plan.domains.iter().map(|domain| domain.colours);
        let held: Vec<u32> = held.map(|colours| colours.holding()).collect();
        let all = desk.plan.domains.iter().map(|domain| domain.colours.0);
        assert_eq!(held.iter().sum::<u32>(), 15, "{shares:?}");
        assert_eq!(all.fold(0, |all, mask| all | mask), 0x7fff, "{shares:?}");
    }
}

#[test]
fn a_total_under_15_is_taken() {
    for (shares, total) in [
        (&[34][..], 1),
        (&[34; 8], 8),
        (&[99; 8], 8),
        (&[400, 300], 11),
        (&[966], 14),
        (&[233; 4], 12),
        (&[499, 499], 14),
        (&[233, 233, 233, 233, 34], 13),
    ] {
        assert_eq!(total_for(shares.iter().copied()), total, "{shares:?}");
        assert_eq!(reading(good(shares)), (0, 0), "{shares:?}");
    }
}

/// The most colours that so many shares of 1,000 together at most can give: half
/// a colour more for each, so 19 for eight.
#[test]
fn the_largest_totals() {
    let mut most = [0; 1_001];
    for (count, largest) in (1..=8).zip([15, 16, 16, 17, 17, 18, 18, 19]) {
        let before = most;
        for (sum, most) in most.iter_mut().enumerate().skip(count) {
            let last = 1..=sum + 1 - count;
            let totals = last.map(|last| before[sum - last] + colours_for(last as u32));
            *most = totals.max().expect("a share");
        }
        assert_eq!(most.iter().max(), Some(&largest), "{count} shares");
    }
}
