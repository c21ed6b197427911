//! Shares by the colours that they give: document 02, E2.

use crate::rng::Rng;
use std::ops::RangeInclusive;

/// What shares may be together, in thousandths.
pub const WHOLE: u32 = 1_000;
/// The colours that domains share.
pub const COLOURS: u32 = 15;
/// Shares that give no colour.
pub const BARE: RangeInclusive<u32> = 1..=33;

/// How many colours a share gives: the first for half a colour, and one more for
/// each whole colour beyond that.
pub fn colours_of(share: u32) -> u32 {
    let halves = 2 * COLOURS * share;
    (1..)
        .step_by(2)
        .take_while(|half| half * WHOLE <= halves)
        .count() as u32
}

/// How many colours these shares give together.
pub fn total_of(shares: &[u32]) -> u32 {
    shares.iter().map(|share| colours_of(*share)).sum()
}

/// The masks of so many colours each, one behind the other.
pub fn masks_of(colours: impl IntoIterator<Item = u32>) -> Vec<u32> {
    let mut next = 0;
    let mut mask = |count| {
        let own = next..next + count;
        next = own.end;
        own.map(|colour| 1 << colour).sum()
    };
    colours.into_iter().map(&mut mask).collect()
}

/// The shares that give so many colours, 1 to 15.
fn shares_giving(colours: u32) -> RangeInclusive<u32> {
    let least = |colours: u32| (WHOLE * colours - WHOLE / 2).div_ceil(COLOURS);
    least(colours)..=WHOLE.min(least(colours + 1) - 1)
}

/// Shares that the reader accepts. Half of the time they give all colours.
pub fn fitting_shares(rng: &mut Rng, count: u32) -> Vec<u32> {
    let total = match rng.one_in(2) {
        true => COLOURS,
        false => rng.within(count..=COLOURS),
    };
    let colours = divide(rng, total, count);
    giving(rng, &colours).expect("the least shares of 15 colours are within the whole")
}

/// Shares within the whole that give each domain a colour, but more together than
/// there are. They are two to eight.
pub fn crowded_shares(rng: &mut Rng, count: u32) -> Vec<u32> {
    if count != 3 && rng.one_in(3) {
        return exact_halves(rng, count);
    }
    loop {
        // Each share can gain half a colour at most.
        let total = rng.within(COLOURS + 1..=COLOURS + count / 2);
        let colours = divide(rng, total, count);
        if let Some(shares) = giving(rng, &colours) {
            return shares;
        }
    }
}

/// Shares that all come to an exact half, and so to the most colours. As many
/// thousandths as fit give up to 19, those of three no more than 15. Eight are too
/// many even at 100 each, which is the least that is refused.
fn exact_halves(rng: &mut Rng, count: u32) -> Vec<u32> {
    let mut shares = vec![100; count as usize];
    if count < 8 || rng.one_in(2) {
        for _ in 0..(WHOLE - 100 * count) / 200 {
            shares[rng.place(count as usize)] += 200;
        }
    }
    shares
}

/// So many colours for so many domains, one at least for each.
fn divide(rng: &mut Rng, total: u32, count: u32) -> Vec<u32> {
    let mut left = total - count;
    let mut colours = vec![1; count as usize];
    for own in &mut colours {
        let more = match rng.below(4) {
            0 => 0,
            1 => left,
            _ => rng.within(0..=left),
        };
        *own += more;
        left -= more;
    }
    colours[0] += left;
    rng.shuffle(&mut colours);
    colours
}

/// Shares that give these colours, if any within the whole do; often the least
/// and the greatest of each.
fn giving(rng: &mut Rng, colours: &[u32]) -> Option<Vec<u32>> {
    if colours.iter().any(|count| *count > COLOURS) {
        return None;
    }
    let ranges: Vec<_> = colours.iter().map(|count| shares_giving(*count)).collect();
    let mut shares: Vec<u32> = ranges.iter().map(|range| *range.start()).collect();
    let mut left = WHOLE.checked_sub(shares.iter().sum())?;
    let mut order: Vec<usize> = (0..shares.len()).collect();
    rng.shuffle(&mut order);
    for domain in order {
        let room = left.min(ranges[domain].end() - shares[domain]);
        let more = match rng.below(4) {
            0 => 0,
            1 => room,
            _ => rng.within(0..=room),
        };
        shares[domain] += more;
        left -= more;
    }
    Some(shares)
}

#[cfg(test)]
mod tests {
    use super::*;
    use std::collections::BTreeSet;

    #[test]
    fn known_shares() {
        let known = [(33, 0), (34, 1), (99, 1), (100, 2), (300, 5), (400, 6)];
        for (share, colours) in known.into_iter().chain([(966, 14), (967, 15), (1_000, 15)]) {
            assert_eq!(colours_of(share), colours, "{share}");
        }
        assert!(BARE.into_iter().all(|share| colours_of(share) == 0));
        for colours in 1..=COLOURS {
            let all = (0..=WHOLE).filter(|share| colours_of(*share) == colours);
            assert!(all.eq(shares_giving(colours)), "{colours}");
        }
        assert_eq!(masks_of([6, 5]), [0b111111, 0b11111000000]);
    }

    /// Shares of all counts, and what came up among them: totals, sums, and the
    /// shares themselves.
    fn draw(
        least: u32,
        shares: fn(&mut Rng, u32) -> Vec<u32>,
    ) -> (BTreeSet<u32>, BTreeSet<u32>, BTreeSet<u32>) {
        let (mut totals, mut sums, mut each) = Default::default();
        for seed in 0..8_000 {
            let mut rng = Rng::new(seed);
            let count = rng.within(least..=8);
            let shares = shares(&mut rng, count);
            assert_eq!(shares.len() as u32, count);
            assert!(shares.iter().all(|share| colours_of(*share) > 0));
            BTreeSet::insert(&mut totals, total_of(&shares));
            BTreeSet::insert(&mut sums, shares.iter().sum());
            BTreeSet::extend(&mut each, shares);
        }
        (totals, sums, each)
    }

    #[test]
    fn shares_that_fit() {
        let (totals, sums, each) = draw(1, fitting_shares);
        assert!(totals.into_iter().eq(1..=15));
        assert_eq!(sums.last(), Some(&1_000));
        // The edges of each count of colours, the exact halves among them.
        let edges = (1..=15).flat_map(|colours| {
            let shares = shares_giving(colours);
            [*shares.start(), *shares.end()]
        });
        assert!(edges.into_iter().all(|share| each.contains(&share)));
    }

    #[test]
    fn shares_that_are_crowded() {
        let (totals, sums, each) = draw(2, crowded_shares);
        assert!(totals.into_iter().eq(16..=19));
        assert_eq!((sums.first(), sums.last()), (Some(&800), Some(&1_000)));
        assert!([34, 99, 100, 101, 300, 500, 700, 900]
            .iter()
            .all(|share| each.contains(share)));
    }
}
