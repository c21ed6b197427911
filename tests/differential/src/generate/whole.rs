//! Texts with faults that only the whole text shows, any of them together:
//! document 01, "The plan text", and document 02, E2.

use super::faults::{break_ticks, missing_or_twice, shorten, undeclared};
use super::shares::{colours_of, crowded_shares, fitting_shares, total_of, BARE, COLOURS, WHOLE};
use super::sketch::Sketch;
use super::write::Style;
use crate::rng::Rng;

/// The refusals that come after the last line, in their order: something missing,
/// an undeclared recipient, shares over the whole, more colours than there are, a
/// share without a colour, too many ticks.
pub const ORDER: [u32; 6] = [5, 4, 7, 16, 6, 9];

/// A text, and what is wrong with it.
#[derive(Clone, Debug)]
pub struct Whole {
    pub text: Vec<u8>,
    pub shares: Vec<u32>,
    /// The faults in the order of refusals. There may be none.
    pub wrong: Vec<u32>,
}

impl Whole {
    pub fn random(rng: &mut Rng) -> Self {
        let often = [8, 8, 4, 2, 2, 2];
        let drawn = ORDER.into_iter().zip(often);
        let mut wrong: Vec<u32> = drawn
            .filter(|(_, often)| rng.one_in(*often))
            .map(|(number, _)| number)
            .collect();
        let shares = shares_with(rng, &wrong);
        if shares.len() == 8 {
            // There is no recipient then that could be undeclared.
            wrong.retain(|number| *number != 4);
        }
        let mut sketch = Sketch::of_shares(rng, &shares);
        shorten(&mut sketch);
        if wrong.contains(&4) {
            undeclared(rng, &mut sketch);
        }
        if wrong.contains(&9) {
            break_ticks(rng, &mut sketch);
        }
        let style = rng.pick(&[Style::Plain, Style::Tight, Style::Loose]);
        let text = match wrong.contains(&5) {
            true => missing_or_twice(rng, &sketch, style),
            false => sketch.text(rng, style),
        };
        Whole {
            text,
            shares,
            wrong,
        }
    }

    /// The number that must be returned.
    pub fn number(&self) -> u32 {
        self.wrong.first().copied().unwrap_or(0)
    }

    /// What must be returned beside it, where that is no offset.
    pub fn companion(&self) -> Option<u64> {
        match self.number() {
            4 | 5 => None,
            6 => {
                let bare = |share: &u32| colours_of(*share) == 0;
                self.shares.iter().position(bare).map(|at| at as u64)
            }
            7 => Some(self.shares.iter().map(|share| u64::from(*share)).sum()),
            16 => Some(u64::from(total_of(&self.shares))),
            _ => Some(0),
        }
    }
}

/// Shares with these of the faults 7, 16 and 6, and with no other of the three.
fn shares_with(rng: &mut Rng, wrong: &[u32]) -> Vec<u32> {
    let wanted = [7, 16, 6].map(|number| wrong.contains(&number));
    let [over, crowded, bare] = wanted;
    loop {
        let mut shares = match crowded {
            true => {
                let count = rng.within(2..=8);
                crowded_shares(rng, count)
            }
            false => {
                let count = rng.within(1..=8);
                fitting_shares(rng, count)
            }
        };
        if bare {
            add_bare(rng, &mut shares);
        }
        if over {
            exceed(rng, &mut shares);
        }
        if shares.len() <= 8 && shows(&shares) == wanted {
            return shares;
        }
    }
}

/// Puts one or two shares without a colour among the others, within the whole if
/// there is room.
fn add_bare(rng: &mut Rng, shares: &mut Vec<u32>) {
    for _ in 0..1 + rng.place(2) {
        let left = WHOLE.saturating_sub(shares.iter().sum());
        let most = left.clamp(*BARE.start(), *BARE.end());
        shares.push(rng.within(*BARE.start()..=most));
    }
    rng.shuffle(shares);
}

/// Raises shares, mostly past the whole: each by as much as gives no colour more,
/// or one of them by any number.
fn exceed(rng: &mut Rng, shares: &mut [u32]) {
    if rng.one_in(2) {
        let raised = rng.place(shares.len());
        shares[raised] = rng.within(shares[raised]..=WHOLE);
        return;
    }
    for share in shares {
        let colours = colours_of(*share);
        while *share < WHOLE && colours_of(*share + 1) == colours {
            *share += 1;
        }
    }
}

/// Whether 7, 16 and 6 hold of these shares.
fn shows(shares: &[u32]) -> [bool; 3] {
    [
        shares.iter().sum::<u32>() > WHOLE,
        total_of(shares) > COLOURS,
        shares.iter().any(|share| colours_of(*share) == 0),
    ]
}

#[cfg(test)]
mod tests {
    use super::*;
    use std::collections::BTreeSet;

    /// Every two of the faults come up together, and 16 with each of its totals
    /// by itself and before each of the later two.
    #[test]
    fn faults_come_together() {
        let mut pairs = BTreeSet::new();
        let mut totals = BTreeSet::new();
        for seed in 0..20_000 {
            let whole = Whole::random(&mut Rng::new(seed));
            let faults = whole.wrong.iter();
            pairs.extend(faults.flat_map(|first| whole.wrong.iter().map(|next| (*first, *next))));
            if let Some((16, later)) = whole.wrong.split_first() {
                totals.insert((total_of(&whole.shares), later.to_vec()));
            }
        }
        assert_eq!(pairs.len(), ORDER.len() * ORDER.len());
        for total in 16..=18 {
            for later in [&[][..], &[6], &[9], &[6, 9]] {
                assert!(
                    totals.contains(&(total, later.to_vec())),
                    "{total} {later:?}"
                );
            }
        }
        // 19 colours take eight shares with a colour and all the thousandths.
        for later in [&[][..], &[9]] {
            assert!(totals.contains(&(19, later.to_vec())), "19 {later:?}");
        }
    }
}
