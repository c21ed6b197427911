//! Plans whose text in the single form has a given number of bytes: document 02, E4.

use super::canonical::canonical;
use super::shares::fitting_shares;
use super::sketch::{Act, Sketch};
use crate::rng::Rng;
use std::ops::RangeInclusive;

/// The bytes that an op line can have, with its LF.
const SIZES: RangeInclusive<usize> = 15..=21;

/// A plan whose text has so many bytes, which are close to the most that a text may
/// have. It takes six domains at least to have so many.
pub fn sketch_of_bytes(rng: &mut Rng, bytes: usize) -> Sketch {
    loop {
        let mut sketch = without_ops(rng);
        // Each op line comes with the LF before it.
        let left = bytes - canonical(&sketch).len();
        let least = left.div_ceil(*SIZES.end());
        let most = (256 * sketch.members.len()).min(left / SIZES.start());
        if least <= most {
            let count = least + rng.place(most - least + 1);
            let sizes = divide(rng, left, count);
            fill(rng, &mut sketch, &sizes);
            return sketch;
        }
    }
}

fn without_ops(rng: &mut Rng) -> Sketch {
    let count = rng.within(6..=8);
    let shares = fitting_shares(rng, count);
    let mut sketch = Sketch::of_shares(rng, &shares);
    let members = sketch.members.iter_mut();
    members.for_each(|member| member.script.clear());
    sketch
}

/// So many bytes as the sizes of so many ops.
fn divide(rng: &mut Rng, bytes: usize, count: usize) -> Vec<usize> {
    let (least, more) = (*SIZES.start(), SIZES.end() - SIZES.start());
    let mut left = bytes - count * least;
    let mut sizes = Vec::new();
    for behind in (0..count).rev() {
        // What the ops behind this one cannot take falls to it.
        let lowest = left.saturating_sub(behind * more);
        let taken = lowest + rng.place(left.min(more) - lowest + 1);
        left -= taken;
        sizes.push(least + taken);
    }
    rng.shuffle(&mut sizes);
    sizes
}

/// Gives the domains ops of these sizes, at most 256 to each.
fn fill(rng: &mut Rng, sketch: &mut Sketch, sizes: &[usize]) {
    let domains = 0..sketch.members.len();
    let mut owners: Vec<usize> = domains.flat_map(|domain| [domain; 256]).collect();
    rng.shuffle(&mut owners);
    for (domain, size) in owners.into_iter().zip(sizes) {
        let act = act_of_size(rng, *size);
        sketch.members[domain].script.push(act);
    }
}

/// An op whose line has so many bytes with its LF. Its numbers are often the least
/// or the greatest of as many digits.
pub(super) fn act_of_size(rng: &mut Rng, size: usize) -> Act {
    let other = rng.within(0..=7);
    let mut number = |bytes: usize, range: RangeInclusive<u32>| {
        let digits = size.checked_sub(bytes)?;
        number_of(rng, digits as u32, range)
    };
    let acts = [
        number(14, 0..=65_535).map(Act::Read),
        number(15, 0..=65_535).map(Act::Write),
        number(16, 0..=65_535).map(|word| Act::Send(other, word)),
        number(17, 0..=7).map(Act::Receive),
        number(17, 1..=200).map(Act::Compute),
    ];
    let acts: Vec<Act> = acts.into_iter().flatten().collect();
    rng.pick(&acts)
}

/// A number of so many digits, if there is one in this range.
fn number_of(rng: &mut Rng, digits: u32, range: RangeInclusive<u32>) -> Option<u32> {
    let least = match digits {
        0 => return None,
        1 => 0,
        _ => 10_u32.pow(digits - 1),
    };
    let least = least.max(*range.start());
    let most = (10_u32.pow(digits) - 1).min(*range.end());
    if least > most {
        return None;
    }
    let any = rng.within(least..=most);
    Some(rng.pick(&[least, most, any, any]))
}

#[cfg(test)]
mod tests {
    use super::*;
    use std::collections::BTreeSet;

    #[test]
    fn texts_have_their_bytes() {
        let mut domains = BTreeSet::new();
        for seed in 0..60 {
            let mut rng = Rng::new(seed);
            let bytes = 32_600 + rng.place(400);
            let sketch = sketch_of_bytes(&mut rng, bytes);
            assert_eq!(canonical(&sketch).len(), bytes);
            let scripts = sketch.members.iter().map(|member| member.script.len());
            assert!(scripts.max() <= Some(256));
            domains.insert(sketch.members.len());
        }
        assert!(domains.into_iter().eq(6..=8));
    }

    /// Each kind of op comes with each number of digits that it can have.
    #[test]
    fn ops_of_every_size() {
        let mut met = BTreeSet::new();
        let mut rng = Rng::new(4);
        for size in SIZES {
            for _ in 0..100 {
                let stored = act_of_size(&mut rng, size).stored();
                met.insert((size, stored >> 20));
            }
        }
        // Lines and words have one to five digits, domains one, ticks up to three.
        assert_eq!(met.len(), 5 + 5 + 5 + 1 + 3);
    }
}
