//! Ops that meet each other: what a script turns to again and again.

use super::sketch::{Act, Sketch};
use crate::rng::Rng;

/// Which lines and domains a script turns to, so that its ops meet each other.
pub struct Habits {
    /// Lines that the domain may touch, a few for each of a few sets.
    lines: Vec<u32>,
    /// Domains that it may send to, and that may send to it.
    to: Vec<u32>,
    from: Vec<u32>,
    /// How often each of the five ops comes up.
    weights: [u64; 5],
}

impl Habits {
    pub fn of(rng: &mut Rng, sketch: &Sketch, domain: usize) -> Self {
        let colours: Vec<u32> = sketch.colours(domain).collect();
        let mut lines = Vec::new();
        if !colours.is_empty() {
            for _ in 0..rng.within(1..=4) {
                let set = 4 * rng.pick(&colours) + rng.within(0..=3);
                let ways = rng.within(1..=7);
                lines.extend((0..ways).map(|way| set + 64 * way));
            }
        }
        let own = domain as u32;
        let senders = sketch.members.iter().enumerate();
        Habits {
            lines,
            to: sketch.members[domain].may.clone(),
            from: senders
                .filter(|(_, member)| member.may.contains(&own))
                .map(|(sender, _)| sender as u32)
                .collect(),
            weights: rng.pick(&[
                [4, 4, 2, 2, 1],
                [8, 1, 1, 1, 0],
                [1, 8, 0, 1, 1],
                [1, 1, 6, 6, 0],
                [1, 1, 1, 1, 8],
            ]),
        }
    }

    pub fn act(&self, rng: &mut Rng) -> Act {
        let mut drawn = rng.below(self.weights.iter().sum());
        let kind = self.weights.iter().position(|weight| {
            let here = drawn < *weight;
            drawn = drawn.wrapping_sub(*weight);
            here
        });
        match kind {
            Some(0) => Act::Read(self.line(rng)),
            Some(1) => Act::Write(self.line(rng)),
            Some(2) => Act::Send(
                some_domain(rng, &self.to),
                rng.pick(&[0, 1, 77, 65_534, 65_535]),
            ),
            Some(3) => Act::Receive(some_domain(rng, &self.from)),
            _ => Act::Compute(match rng.below(3) {
                0 => rng.pick(&[1, 2, 199, 200]),
                _ => rng.within(1..=200),
            }),
        }
    }

    fn line(&self, rng: &mut Rng) -> u32 {
        match rng.below(16) {
            0 => rng.within(0..=65_535),
            1 => rng.within(0..=4_095),
            2 => rng.pick(&[0, 59, 60, 61, 63, 4_095, 4_096, 4_099, 65_535]),
            _ if self.lines.is_empty() => rng.within(0..=4_095),
            _ => rng.pick(&self.lines),
        }
    }
}

/// Most times one of these, at times any domain.
fn some_domain(rng: &mut Rng, liked: &[u32]) -> u32 {
    match liked.is_empty() || rng.one_in(5) {
        true => rng.within(0..=7),
        false => rng.pick(liked),
    }
}
