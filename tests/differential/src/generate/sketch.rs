//! Plans as a generator knows them, before they are text: document 01, "The plan
//! text". What the reader must make of them is worked out here once more, apart
//! from the reference.

use super::habits::Habits;
use super::shares::{colours_of, fitting_shares};
use crate::engine::{PLAN, SCRIPTS};
use crate::rng::Rng;

#[derive(Clone, Debug, PartialEq, Eq)]
pub struct Sketch {
    pub pad: u32,
    pub run: u32,
    pub members: Vec<Member>,
    /// Domain and length of each window.
    pub windows: Vec<(u32, u32)>,
}

/// A domain.
#[derive(Clone, Debug, PartialEq, Eq)]
pub struct Member {
    pub share: u32,
    pub may: Vec<u32>,
    pub script: Vec<Act>,
}

/// An op.
#[derive(Clone, Copy, Debug, PartialEq, Eq)]
pub enum Act {
    Read(u32),
    Write(u32),
    Send(u32, u32),
    Receive(u32),
    Compute(u32),
}

impl Sketch {
    /// A plan that the reader accepts.
    pub fn random(rng: &mut Rng) -> Self {
        let count = rng.within(1..=8);
        let shares = fitting_shares(rng, count);
        Sketch::of_shares(rng, &shares)
    }

    /// A plan of these shares, in which all else is as the reader accepts it.
    pub fn of_shares(rng: &mut Rng, shares: &[u32]) -> Self {
        let count = shares.len() as u32;
        let most = rng.pick(&[0, 3, 12, 40, 256]);
        let mut sketch = Sketch {
            pad: match rng.below(4) {
                0 => 376,
                1 => rng.within(377..=500),
                2 => rng.within(376..=20_000),
                _ => rng.within(376..=1_000_000),
            },
            run: match rng.below(3) {
                0 => 1,
                1 => rng.within(1..=12),
                _ => rng.within(1..=1_000),
            },
            members: shares
                .iter()
                .enumerate()
                .map(|(own, share)| Member {
                    share: *share,
                    may: recipients(rng, own as u32, count),
                    script: Vec::new(),
                })
                .collect(),
            windows: windows(rng, count),
        };
        sketch.fit_ticks();
        for domain in 0..count as usize {
            let length = match rng.below(4) {
                0 => most,
                _ => rng.within(0..=most),
            };
            let habits = Habits::of(rng, &sketch, domain);
            sketch.members[domain].script = (0..length).map(|_| habits.act(rng)).collect();
        }
        sketch
    }

    /// A plan whose run takes as many ticks as a run may, or only so many fewer
    /// that no more fit into each of its passes. One tick more in any window is
    /// refused.
    pub fn at_the_limit(rng: &mut Rng) -> Self {
        let mut sketch = Sketch::random(rng);
        sketch.stretch_to_the_limit(rng);
        sketch
    }

    /// Gives this plan a pad, a run and windows of its domains as above.
    pub fn stretch_to_the_limit(&mut self, rng: &mut Rng) {
        // The first four divide the most ticks that a run may take.
        let any = rng.within(80..=1_000);
        let run = rng.pick(&[85, 255, 257, 771, any]);
        let pass = u64::from(u32::MAX) / u64::from(run);
        let least = pass.div_ceil(2_000_000).max(1) as u32;
        let windows = u64::from(rng.within(least..=32));
        // What is left to the lengths, and to each of them, must be in limits.
        let lowest = pass.saturating_sub(windows * 1_000_000).div_ceil(windows);
        let highest = (pass - windows) / windows;
        let (lowest, highest) = (lowest.max(376) as u32, highest.min(1_000_000) as u32);
        let pad = rng.within(lowest..=highest);
        let left = pass - windows * u64::from(pad);
        let mut lengths = vec![left / windows; windows as usize];
        lengths[..(left % windows) as usize]
            .iter_mut()
            .for_each(|length| *length += 1);
        rng.shuffle(&mut lengths);
        (self.pad, self.run) = (pad, run);
        self.windows = lengths
            .into_iter()
            .map(|length| (rng.place(self.members.len()) as u32, length as u32))
            .collect();
    }

    /// Lowers the run until its ticks are within the limit.
    pub fn fit_ticks(&mut self) {
        let pass = self.pass();
        let most = u64::from(u32::MAX) / pass;
        self.run = self.run.min(most as u32);
    }

    /// Ticks of one pass.
    pub fn pass(&self) -> u64 {
        let spans = self.windows.iter();
        spans
            .map(|(_, length)| u64::from(*length) + u64::from(self.pad))
            .sum()
    }

    /// The colours of a domain, by number.
    pub fn colours(&self, domain: usize) -> std::ops::Range<u32> {
        let holding = |member: &Member| colours_of(member.share);
        let first = self.members[..domain].iter().map(holding).sum();
        first..first + holding(&self.members[domain])
    }

    /// The flat plan that the reader must give.
    pub fn flat(&self) -> [u32; PLAN] {
        let mut flat = [0; PLAN];
        flat[0] = self.pad;
        flat[1] = self.run;
        flat[2] = self.members.len() as u32;
        flat[3] = self.windows.len() as u32;
        for (domain, member) in self.members.iter().enumerate() {
            flat[4 + domain] = member.share;
            flat[12 + domain] = member.may.iter().map(|other| 1 << other).sum();
            flat[84 + domain] = self.colours(domain).map(|colour| 1 << colour).sum();
        }
        for (place, (domain, length)) in self.windows.iter().enumerate() {
            flat[20 + place] = *domain;
            flat[52 + place] = *length;
        }
        flat
    }

    /// The script store that the reader must give.
    pub fn store(&self) -> Vec<u32> {
        let mut store = vec![0; SCRIPTS];
        for (member, script) in self.members.iter().zip(store.chunks_mut(256)) {
            for (act, place) in member.script.iter().zip(script) {
                *place = act.stored();
            }
        }
        store
    }
}

impl Act {
    /// The number by which the store holds it.
    pub fn stored(self) -> u32 {
        match self {
            Act::Read(line) => 0x10_0000 | line,
            Act::Write(line) => 0x20_0000 | line,
            Act::Send(to, word) => 0x30_0000 | to << 16 | word,
            Act::Receive(from) => 0x40_0000 | from << 16,
            Act::Compute(ticks) => 0x50_0000 | ticks,
        }
    }

    /// Whether the store can hold this number for an op.
    pub fn is_stored(number: u32) -> bool {
        let (other, value) = (number >> 16 & 15, number & 0xffff);
        match number >> 20 {
            1 | 2 => other == 0,
            3 => other < 8,
            4 => other < 8 && value == 0,
            5 => other == 0 && (1..=200).contains(&value),
            _ => false,
        }
    }
}

fn recipients(rng: &mut Rng, own: u32, count: u32) -> Vec<u32> {
    let often = rng.pick(&[1, 2, 2, 4]);
    let mut may: Vec<u32> = (0..count)
        .filter(|other| *other != own && rng.one_in(often))
        .collect();
    rng.shuffle(&mut may);
    may
}

fn windows(rng: &mut Rng, count: u32) -> Vec<(u32, u32)> {
    let windows = match rng.below(4) {
        0 => rng.within(1..=32),
        1 => rng.pick(&[1, 2, 31, 32]),
        _ => rng.within(1..=6),
    };
    let longest = rng.pick(&[1, 20, 300, 3_000, 50_000, 1_000_000]);
    (0..windows)
        .map(|_| (rng.within(0..=count - 1), rng.within(1..=longest)))
        .collect()
}

#[cfg(test)]
mod tests {
    use super::*;

    #[test]
    fn plans_at_the_limit() {
        let most = u64::from(u32::MAX);
        let mut exact = 0;
        for seed in 0..2_000 {
            let sketch = Sketch::at_the_limit(&mut Rng::new(seed));
            let run = u64::from(sketch.run);
            assert!(run * sketch.pass() <= most && run * (sketch.pass() + 1) > most);
            assert!((376..=1_000_000).contains(&sketch.pad));
            let mut lengths = sketch.windows.iter().map(|window| window.1);
            assert!(lengths.all(|length| (1..=1_000_000).contains(&length)));
            exact += u32::from(run * sketch.pass() == most);
        }
        assert!(exact > 1_000);
    }
}
