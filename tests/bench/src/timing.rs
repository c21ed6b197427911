//! Rounds in which the engines take turns.

use std::fmt;
use std::hint::black_box;
use std::ops::Range;
use std::time::{Duration, Instant};

pub struct Settings {
    pub rounds: usize,
    /// How long one engine works in one round, at least.
    pub turn: Duration,
}

impl Settings {
    pub fn from_environment() -> Self {
        let rounds = std::env::var("PIRKVEZO_BENCH_ROUNDS").ok();
        let rounds = rounds.and_then(|rounds| rounds.parse().ok());
        Settings {
            rounds: rounds.unwrap_or(41).max(1),
            turn: Duration::from_millis(1),
        }
    }
}

impl fmt::Display for Settings {
    fn fmt(&self, f: &mut fmt::Formatter) -> fmt::Result {
        let Settings { rounds, turn } = self;
        write!(f, "{rounds} rounds of {} ms each", turn.as_millis())
    }
}

/// Numbers of many rounds: the median, and where the lowest and the highest
/// tenth of them end.
#[derive(Clone, Copy, Debug, PartialEq)]
pub struct Spread {
    pub median: f64,
    pub low: f64,
    pub high: f64,
}

/// Nanoseconds for one unit of work: for each engine its times, round by round.
pub struct Times(Vec<Vec<f64>>);

/// Times a piece of work with every engine, each time after something that is
/// not timed. The work gives how many units it came to. An engine is whatever
/// takes turns with others.
pub fn measure<S>(
    settings: &Settings,
    subjects: &mut [S],
    prepare: impl FnMut(&mut S),
    work: impl FnMut(&mut S) -> u64,
) -> Times {
    measure_rounds(0..settings.rounds, settings.turn, subjects, prepare, work)
}

/// The same for the rounds of these numbers. A round's number says which engine
/// begins it.
pub fn measure_rounds<S>(
    rounds: Range<usize>,
    turn: Duration,
    subjects: &mut [S],
    mut prepare: impl FnMut(&mut S),
    mut work: impl FnMut(&mut S) -> u64,
) -> Times {
    let mut once = |subject: &mut S| {
        prepare(subject);
        let begin = Instant::now();
        let units = black_box(work(subject));
        (begin.elapsed(), units)
    };
    let repeats: Vec<u32> = subjects
        .iter_mut()
        .map(|subject| {
            once(subject);
            let (time, _) = once(subject);
            let nanoseconds = time.as_nanos().max(50);
            (turn.as_nanos() / nanoseconds).clamp(1, 100_000) as u32
        })
        .collect();
    let mut times = vec![Vec::with_capacity(rounds.len()); subjects.len()];
    for round in rounds {
        // Each round begins with another engine, else other work that gets the
        // processor as often as a round comes would meet the same one each time.
        for turn in 0..subjects.len() {
            let engine = (round + turn) % subjects.len();
            let (mut time, mut units) = (Duration::ZERO, 0);
            for _ in 0..repeats[engine] {
                let (more, count) = once(&mut subjects[engine]);
                time += more;
                units += count;
            }
            times[engine].push(time.as_nanos() as f64 / units.max(1) as f64);
        }
    }
    Times(times)
}

impl Times {
    /// The middle time of one engine.
    pub fn median(&self, engine: usize) -> f64 {
        Spread::of(self.0[engine].iter().copied()).median
    }

    /// How one engine compares with another, each round by itself.
    pub fn ratio(&self, engine: usize, other: usize) -> Spread {
        let rounds = self.0[engine].iter().zip(&self.0[other]);
        Spread::of(rounds.map(|(own, others)| own / others))
    }
}

impl Spread {
    pub fn of(numbers: impl Iterator<Item = f64>) -> Self {
        let mut numbers: Vec<f64> = numbers.collect();
        numbers.sort_by(f64::total_cmp);
        let tenth = numbers.len() / 10;
        Spread {
            median: numbers[numbers.len() / 2],
            low: numbers[tenth],
            high: numbers[numbers.len() - 1 - tenth],
        }
    }
}
