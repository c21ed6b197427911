//! Readings from frames at every place of a page. A processor may hold up a
//! load behind an earlier store that has the same offset in another page, so
//! the time of a call can hang on where its caller's stack happens to lie.

use crate::subjects::{Subject, LIBRARY, PEER, REFERENCE};
use crate::table::{Cell, Table};
use crate::timing::{measure_rounds, Settings, Spread};
use crate::workloads;
use std::collections::BTreeSet;
use std::hint::black_box;
use std::mem::MaybeUninit;
use std::time::Duration;

const PAGE: usize = 4_096;
/// Frames begin at multiples of this.
const APART: usize = 16;
const POSITIONS: usize = PAGE / APART;

/// A position has one round for so many of the bench's, and an engine a shorter
/// turn in it: there are 256 positions, and each text is read at all of them.
const ROUNDS_FOR_ONE: usize = 4;
const TURN: Duration = Duration::from_micros(100);

/// The engines that read: the first three of all.
const ENGINES: usize = 3;

/// Nanoseconds a byte of each engine in one round.
type Round = [f64; ENGINES];

/// Readings of a short and of a long text, at each position by turns: of each
/// engine's times at all positions the lowest, the median and the highest; of the
/// library's ratios to it, each at one position, the median and the highest.
pub fn table(settings: &Settings, subjects: &mut [Box<dyn Subject>]) -> Table {
    let columns = [
        "bytes",
        "lowest",
        "median",
        "highest",
        "ratio",
        "highest ratio",
    ];
    let mut table = Table::new("reading by stack position: nanoseconds a byte", &columns);
    let texts = workloads::texts().into_iter();
    for text in texts.filter(|text| ["1 KB", "32 KB"].contains(&text.name)) {
        let length = text.bytes.len() as u64;
        let positions = at_all_positions(settings, subjects, &text.bytes);
        for engine in [REFERENCE, LIBRARY, PEER] {
            let name = format!("{}, {}", text.name, subjects[engine].name());
            table.row(&name, cells(length, &positions, engine));
        }
    }
    table
}

/// Several rounds at each position. All positions have their turn before one has
/// its second: what slows the machine for a while then meets many positions
/// once, and not a few in all their rounds. Another engine begins at the next
/// position, and in a position's next round.
fn at_all_positions(
    settings: &Settings,
    subjects: &mut [Box<dyn Subject>],
    text: &[u8],
) -> Vec<Vec<Round>> {
    let mut read = |subject: &mut Box<dyn Subject>| {
        assert_eq!(subject.read(text), 0, "a good text");
        text.len() as u64
    };
    let mut positions = vec![Vec::new(); POSITIONS];
    let mut offsets = BTreeSet::new();
    for round in 0..settings.rounds.div_ceil(ROUNDS_FOR_ONE) {
        for (position, rounds) in positions.iter_mut().enumerate() {
            from_position(position, &mut || {
                offsets.insert(address_of_frame() % PAGE);
                let number = round + position;
                let once = number..number + 1;
                let engines = &mut subjects[..ENGINES];
                let times = measure_rounds(once, TURN, engines, |_| {}, &mut read);
                rounds.push([0, 1, 2].map(|engine| times.median(engine)));
            });
        }
    }
    assert_eq!(offsets.len(), POSITIONS, "each position is another");
    positions
}

/// The figures of one engine.
fn cells(bytes: u64, positions: &[Vec<Round>], engine: usize) -> Vec<Cell> {
    let of_each = |figure: &dyn Fn(&Round) -> f64| -> Vec<f64> {
        let positions = positions.iter();
        positions
            .map(|rounds| Spread::of(rounds.iter().map(figure)).median)
            .collect()
    };
    let times = of_each(&|round| round[engine]);
    let ratios = of_each(&|round| round[LIBRARY] / round[engine]);
    let highest = |numbers: &[f64]| numbers.iter().copied().fold(f64::MIN, f64::max);
    vec![
        Cell::Units(bytes),
        Cell::Time(times.iter().copied().fold(f64::MAX, f64::min)),
        Cell::Time(Spread::of(times.iter().copied()).median),
        Cell::Time(highest(&times)),
        Cell::Ratio(Spread::of(ratios.iter().copied())),
        Cell::Ratio(Spread::of([highest(&ratios)].into_iter())),
    ]
}

/// Does the work from a frame that lies so many times sixteen bytes further
/// down than at position 0.
fn from_position(position: usize, work: &mut dyn FnMut()) {
    descend(0, position, work);
}

/// Goes through eight frames, one for each binary digit of the position. All
/// have a pad, so that they differ by the pads' lengths alone.
#[inline(never)]
fn descend(digit: usize, position: usize, work: &mut dyn FnMut()) {
    match (digit, position >> digit & 1) {
        (8, _) => work(),
        (_, 0) => padded::<APART>(digit, position, work),
        (0, _) => padded::<{ APART + (APART << 0) }>(digit, position, work),
        (1, _) => padded::<{ APART + (APART << 1) }>(digit, position, work),
        (2, _) => padded::<{ APART + (APART << 2) }>(digit, position, work),
        (3, _) => padded::<{ APART + (APART << 3) }>(digit, position, work),
        (4, _) => padded::<{ APART + (APART << 4) }>(digit, position, work),
        (5, _) => padded::<{ APART + (APART << 5) }>(digit, position, work),
        (6, _) => padded::<{ APART + (APART << 6) }>(digit, position, work),
        (_, _) => padded::<{ APART + (APART << 7) }>(digit, position, work),
    }
}

#[inline(never)]
fn padded<const BYTES: usize>(digit: usize, position: usize, work: &mut dyn FnMut()) {
    let mut pad = MaybeUninit::<[u8; BYTES]>::uninit();
    black_box(&mut pad);
    descend(digit + 1, position, work);
    // Used once more behind the call, else its place could be given up before.
    black_box(&mut pad);
}

#[inline(never)]
fn address_of_frame() -> usize {
    let here = 0_u8;
    black_box(&here) as *const u8 as usize
}

#[cfg(test)]
mod tests {
    use super::{address_of_frame, from_position, APART, POSITIONS};

    #[test]
    fn positions_are_sixteen_bytes_apart() {
        let addresses: Vec<usize> = (0..POSITIONS)
            .map(|position| {
                let mut address = 0;
                from_position(position, &mut || address = address_of_frame());
                address
            })
            .collect();
        println!("{:#x} down to {:#x}", addresses[0], addresses[255]);
        for (position, address) in addresses.iter().enumerate() {
            assert_eq!(addresses[0] - address, APART * position);
        }
    }
}
