//! Generators of texts, worlds, lists of calls, calls that keep one domain's log, and calls
//! of a frame maker, of a bounder, of a writer and of a lateness finder.

pub mod bounds;
pub mod bytes;
pub mod canonical;
pub mod disturb;
pub mod faults;
pub mod frames;
pub mod habits;
pub mod kept;
pub mod late_scripts;
pub mod late_switch;
pub mod latest;
pub mod lists;
pub mod mutate;
pub mod pairs;
pub mod put_out;
pub mod rivals;
pub mod scatter;
pub mod shares;
pub mod sized;
pub mod sketch;
pub mod stores;
pub mod whole;
pub mod write;
pub mod write_calls;

use crate::rng::Rng;

/// Mostly the right length for a row, and else another: none, one off, or any.
fn length_near(rng: &mut Rng, right: usize) -> usize {
    match rng.below(8) {
        0 => 0,
        1 => right - 1,
        2 => right + 1,
        3 => rng.place(2 * right + 2),
        _ => right,
    }
}
