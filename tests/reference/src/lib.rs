//! The reader and the machine of document 01 and, of document 02, the frame maker
//! (E1), the shares to the nearest colour (E2), the bound of a run's steps (E3), the
//! plan written back (E4), the latest a domain can finish (E6), the written lines
//! that go back through L2 (E7), the run that keeps one domain's log (E8) and the line
//! that a switch touches before it waits (E9), in plain Rust.
//!
//! This is a second reading of the papers. It is written from them alone and
//! shares no code with the proved implementation, so that the two can be held
//! against each other.
//!
//! The entry points are [`read_plan`], [`fresh_start`], [`step`], [`run`],
//! [`run_kept`] and [`log_of`]. Each one judges what it was lent before it changes
//! anything, in the order that document 01 gives under "The plan text", and a refused
//! call leaves everything as it was. [`make_frame`] takes nothing but numbers;
//! [`write_frame`] is the same over rows that are lent. [`step_bound`] judges as the
//! entry points do and changes nothing at all; [`write_plan`] writes text to a buffer
//! and [`write_latest`] a script.

#![forbid(unsafe_code)]

pub mod bound;
pub mod cache;
pub mod canonical;
pub mod colours;
pub mod flat;
pub mod frame;
pub mod geometry;
pub mod journal;
pub mod latest;
pub mod limits;
pub mod machine;
pub mod mail;
pub mod op;
pub mod plan;
pub mod planrun;
mod reader;
pub mod refusal;
pub mod schedule;
pub mod scripts;
mod search;
mod shift;
pub mod state;
mod tenant;
mod token;

pub use bound::{step_bound, StepBound};
pub use canonical::write_plan;
pub use frame::{make_frame, write_frame, Frame};
pub use journal::{log_of, Kept, Part};
pub use latest::{latest, write_latest, Latest};
pub use machine::{fresh_start, run, run_kept, step, Lent, Outcome, Progress};
pub use plan::Plan;
pub use reader::read_plan;
pub use refusal::Refusal;
pub use state::State;

#[cfg(test)]
mod tests;
