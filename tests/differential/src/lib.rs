//! Drives two implementations of the papers side by side.
//!
//! An [`engine::Engine`] is anything with document 01's entry points over plain
//! numbers, and with the run of document 02, E8, that keeps one domain's log. The
//! reference always is one; a library that follows the same C interface is the other
//! when it is linked. Generators make texts, worlds and lists of calls from a seed,
//! and each call's answer and everything that it was lent are held against each other
//! byte by byte. An [`engine::FrameMaker`] has document 02's frame maker, an
//! [`engine::Bounder`] its bound of a run's steps, an [`engine::Writer`] its plan
//! written back, an [`engine::LatenessFinder`] its latest end of a domain, and all
//! four are treated alike.

pub mod bound;
pub mod canonical;
pub mod compare;
pub mod engine;
pub mod frame;
pub mod generate;
pub mod guarded;
pub mod isolation;
pub mod kept;
pub mod latest;
pub mod laws;
pub mod rng;
pub mod seed;
pub mod tally;
pub mod timeline;
pub mod world;
