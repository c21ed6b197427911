//! The bound of a run's steps, told by two bounders and judged: document 02, E3.

pub mod call;
pub mod compare;
pub mod laws;
pub mod runs;
pub mod subject;
