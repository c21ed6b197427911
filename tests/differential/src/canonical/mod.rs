//! The plan written back by two writers, and judged: document 02, E4.

pub mod call;
pub mod compare;
pub mod form;
pub mod laws;
pub mod subject;
pub mod witness;
