//! The latest end of a domain, told by two finders and judged: document 02, E6.

pub mod call;
pub mod compare;
pub mod laws;
pub mod subject;
pub mod windows;
