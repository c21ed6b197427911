//! Frames by weights, made by two makers and judged: document 02, E1.

pub mod call;
pub mod compare;
pub mod laws;
