//! Runs that keep one domain's log: what is refused, lists of calls, and the same runs with
//! everyone's log. Document 02, E8.

mod beside;
mod calls;
mod refused;
mod trial;
