//! The C peer behind the plain interface.

pirkvezo_differential::c_engine! {
    /// The program in `peer`, which build.rs compiles.
    pub struct Peer, "peer", "peer_"
}
