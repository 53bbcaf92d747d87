//! In place of the crate's pairings: the name that its lib.rs passes on.
pub trait PairingVar {}
