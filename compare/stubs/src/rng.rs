//! Stub of lumo's rng.rs: the module that is at hand.
pub mod maps;
