//! Stub: named by lib.rs, not used by the model.
pub struct Mat3;
