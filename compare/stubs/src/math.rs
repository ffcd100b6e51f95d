//! Stub of lumo's math.rs: the modules that the model uses.
pub mod complex;
pub mod mat3;
pub mod mat4;
pub mod spherical_utils;
pub mod vec2;
pub mod vec3;
