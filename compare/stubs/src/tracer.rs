//! Stub of lumo's tracer.rs: the modules that are at hand.
pub mod bsdf;
pub mod bxdf;
pub mod color;
pub mod microfacet;
pub mod onb;
pub mod texture;

pub use color::{Color, ColorWavelength, DenseSpectrum, Spectrum};
pub use texture::Texture;
