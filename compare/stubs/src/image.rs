//! Stub: named by texture.rs, not used by the model.
use crate::tracer::{Color, ColorWavelength};
use crate::Vec2;

pub struct Image<T>(pub T);

impl<T> Image<T> {
    pub fn value_at(&self, _uv: Vec2, _lambda: &ColorWavelength) -> Color {
        unimplemented!()
    }

    pub fn power(&self, _lambda: &ColorWavelength) -> Color {
        unimplemented!()
    }
}
