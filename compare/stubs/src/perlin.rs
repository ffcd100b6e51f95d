//! Stub: named by texture.rs, not used by the model.
use crate::{Float, Point};

pub struct Perlin;

impl Perlin {
    pub fn noise_at(&self, _p: Point) -> Float {
        unimplemented!()
    }
}
