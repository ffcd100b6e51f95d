//! Stub: named by spectrum.rs, not used by the model.
use super::*;

pub struct ColorSpace;

impl ColorSpace {
    pub const sRGB: Self = Self;

    pub const fn from_XYZ(&self, xyz: XYZ) -> RGB {
        RGB::new(xyz.x, xyz.y, xyz.z)
    }
}
