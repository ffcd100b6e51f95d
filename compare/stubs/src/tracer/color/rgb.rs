//! Stub: named by spectrum.rs, not used by the model.
use crate::Float;

pub struct RGB([Float; 3]);

impl RGB {
    pub const fn new(r: Float, g: Float, b: Float) -> Self {
        Self([r, g, b])
    }

    pub fn from_srgb(_r: u8, _g: u8, _b: u8) -> Self {
        unimplemented!()
    }

    pub const fn c(&self, i: usize) -> Float {
        self.0[i % 3]
    }

    pub const fn r(&self) -> Float {
        self.0[0]
    }

    pub const fn g(&self) -> Float {
        self.0[1]
    }

    pub const fn b(&self) -> Float {
        self.0[2]
    }

    pub const fn is_black(&self) -> bool {
        self.0[0] == 0.0 && self.0[1] == 0.0 && self.0[2] == 0.0
    }
}
