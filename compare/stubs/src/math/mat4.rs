//! Stub: named by lib.rs and by `Vec3::extend`, not used by the model.
use crate::Float;

pub struct Mat4;

pub struct Vec4;

impl Vec4 {
    pub fn new(_x: Float, _y: Float, _z: Float, _w: Float) -> Self {
        unimplemented!()
    }
}
