//! Document 01's stand-ins for what Rust leaves open or computes by its library.
use crate::Float;

/// Rust leaves the rounding of `powi` open.
pub trait Powi {
    fn powi2(self) -> Self;
    fn powi5(self) -> Self;
}

impl Powi for Float {
    #[inline(always)]
    fn powi2(self) -> Self {
        self * self
    }

    #[inline(always)]
    fn powi5(self) -> Self {
        self * ((self * self) * (self * self))
    }
}

/// Stand-in one: the cosine and the sine of half the angle of (a, b), whose norm is n.
#[inline(always)]
pub fn half_angle(a: Float, b: Float, n: Float) -> (Float, Float) {
    if n == 0.0 {
        return (1.0, 0.0);
    }
    let cos = ((1.0 + a / n) / 2.0).max(0.0).sqrt();
    let sin = ((1.0 - a / n) / 2.0).max(0.0).sqrt();
    (cos, if b.is_sign_negative() { -sin } else { sin })
}

/// Stand-in two: the disk number x and the circle pair (c, s). y is read by the left-out parts alone.
#[derive(Clone, Copy)]
pub struct Random {
    pub x: Float,
    pub y: Float,
    pub c: Float,
    pub s: Float,
}
