//! Stub: diffuse scattering, not used by the model.
use super::*;

pub mod lambertian {
    use super::*;

    pub fn f(_spec: &Spectrum, _lambda: &ColorWavelength) -> Color {
        unimplemented!()
    }

    pub fn sample(_rand_sq: crate::stand_in::Random) -> Option<Direction> {
        unimplemented!()
    }

    pub fn pdf(_wo: Direction, _wi: Direction) -> Float {
        unimplemented!()
    }
}
