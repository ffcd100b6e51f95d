//! Stub: media, not used by the model.
use super::*;

pub fn f(_lambda: &ColorWavelength, _t: Float, _sigma_t: &Spectrum, _sigma_s: &Spectrum) -> Color {
    unimplemented!()
}

pub fn sample(_wo: Direction, _g: Float, _rand_sq: crate::stand_in::Random) -> Option<Direction> {
    unimplemented!()
}

pub fn pdf(_wo: Direction, _wi: Direction, _g: Float) -> Float {
    unimplemented!()
}
