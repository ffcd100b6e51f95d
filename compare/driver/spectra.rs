//! Spectra and wavelengths as inputs.
use super::inputs::{edges, scaled, Rng};

/// The entries of lumo's tables, and of those that are one nanometre apart.
pub const SAMPLES: usize = 95;
pub const FINE_SAMPLES: usize = 471;
/// How many entries more than a table's an input may have.
pub const MORE: usize = 5;

/// Entries of one kind: constant, nearly constant, within a surface's limits, of any size, or edges.
pub fn entries(rng: &mut Rng, out: &mut [f64]) {
    let last = out.len().max(1) - 1;
    match rng.below(8) {
        0 => {
            let constant = [1.0, 1.5, 3.0, 0.0, -0.0, 100.0, 0.01][rng.below(7)];
            out.fill(constant);
        }
        1 => {
            out.fill(rng.between(0.01, 100.0));
            // zeros of either sign are equal
            if rng.below(2) == 0 {
                out.iter_mut().for_each(|v| *v = 0.0 * rng.sign());
            }
        }
        2 if !out.is_empty() => {
            let constant = rng.between(0.01, 100.0);
            out.fill(constant);
            let at = [0, last, rng.below(last + 1)][rng.below(3)];
            out[at] = [constant.next_up(), f64::NAN, f64::INFINITY, 0.0][rng.below(4)];
        }
        3 => out.iter_mut().for_each(|v| *v = scaled(rng)),
        4 => {
            let edges = edges();
            out.iter_mut().for_each(|v| *v = edges[rng.below(edges.len())]);
        }
        5 => out.iter_mut().for_each(|v| *v = f64::from_bits(rng.next())),
        _ => out.iter_mut().for_each(|v| *v = rng.between(0.01, 100.0)),
    }
}

/// A wavelength that the lookup takes in a table of `n` entries: 0 of either sign, a grid point, a double beside one, the
/// ends and the middle between two, or any.
pub fn wavelength(rng: &mut Rng, n: usize) -> f64 {
    let step = if n == SAMPLES { 5.0 } else { 1.0 };
    let grid = 360.0 + step * rng.below(n) as f64;
    let w: f64 = match rng.below(8) {
        0 => return 0.0 * rng.sign(),
        1 => grid,
        2 => grid.next_up(),
        3 => grid.next_down(),
        4 if n == SAMPLES => [360.0, 362.5, 365.0, 825.0, 830.0][rng.below(5)],
        4 => [grid + 0.5, grid + 0.5, (grid + 0.5).next_up(), (grid + 0.5).next_down(), 360.0, 830.0][rng.below(6)],
        _ => rng.between(360.0, 830.0),
    };
    w.clamp(360.0, 830.0)
}

/// Any wavelength, edges first, the rest as a table of `n` entries has them.
pub fn any_wavelength(rng: &mut Rng, i: usize, n: usize) -> f64 {
    let edges = edges();
    if i < edges.len() {
        return edges[i];
    }
    match rng.below(8) {
        0 => f64::from_bits(rng.next()),
        1 => rng.between(350.0, 360.5),
        2 => rng.between(829.5, 840.0),
        _ => wavelength(rng, n),
    }
}
