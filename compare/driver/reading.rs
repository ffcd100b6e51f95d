//! The second reading: what a table answers, written from documents 01 ("Spectrum") and 02 (i), and what glass's index is,
//! from 02 (iv). lumo's tables have 95 entries and no other number, and its glass lies in air: so this one judges where a
//! table has 471, and where an outer spectrum isn't 1.0 throughout.

/// How many nm lie between two entries: 471 entries are 1 apart, any other number 5.
#[inline]
pub fn step(values: &[f64]) -> u32 {
    if values.len() == 471 { 1 } else { 5 }
}

/// The value at 0 or at a wavelength from 360 to 830: 0 gives 0.0; a grid point gives its entry; else i0·x0 + i1·x1.
#[inline]
pub fn sample_one(values: &[f64], step: u32, lambda: f64) -> f64 {
    if lambda == 0.0 {
        return 0.0;
    }
    // whole nm: the grid point at the wavelength or next below it
    let b0 = (lambda as u32 - 360) / step;
    let l0 = (360 + step * b0) as f64;
    let i0 = values[b0 as usize];
    if lambda == l0 {
        return i0;
    }
    let i1 = values[b0 as usize + 1];
    let x1 = (lambda - l0) / step as f64;
    let x0 = 1.0 - x1;
    i0 * x0 + i1 * x1
}

/// Whether every entry is equal to the first, by `==`.
pub fn is_constant(values: &[f64]) -> bool {
    values.iter().all(|v| *v == values[0])
}

// ---- glass against what lies outside

/// The outer spectrum at a wavelength that was not ended: a constant one gives its entry between grid points too.
#[inline]
fn outer_at(outer: &[f64], constant: bool, lambda: f64) -> f64 {
    if constant { outer[0] } else { sample_one(outer, step(outer), lambda) }
}

/// The index: eta, read as any table is, divided by what lies outside; 0.0 at wavelength 0. `constant` says whether the
/// outer spectrum is.
#[inline]
pub fn index(eta: &[f64], outer: &[f64], constant: bool, lambda: f64) -> f64 {
    if lambda == 0.0 {
        return 0.0;
    }
    sample_one(eta, step(eta), lambda) / outer_at(outer, constant, lambda)
}
