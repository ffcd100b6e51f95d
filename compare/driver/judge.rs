//! Who judges: lumo's own functions over the 95 entries that it has, where glass lies in air, and else the same functions
//! on what the second reading gives.
//!
//! lumo reads a spectrum through its value at a wavelength and through whether it is constant, and in no other way. So
//! where it can't hold a spectrum it is lent a surface that has those values at 360 nm, a grid point, where its lookup
//! hands an entry out as it is.
use super::reading;
use super::spectra::SAMPLES;
use super::surfaces::{distribution, facets, lent_surface, of_bxdf};
use crate::stand_in::Random;
use crate::tracer::bxdf::BxDF;
use crate::tracer::microfacet::MfDistribution;
use crate::tracer::{ColorWavelength, DenseSpectrum};
use crate::{Vec2, Vec3};

/// Of which spectra inputs are: how many entries they have, and whether an outer spectrum is another than ones.
#[derive(Clone, Copy, PartialEq)]
pub struct Tables {
    pub entries: usize,
    pub outer: bool,
}

impl Tables {
    /// With an outer spectrum of ones.
    pub const fn in_air(entries: usize) -> Self {
        Self { entries, outer: false }
    }

    /// With any outer spectra.
    pub const fn any_outer(entries: usize) -> Self {
        Self { entries, outer: true }
    }

    /// Otherwise the second reading judges; with any outer spectra it judges glass.
    pub fn are_judged_by_rust(self) -> bool {
        self == Self::in_air(SAMPLES)
    }

    /// The words of an output's line for them.
    pub fn judge(self) -> &'static str {
        match (self.entries, self.outer) {
            (SAMPLES, false) => "the Rust, 95 entries",
            (_, false) => "the second reading, 471 entries",
            (SAMPLES, true) => "the second reading, outer spectra, 95 entries",
            (_, true) => "the second reading, outer spectra, 471 entries",
        }
    }
}

/// The same where a function may take none.
pub fn name(tables: Option<Tables>) -> &'static str {
    tables.map_or("the Rust", Tables::judge)
}

// ---- a spectrum

/// lumo's spectrum over entries that stand elsewhere: its one field is the array.
pub fn spectrum(values: &[f64]) -> &DenseSpectrum {
    assert!(values.len() == SAMPLES && size_of::<DenseSpectrum>() == size_of::<[f64; SAMPLES]>());
    unsafe { &*values.as_ptr().cast() }
}

pub fn sample_one(values: &[f64], lambda: f64) -> f64 {
    match values.len() {
        SAMPLES => spectrum(values).sample_one(lambda),
        _ => reading::sample_one(values, reading::step(values), lambda),
    }
}

pub fn is_constant(values: &[f64]) -> bool {
    match values.len() {
        SAMPLES => spectrum(values).is_constant(),
        _ => reading::is_constant(values),
    }
}

// ---- a surface

/// The four wavelengths at which a lent surface is read.
#[inline]
pub fn leading() -> ColorWavelength {
    ColorWavelength { lambda: [360.0, 0.0, 0.0, 0.0] }
}

/// lumo's functions of a surface whose spectra are accepted.
pub trait Judge {
    fn glass(&self) -> bool;

    /// For the functions that read no spectrum.
    fn facets(&self) -> &MfDistribution;

    /// Whether eta counts as constant.
    fn constant_eta(&self) -> bool;

    /// The index: of glass, against what lies outside.
    fn eta_at(&self, wl: f64) -> f64;

    fn f_at(&self, wo: Vec3, wh: Vec3, wl: f64) -> f64;

    fn f(&self, wo: Vec3, wh: Vec3, wls: [f64; 4]) -> [f64; 4];

    /// `BxDF::pdf`.
    fn pdf_at(&self, wo: Vec3, wi: Vec3, reflection: bool, wl: f64) -> f64;

    /// `BxDF::sample`.
    fn sampled(&self, wo: Vec3, backface: bool, lambda: [f64; 4], u: f64, random: Random) -> Option<Vec3>;

    /// Whether light is scattered into one direction.
    fn one_direction(&self, wl: f64) -> bool {
        self.facets().is_delta() || self.glass() && self.eta_at(wl) == 1.0
    }
}

/// The Rust, which looks its 95 entries up itself; its glass lies in air.
impl Judge for BxDF {
    fn glass(&self) -> bool {
        matches!(self, BxDF::MfDielectric(_))
    }

    #[inline]
    fn facets(&self) -> &MfDistribution {
        of_bxdf(self)
    }

    #[inline]
    fn constant_eta(&self) -> bool {
        of_bxdf(self).constant_eta()
    }

    #[inline]
    fn eta_at(&self, wl: f64) -> f64 {
        of_bxdf(self).eta_at(wl)
    }

    #[inline]
    fn f_at(&self, wo: Vec3, wh: Vec3, wl: f64) -> f64 {
        of_bxdf(self).f_at(wo, wh, wl)
    }

    fn f(&self, wo: Vec3, wh: Vec3, wls: [f64; 4]) -> [f64; 4] {
        of_bxdf(self).f(wo, wh, &ColorWavelength { lambda: wls }).samples
    }

    #[inline]
    fn pdf_at(&self, wo: Vec3, wi: Vec3, reflection: bool, wl: f64) -> f64 {
        self.pdf(wo, wi, reflection, &ColorWavelength { lambda: [wl, 0.0, 0.0, 0.0] })
    }

    fn sampled(&self, wo: Vec3, backface: bool, lambda: [f64; 4], u: f64, random: Random) -> Option<Vec3> {
        self.sample(wo, backface, &mut ColorWavelength { lambda }, u, random)
    }
}

/// A surface whose spectra the second reading looks up.
pub struct Reading<'a> {
    glass: bool,
    a: Vec2,
    eta: &'a [f64],
    k: &'a [f64],
    /// The outer spectrum and whether it is constant, of glass alone.
    outer: Option<(&'a [f64], bool)>,
}

/// lumo's spectrum with a value at 360 nm, constant or not.
fn at_360(x: f64, constant: bool) -> DenseSpectrum {
    let mut values = [x; SAMPLES];
    if !constant {
        values[1..].fill(f64::NAN);
    }
    DenseSpectrum::new(values)
}

impl<'a> Reading<'a> {
    #[inline]
    pub fn new(glass: bool, a: Vec2, eta: &'a [f64], k: &'a [f64], outer: &'a [f64]) -> Self {
        Self { glass, a, eta, k, outer: glass.then(|| (outer, reading::is_constant(outer))) }
    }

    #[inline]
    fn k_at(&self, wl: f64) -> f64 {
        reading::sample_one(self.k, reading::step(self.k), wl)
    }

    /// lumo's surface with what is read at the wavelength, until the next is lent.
    #[inline]
    fn lent(&self, wl: f64) -> &'static BxDF {
        lent_surface(self.glass, self.a, self.eta_at(wl), self.k_at(wl))
    }

    /// The same to keep, for the samplers, which ask besides whether eta is constant; and the wavelengths to hand them.
    pub fn lent_to_samplers(&self, lambda: [f64; 4]) -> (BxDF, ColorWavelength) {
        let eta = at_360(self.eta_at(lambda[0]), self.constant_eta());
        let of = distribution(self.a, eta, at_360(self.k_at(lambda[0]), false));
        let lambda = [360.0, lambda[1], lambda[2], lambda[3]];
        (if self.glass { BxDF::MfDielectric(of) } else { BxDF::MfConductor(of) }, ColorWavelength { lambda })
    }
}

impl Judge for Reading<'_> {
    fn glass(&self) -> bool {
        self.glass
    }

    #[inline]
    fn facets(&self) -> &MfDistribution {
        facets(self.a)
    }

    fn constant_eta(&self) -> bool {
        reading::is_constant(self.eta) && self.outer.is_none_or(|(_, constant)| constant)
    }

    #[inline]
    fn eta_at(&self, wl: f64) -> f64 {
        match self.outer {
            Some((outer, constant)) => reading::index(self.eta, outer, constant, wl),
            None => reading::sample_one(self.eta, reading::step(self.eta), wl),
        }
    }

    #[inline]
    fn f_at(&self, wo: Vec3, wh: Vec3, wl: f64) -> f64 {
        of_bxdf(self.lent(wl)).f_at(wo, wh, 360.0)
    }

    fn f(&self, wo: Vec3, wh: Vec3, wls: [f64; 4]) -> [f64; 4] {
        wls.map(|wl| self.f_at(wo, wh, wl))
    }

    #[inline]
    fn pdf_at(&self, wo: Vec3, wi: Vec3, reflection: bool, wl: f64) -> f64 {
        self.lent(wl).pdf(wo, wi, reflection, &leading())
    }

    fn sampled(&self, wo: Vec3, backface: bool, lambda: [f64; 4], u: f64, random: Random) -> Option<Vec3> {
        let (of, mut lambda) = self.lent_to_samplers(lambda);
        of.sample(wo, backface, &mut lambda, u, random)
    }
}
