//! The crates `optics` and `counter` beside lumo's facets, Fresnel terms, sampler, mirror, bend and densities: the checked calls that
//! librulvimba has go through it.
use super::harness::*;
use super::inputs::{Rng, Slot};
use super::judge::{self, leading, Judge, Reading, Tables};
use super::library::surface;
use super::numbers::record;
use super::rulvimba::{self, Spectra, DIRECTION, GLASS, NONE};
use super::spectra::{self, FINE_SAMPLES, SAMPLES};
use super::surfaces::*;
use crate::functions;
use crate::tracer::bxdf::microfacet::{conductor, dielectric, util};
use crate::tracer::bxdf::BxDF;
use crate::tracer::microfacet::MfDistribution;
use crate::tracer::ColorWavelength;
use crate::stand_in::Random;
use crate::{Vec2, Vec3};
use std::panic::{catch_unwind, AssertUnwindSafe};

/// Four samples, laid out as C does.
#[derive(Clone, Copy, Debug, PartialEq)]
#[repr(C)]
pub struct Color(pub [f64; 4]);

impl Words for Color {
    const SHAPE: &'static [Slot] = &[Slot::Float; 4];
    fn get(w: &[f64]) -> Self {
        Self([w[0], w[1], w[2], w[3]])
    }
    fn put(self, out: &mut [u64]) {
        for (o, x) in out.iter_mut().zip(self.0) {
            *o = bits(x);
        }
    }
}

/// A mirror's or a bend's answer, as the library has it.
#[derive(Clone, Copy)]
#[repr(C)]
pub struct Outgoing {
    number: u64,
    outcome: u64,
    wi: Vec3,
}

impl Words for Outgoing {
    const SHAPE: &'static [Slot] = &[Slot::Float; 5];
    fn get(_: &[f64]) -> Self {
        unreachable!()
    }
    fn put(self, out: &mut [u64]) {
        out[..2].copy_from_slice(&[self.number, self.outcome]);
        self.wi.put(&mut out[2..5]);
    }
}

/// A sampler's answer, with the branch that it took.
#[derive(Clone, Copy)]
#[repr(C)]
pub struct Scattered {
    outcome: u64,
    reflection: bool,
    wi: Vec3,
}

impl Words for Scattered {
    const SHAPE: &'static [Slot] = &[Slot::Float; 5];
    fn get(_: &[f64]) -> Self {
        unreachable!()
    }
    fn put(self, out: &mut [u64]) {
        out[..2].copy_from_slice(&[self.outcome, self.reflection as u64]);
        self.wi.put(&mut out[2..5]);
    }
}

#[inline(always)]
fn outgoing(wi: Option<Vec3>) -> Outgoing {
    match wi {
        Some(wi) => Outgoing { number: 0, outcome: DIRECTION, wi },
        None => Outgoing { number: 0, outcome: NONE, wi: Vec3::ZERO },
    }
}

const TOTAL: Outgoing = Outgoing { number: 0, outcome: rulvimba::TOTAL, wi: Vec3::ZERO };

/// lumo's `refract`; total where it comes upon `unreachable!`.
fn rust_refract(eta: f64, wo: Vec3, n: Vec3) -> Outgoing {
    caught(|| outgoing(util::refract(eta, wo, n))).unwrap_or(TOTAL)
}

/// None where a call of the Rust's panics.
pub fn caught<R>(call: impl FnOnce() -> R) -> Option<R> {
    quiet(|| catch_unwind(AssertUnwindSafe(call)).ok())
}

/// Directions whose product, computed, is the cosine to its last bit.
#[inline(always)]
fn of_cosine(cosine: f64) -> (Vec3, Vec3) {
    (Vec3::new(cosine, 0.0, 0.0), Vec3::new(1.0, -0.0, -0.0))
}

fn of_conductor(wi: Option<Vec3>) -> Scattered {
    let Outgoing { outcome, wi, .. } = outgoing(wi);
    Scattered { outcome, reflection: outcome == DIRECTION, wi }
}

/// lumo's sampler of glass, with the branch that its test takes.
fn rust_dielectric_sample(a: Vec2, eta: f64, k: f64, wo: Vec3, u: f64, disk: f64, c: f64, s: f64) -> Scattered {
    let of = lent(a, eta, k);
    let random = Random { x: disk, y: 0.0, c, s };
    let wh = if eta == 1.0 || of.is_delta() { Vec3::Z } else { of.sample_normal(wo, random) };
    let share = of.f_at(wo, wh, 360.0);
    let reflects = u < share / (share + (1.0 - share));
    match caught(|| dielectric::sample(wo, of, &mut leading(), u, random)) {
        Some(Some(wi)) => Scattered { outcome: DIRECTION, reflection: reflects, wi },
        Some(None) => Scattered { outcome: NONE, reflection: false, wi: Vec3::ZERO },
        None => Scattered { outcome: rulvimba::TOTAL, reflection: false, wi: Vec3::ZERO },
    }
}

fn rust_pdf(s: rulvimba::Surface, wo: Vec3, wi: Vec3, reflection: bool, eta: f64, k: f64) -> f64 {
    lent_surface(s.kind == GLASS, Vec2::new(s.roughness.x, s.roughness.y), eta, k).pdf(wo, wi, reflection, &leading())
}

/// lumo's Fresnel term of an index, head on.
pub fn fresnel_of(index: f64) -> u64 {
    bits(lent(Vec2::splat(1.0), index, 0.0).f_at(Vec3::Z, Vec3::Z, 360.0))
}

/// g over g1 by document 01's weight: 0 where g1 is 0.
#[inline]
pub fn g_over_g1(of: &MfDistribution, wo: Vec3, wi: Vec3, wh: Vec3) -> f64 {
    let g1 = of.g1(wo, wh);
    if g1 == 0.0 { 0.0 } else { of.g(wo, wi, wh) / g1 }
}

functions! {
    901 optics_is_delta(a: Vec2) -> bool = facets(a).is_delta();
    902 optics_disney_diffuse(a: Vec2, wo: f64, wi: f64, wh: f64) -> f64 = facets(a).disney_diffuse(wo, wi, wh);
    903 optics_f_schlick(f0: f64, f90: f64, cosine: f64) -> f64 = facets(Vec2::splat(1.0)).f_schlick(f0, f90, cosine);
    904 optics_d(a: Vec2, wh: Vec3) -> f64 = facets(a).d(wh);
    905 optics_lambda(a: Vec2, w: Vec3) -> f64 = facets(a).lambda(w);
    906 optics_chi_pass(wo: Vec3, wh: Vec3) -> bool = facets(Vec2::splat(1.0)).chi_pass(wo, wh);
    907 optics_g(a: Vec2, wo: Vec3, wi: Vec3, wh: Vec3) -> f64 = facets(a).g(wo, wi, wh);
    908 optics_g1(a: Vec2, wo: Vec3, wh: Vec3) -> f64 = facets(a).g1(wo, wh);
    909 optics_g_over_g1(a: Vec2, wo: Vec3, wi: Vec3, wh: Vec3) -> f64 = g_over_g1(facets(a), wo, wi, wh);
    910 optics_sample_normal_pdf(a: Vec2, wh: Vec3, wo: Vec3) -> f64 = facets(a).sample_normal_pdf(wh, wo);
    911 optics_sample_normal(a: Vec2, wo: Vec3, disk: f64, c: f64, s: f64) -> Vec3 = facets(a).sample_normal(wo, Random { x: disk, y: 0.0, c, s });
    912 optics_fr_real(cosine: f64, eta: f64) -> f64 = {
        let (wo, wh) = of_cosine(cosine);
        facets(Vec2::splat(1.0)).fr_real(wo, wh, eta)
    };
    913 optics_fr_complex(cosine: f64, eta: f64, k: f64) -> f64 = {
        let (wo, wh) = of_cosine(cosine);
        facets(Vec2::splat(1.0)).fr_complex(wo, wh, eta, k)
    };
    914 optics_f_at(wo: Vec3, wh: Vec3, eta: f64, k: f64) -> f64 = lent(Vec2::splat(1.0), eta, k).f_at(wo, wh, 360.0);
    921 optics_reflect(wo: Vec3, n: Vec3) -> Outgoing = outgoing(util::reflect(wo, n));
    922 optics_refract(eta: f64, wo: Vec3, n: Vec3) -> Outgoing = rust_refract(eta, wo, n);
    923 optics_conductor_sample(a: Vec2, wo: Vec3, disk: f64, c: f64, s: f64) -> Scattered = of_conductor(conductor::sample(wo, facets(a), Random { x: disk, y: 0.0, c, s }));
    924 optics_dielectric_sample(a: Vec2, eta: f64, k: f64, wo: Vec3, u: f64, disk: f64, c: f64, s: f64) -> Scattered = rust_dielectric_sample(a, eta, k, wo, u, disk, c, s);
    925 optics_conductor_pdf(a: Vec2, wo: Vec3, wi: Vec3) -> f64 = conductor::pdf(wo, wi, facets(a));
    926 optics_dielectric_pdf(a: Vec2, wo: Vec3, wi: Vec3, reflection: bool, eta: f64, k: f64) -> f64 = dielectric::pdf(wo, wi, reflection, &leading(), lent(a, eta, k));
    927 optics_pdf(s: rulvimba::Surface, wo: Vec3, wi: Vec3, reflection: bool, eta: f64, k: f64) -> f64 = rust_pdf(s, wo, wi, reflection, eta, k);
}

// ---- inputs: what each word of a function stands for

#[derive(Clone, Copy, PartialEq)]
enum Part {
    Roughness,
    Wo,
    Wi,
    Wh,
    Index,
    Absorption,
    Flag,
    U,
    Disk,
    Pair,
    Cosine,
    Any,
}

impl Part {
    fn words(self) -> usize {
        match self {
            Part::Roughness | Part::Pair => 2,
            Part::Wo | Part::Wi | Part::Wh => 3,
            _ => 1,
        }
    }
}

fn parts(name: &str) -> &'static [Part] {
    use Part::*;
    match name {
        "optics_is_delta" => &[Roughness],
        "optics_disney_diffuse" => &[Roughness, Cosine, Cosine, Cosine],
        "optics_f_schlick" => &[Any, Any, Cosine],
        "optics_d" => &[Roughness, Wh],
        "optics_lambda" => &[Roughness, Wo],
        "optics_chi_pass" => &[Wo, Wh],
        "optics_g" | "optics_g_over_g1" => &[Roughness, Wo, Wi, Wh],
        "optics_g1" => &[Roughness, Wo, Wh],
        "optics_sample_normal_pdf" => &[Roughness, Wh, Wo],
        "optics_sample_normal" | "optics_conductor_sample" => &[Roughness, Wo, Disk, Pair],
        "optics_fr_real" => &[Cosine, Index],
        "optics_fr_complex" => &[Cosine, Index, Absorption],
        "optics_f_at" => &[Wo, Wh, Index, Absorption],
        "optics_reflect" => &[Wo, Wh],
        "optics_refract" => &[Index, Wo, Wh],
        "optics_dielectric_sample" => &[Roughness, Index, Absorption, Wo, U, Disk, Pair],
        "optics_conductor_pdf" => &[Roughness, Wo, Wi],
        "optics_dielectric_pdf" => &[Roughness, Wo, Wi, Flag, Index, Absorption],
        "optics_pdf" => &[Flag, Roughness, Wo, Wi, Flag, Index, Absorption],
        _ => unreachable!(),
    }
}

fn put3(w: &mut [f64], v: Vec3) {
    w.copy_from_slice(&[v.x, v.y, v.z]);
}

/// The parts of an input, as a bounce has them or at the edges. `i` says how many of its words are any.
fn fill(parts: &[Part], rng: &mut Rng, i: usize, w: &mut [f64]) {
    let eta = index(rng);
    let [wo, wi, wh] = directions(rng, eta);
    let glass = rng.below(2) == 0;
    let mut at = 0;
    for part in parts {
        let n = part.words();
        let words = &mut w[at..at + n];
        at += n;
        match part {
            Part::Roughness => words.copy_from_slice(&roughness(rng)),
            Part::Wo => put3(words, wo),
            Part::Wi => put3(words, wi),
            Part::Wh => put3(words, wh),
            Part::Index => words[0] = eta,
            Part::Absorption => words[0] = if glass { 0.0 * rng.sign() } else { absorption(rng) },
            Part::Flag => words[0] = rng.below(2) as f64,
            Part::U | Part::Disk => words[0] = random_number(rng),
            Part::Pair => words.copy_from_slice(&circle_pair(rng)),
            Part::Cosine => words[0] = if rng.below(4) == 0 { any(rng) } else { wo.dot(wh) },
            Part::Any => words[0] = if rng.below(2) == 0 { any(rng) } else { rng.between(-1.0, 1.0) },
        }
    }
    // these functions take any floats: one word is any, or all
    match i % 16 {
        0..=2 => {
            let at = rng.below(w.len());
            w[at] = any(rng);
        }
        3 => w.iter_mut().for_each(|v| *v = any(rng)),
        _ => (),
    }
}

/// Sources have to be plain functions, so there is one for each name.
macro_rules! sources {
    ( $( $name:literal ),* $(,)? ) => {
        fn source(name: &str) -> fn(&mut Rng, usize, &mut [f64]) {
            match name {
                $( $name => |rng, i, w| {
                    fill(parts($name), rng, i, w);
                    // flags are 0 or 1
                    let mut at = 0;
                    for part in parts($name) {
                        if *part == Part::Flag {
                            w[at] = (w[at] != 0.0) as u8 as f64;
                        }
                        at += part.words();
                    }
                }, )*
                _ => unreachable!(),
            }
        }

        fn bench_source(name: &str) -> fn(&mut Rng, &[Slot], &mut [f64]) {
            match name {
                $( $name => |rng, _, w| usual_parts(parts($name), rng, w), )*
                _ => unreachable!(),
            }
        }
    };
}

sources! {
    "optics_is_delta", "optics_disney_diffuse", "optics_f_schlick", "optics_d", "optics_lambda", "optics_chi_pass",
    "optics_g", "optics_g1", "optics_g_over_g1", "optics_sample_normal_pdf", "optics_sample_normal",
    "optics_fr_real", "optics_fr_complex", "optics_f_at", "optics_reflect", "optics_refract",
    "optics_conductor_sample", "optics_dielectric_sample", "optics_conductor_pdf", "optics_dielectric_pdf", "optics_pdf",
}

/// What a renderer meets: rough surfaces of index 1.5, directions of one hemisphere.
fn usual_parts(parts: &[Part], rng: &mut Rng, w: &mut [f64]) {
    let mut up = || {
        let v = Vec3::new(rng.between(-1.0, 1.0), rng.between(-1.0, 1.0), rng.between(0.05, 1.0)).normalize();
        (v, rng.next())
    };
    let (wo, a) = up();
    let (wi, b) = up();
    let wh = (wo + wi).normalize();
    let theta = (a >> 11) as f64 / (1u64 << 53) as f64 * std::f64::consts::TAU;
    let rest = Rng(b);
    let mut rng = rest;
    let mut at = 0;
    for part in parts {
        let n = part.words();
        let words = &mut w[at..at + n];
        at += n;
        match part {
            Part::Roughness => {
                let a = rng.between(0.05, 1.0);
                words.copy_from_slice(&[a, a]);
            }
            Part::Wo => put3(words, wo),
            Part::Wi => put3(words, wi),
            Part::Wh => put3(words, wh),
            Part::Index => words[0] = 1.5,
            Part::Absorption => words[0] = 0.0,
            Part::Flag => words[0] = 1.0,
            Part::U | Part::Disk => words[0] = rng.unit(),
            Part::Pair => words.copy_from_slice(&[theta.cos(), theta.sin()]),
            Part::Cosine | Part::Any => words[0] = rng.unit(),
        }
    }
}

// ---- functions of spectra, and the calls that refuse: words are flags, indices into the pool, and values

type P = *const f64;

extern "C" {
    fn optics_constant_eta(eta: P, n: usize, outer: P, l: usize) -> bool;
    fn optics_eta_at(eta: P, n: usize, wl: f64) -> f64;
    fn optics_k_at(eta: P, n: usize, k: P, m: usize, wl: f64) -> f64;
    fn optics_index_on(kind: u64, eta: P, n: usize, k: P, m: usize, outer: P, l: usize, wl: f64) -> f64;
    fn optics_f(kind: u64, eta: P, n: usize, k: P, m: usize, outer: P, l: usize, wo: Vec3, wh: Vec3, wls: Color) -> Color;
    fn optics_checked_is_delta(s: rulvimba::Surface, eta: P, n: usize, k: P, m: usize, outer: P, l: usize) -> Answer<bool>;
    fn optics_checked_chi_pass(s: rulvimba::Surface, eta: P, n: usize, k: P, m: usize, outer: P, l: usize, wo: Vec3, wh: Vec3) -> Answer<bool>;
    fn optics_checked_disney_diffuse(s: rulvimba::Surface, eta: P, n: usize, k: P, m: usize, outer: P, l: usize, wo: f64, wi: f64, wh: f64) -> Answer<f64>;
}

/// How many words a surface has: its kind, x and y roughness, and which eta, k and outer spectrum of the pool.
const SURFACE: usize = 6;

/// The surface of an input's first words.
pub struct Fields<'a> {
    pub kind: u64,
    pub a: Vec2,
    pub eta: &'a [f64],
    pub k: &'a [f64],
    pub outer: &'a [f64],
}

fn fields(w: &[f64]) -> Fields<'static> {
    let [eta, k, outer] = spectra_of([w[3], w[4], w[5]].map(|i| i as usize));
    Fields { kind: w[0] as u64, a: Vec2::new(w[1], w[2]), eta, k, outer }
}

impl Fields<'_> {
    fn glass(&self) -> bool {
        self.kind == GLASS
    }

    fn refused(&self) -> u64 {
        if self.kind > GLASS { 1 } else { surface_refused(self.glass(), self.a, self.eta, self.k, self.outer) }
    }

    // as the library takes them
    fn record(&self) -> rulvimba::Surface {
        surface(self.kind, self.a)
    }

    fn spectra(&self) -> Spectra<'_> {
        Spectra { eta: self.eta, k: self.k, outer: self.outer }
    }

    /// lumo's surface, made anew where the last call had another.
    fn rust(&self) -> &'static BxDF {
        static mut LAST: Option<(bool, *const f64, *const f64, BxDF)> = None;
        let last = unsafe { &mut *std::ptr::addr_of_mut!(LAST) };
        let key = (self.glass(), self.eta.as_ptr(), self.k.as_ptr());
        if !matches!(last, Some((g, e, k, _)) if (*g, *e, *k) == key) {
            let of = distribution(self.a, spectrum_of(self.eta), spectrum_of(self.k));
            let of = if self.glass() { BxDF::MfDielectric(of) } else { BxDF::MfConductor(of) };
            *last = Some((key.0, key.1, key.2, of));
        }
        let of = &mut last.as_mut().unwrap().3;
        if let BxDF::MfConductor(d) | BxDF::MfDielectric(d) = of {
            if let MfDistribution::Ggx(cfg) = d {
                cfg.roughness = self.a;
            }
        }
        of
    }

    /// What the judge of these spectra answers, where a lookup can read them.
    fn judged<R>(&self, call: impl FnOnce(&dyn Judge) -> R) -> R {
        if is_lumos(self.glass(), self.eta, self.k, self.outer) {
            return call(self.rust());
        }
        call(&Reading::new(self.glass(), self.a, self.eta, self.k, self.outer))
    }
}

fn v3(w: &[f64]) -> Vec3 {
    Vec3::new(w[0], w[1], w[2])
}

/// A kind that is neither metal nor glass.
pub fn other_kind(rng: &mut Rng) -> u64 {
    [2, 3, 1 << 32, u64::MAX, 2 + (rng.next() >> 1)][rng.below(5)]
}

/// The kind of an input's surface: now and then it is neither metal nor glass.
fn kind(w: &[f64]) -> f64 {
    let but_outer = w[..SURFACE - 1].iter().chain(&w[SURFACE..]);
    let rng = &mut Rng(but_outer.fold(0, |h, x| h.rotate_left(7) ^ x.to_bits()));
    if rng.below(32) == 0 { other_kind(rng) as f64 } else { w[0] }
}

/// The value where neither the surface nor a check refuses, and otherwise the number of the first that does.
fn checked<T: Words>(f: &Fields, checks: &[(u64, bool)], zero: T, value: impl FnOnce() -> T) -> Answer<T> {
    let surface = f.refused();
    if surface != 0 {
        return Answer { number: surface, value: zero };
    }
    accepted(checks, zero, value)
}

/// The same on a surface that is accepted.
fn accepted<T: Words>(checks: &[(u64, bool)], zero: T, value: impl FnOnce() -> T) -> Answer<T> {
    match checks.iter().find(|c| !c.1) {
        Some((number, _)) => Answer { number: *number, value: zero },
        None => Answer { number: 0, value: value() },
    }
}

/// The density on a surface that is accepted: refused 5, then 4, and 9 where it isn't finite.
pub fn density(of: &(impl Judge + ?Sized), wo: Vec3, wi: Vec3, reflection: bool, wl: f64) -> Answer<f64> {
    let checks = [(5, is_direction(wo) && is_direction(wi)), (4, is_wavelength(wl))];
    let c = accepted(&checks, 0.0, || of.pdf_at(wo, wi, reflection, wl));
    if c.number == 0 && !c.value.is_finite() { Answer { number: 9, value: 0.0 } } else { c }
}

/// Fills the surface, of such spectra, then the parts; a few of the words are then any.
fn checked_fill(parts: &[Part], wavelengths: usize, tables: Tables, rng: &mut Rng, w: &mut [f64]) {
    let n = tables.entries;
    let glass = rng.below(2) == 0 || tables.outer && rng.below(2) == 0;
    let picked = pick_any(rng, tables, glass);
    w[0] = glass as u8 as f64;
    w[1..3].copy_from_slice(&roughness(rng));
    w[3..SURFACE].copy_from_slice(&picked.map(|i| i as f64));
    let first = w.len() - wavelengths;
    fill(parts, rng, 9, &mut w[SURFACE..first]);
    for at in first..w.len() {
        w[at] = if rng.below(12) == 0 { spectra::any_wavelength(rng, 1000, n) } else { spectra::wavelength(rng, n) };
    }
    // one word at an edge, often beyond a limit
    if rng.below(8) == 0 {
        let at = 1 + rng.below(2);
        w[at] = any(rng);
    } else if rng.below(8) == 0 && w.len() > SURFACE {
        let at = SURFACE + rng.below(w.len() - SURFACE);
        w[at] = any(rng);
    } else if rng.below(16) == 0 {
        let at = 1 + rng.below(2);
        w[at] = [1e-5f64.next_down(), 1f64.next_up(), 0.0, f64::NAN, -1e-9][rng.below(5)];
    }
}

/// A call that refuses, on spectra of `N` entries, with outer ones of ones or, by `OUTER`, of any: its parts after the
/// surface, then wavelengths.
macro_rules! refusing {
    ( $( $number:literal $name:literal [ $( $part:ident ),* ] + $wls:literal -> $outs:literal, $here:expr, $rust:expr ; )* ) => {
        fn refusing_functions<const N: usize, const OUTER: bool>() -> Vec<Function> {
            vec![ $( {
                const PARTS: &[Part] = &[ $( Part::$part ),* ];
                let words: usize = PARTS.iter().map(|p| p.words()).sum();
                let here: fn(&Fields, &[f64], &mut [u64]) = $here;
                let rust: fn(&Fields, &[f64], &mut [u64]) = $rust;
                Function {
                    tables: Some(Tables { entries: N, outer: OUTER }),
                    shape: vec![Slot::Float; SURFACE + words + $wls],
                    source: Some(|rng, _, w| {
                        checked_fill(PARTS, $wls, Tables { entries: N, outer: OUTER }, rng, w);
                        let mut at = SURFACE;
                        for part in PARTS {
                            if *part == Part::Flag {
                                w[at] = (w[at] != 0.0) as u8 as f64;
                            }
                            at += part.words();
                        }
                        w[0] = kind(w);
                    }),
                    ..Function::new(
                        $name,
                        $number,
                        $outs,
                        Box::new(move |w, out| here(&fields(w), &w[SURFACE..], out)),
                        Box::new(move |w, out| rust(&fields(w), &w[SURFACE..], out)),
                    )
                }
            }, )* ]
        }
    };
}

/// The fields as a static library takes them: of compare_path, and of librulvimba.
macro_rules! call {
    ( rulvimba::$name:ident, $f:expr $( , $arg:expr )* ) => {
        rulvimba::$name($f.record(), $f.spectra() $( , $arg )* )
    };
    ( $name:ident, $f:expr $( , $arg:expr )* ) => {
        unsafe { $name($f.record(), $f.eta.as_ptr(), $f.eta.len(), $f.k.as_ptr(), $f.k.len(), $f.outer.as_ptr(), $f.outer.len() $( , $arg )* ) }
    };
}

/// The same for the functions that check nothing: a kind is metal or glass.
macro_rules! unchecked {
    ( $name:ident, $f:expr $( , $arg:expr )* ) => { {
        let f = $f;
        let (eta, k, outer) = (f.eta, f.k, f.outer);
        unsafe { $name(f.glass() as u64, eta.as_ptr(), eta.len(), k.as_ptr(), k.len(), outer.as_ptr(), outer.len() $( , $arg )* ) }
    } };
}

refusing! {
    // the check of a surface alone; the sample has it in every other call
    950 "rulvimba_check_surface" [] + 0 -> 1,
        |f, _, out| call!(rulvimba::check_surface, f).put(out),
        |f, _, out| f.refused().put(out);
    951 "optics_checked_is_delta" [] + 0 -> 2,
        |f, _, out| call!(optics_checked_is_delta, f).put(out),
        |f, _, out| checked(f, &[], false, || f.judged(|j| j.facets().is_delta())).put(out);
    952 "rulvimba_lambda" [Wo] + 0 -> 2,
        |f, w, out| call!(rulvimba::lambda, f, get(w)).put(out),
        |f, w, out| checked(f, &[(5, is_direction(v3(w)))], 0.0, || f.judged(|j| j.facets().lambda(v3(w)))).put(out);
    953 "optics_checked_chi_pass" [Wo, Wh] + 0 -> 2,
        |f, w, out| call!(optics_checked_chi_pass, f, v3(w), v3(&w[3..])).put(out),
        |f, w, out| {
            let (wo, wh) = (v3(w), v3(&w[3..]));
            checked(f, &[(5, is_direction(wo)), (5, is_direction(wh))], false, || f.judged(|j| j.facets().chi_pass(wo, wh))).put(out)
        };
    954 "rulvimba_g1" [Wo, Wh] + 0 -> 2,
        |f, w, out| call!(rulvimba::g1, f, get(w), get(&w[3..])).put(out),
        |f, w, out| {
            let (wo, wh) = (v3(w), v3(&w[3..]));
            checked(f, &[(5, is_direction(wo)), (5, is_direction(wh))], 0.0, || f.judged(|j| j.facets().g1(wo, wh))).put(out)
        };
    955 "rulvimba_g" [Wo, Wi, Wh] + 0 -> 2,
        |f, w, out| call!(rulvimba::g, f, get(w), get(&w[3..]), get(&w[6..])).put(out),
        |f, w, out| {
            let (wo, wi, wh) = (v3(w), v3(&w[3..]), v3(&w[6..]));
            let taken = is_direction(wo) && is_direction(wi) && is_direction(wh);
            checked(f, &[(5, taken)], 0.0, || f.judged(|j| j.facets().g(wo, wi, wh))).put(out)
        };
    956 "rulvimba_d" [Wh] + 0 -> 2,
        |f, w, out| call!(rulvimba::d, f, get(w)).put(out),
        |f, w, out| checked(f, &[(5, is_direction(v3(w)))], 0.0, || f.judged(|j| j.facets().d(v3(w)))).put(out);
    957 "optics_checked_disney_diffuse" [Cosine, Cosine, Cosine] + 0 -> 2,
        |f, w, out| call!(optics_checked_disney_diffuse, f, w[0], w[1], w[2]).put(out),
        |f, w, out| checked(f, &[], 0.0, || f.judged(|j| j.facets().disney_diffuse(w[0], w[1], w[2]))).put(out);
    958 "rulvimba_fresnel_at" [Wo, Wh] + 1 -> 2,
        |f, w, out| call!(rulvimba::fresnel_at, f, get(w), get(&w[3..]), w[6]).put(out),
        |f, w, out| {
            let (wo, wh) = (v3(w), v3(&w[3..]));
            let checks = [(5, is_direction(wo) && is_direction(wh)), (4, is_lookup(w[6]))];
            checked(f, &checks, 0.0, || f.judged(|j| j.f_at(wo, wh, w[6]))).put(out)
        };
    959 "rulvimba_fresnel" [Wo, Wh] + 4 -> 5,
        |f, w, out| call!(rulvimba::fresnel, f, get(w), get(&w[3..]), get(&w[6..])).put(out),
        |f, w, out| {
            let (wo, wh) = (v3(w), v3(&w[3..]));
            let checks = [(5, is_direction(wo) && is_direction(wh)), (4, w[6..10].iter().all(|l| is_lookup(*l)))];
            checked(f, &checks, Color([0.0; 4]), || Color(f.judged(|j| j.f(wo, wh, Color::get(&w[6..]).0)))).put(out)
        };
    960 "rulvimba_sample_normal" [Wo, Disk, Pair] + 0 -> 4,
        |f, w, out| call!(rulvimba::sample_normal, f, get(w), w[3], w[4], w[5]).put(out),
        |f, w, out| {
            let checks = [(5, is_direction(v3(w))), (6, is_random(w[3])), (7, is_pair(w[4], w[5]))];
            let random = Random { x: w[3], y: 0.0, c: w[4], s: w[5] };
            checked(f, &checks, Vec3::ZERO, || f.judged(|j| j.facets().sample_normal(v3(w), random))).put(out)
        };
    961 "rulvimba_density" [Wo, Wi, Flag] + 1 -> 2,
        |f, w, out| call!(rulvimba::density, f, get(w), get(&w[3..]), w[6] != 0.0, w[7]).put(out),
        |f, w, out| {
            let answer = match f.refused() {
                0 => f.judged(|j| density(j, v3(w), v3(&w[3..]), w[6] != 0.0, w[7])),
                number => Answer { number, value: 0.0 },
            };
            answer.put(out)
        };
    // roughness x, raised, is the one number
    962 "rulvimba_make_surface" [] + 0 -> 4,
        |f, _, out| rulvimba::make_surface(f.kind, f.a.x, f.spectra()).put(out),
        |f, _, out| out.copy_from_slice(&rust_make_surface(f));
    963 "rulvimba_reflect" [Wo, Wh] + 0 -> 5,
        |_, w, out| rulvimba::reflect(get(w), get(&w[3..])).put(out),
        |_, w, out| {
            let (wo, n) = (v3(w), v3(&w[3..]));
            checked_outgoing(&[(5, is_direction(wo) && is_direction(n))], || outgoing(util::reflect(wo, n))).put(out)
        };
    964 "rulvimba_refract" [Index, Wo, Wh] + 0 -> 5,
        |_, w, out| rulvimba::refract(w[0], get(&w[1..]), get(&w[4..])).put(out),
        |_, w, out| {
            let (wo, n) = (v3(&w[1..]), v3(&w[4..]));
            let checks = [(2, within(0.01, 100.0, w[0])), (5, is_direction(wo) && is_direction(n))];
            checked_outgoing(&checks, || rust_refract(w[0], wo, n)).put(out)
        };
    // unchecked, on tables of any values, and of unlike lengths beside 471 entries
    931 "optics_constant_eta" [] + 0 -> 1,
        |f, _, out| {
            let Fields { eta, outer, .. } = taken::<N>(f);
            unsafe { optics_constant_eta(eta.as_ptr(), eta.len(), outer.as_ptr(), outer.len()) }.put(out)
        },
        |f, _, out| {
            let Fields { eta, outer, .. } = taken::<N>(f);
            (judge::is_constant(eta) && judge::is_constant(outer)).put(out)
        };
    932 "optics_eta_at" [] + 1 -> 1,
        |f, w, out| {
            let eta = taken::<N>(f).eta;
            unsafe { optics_eta_at(eta.as_ptr(), eta.len(), at_hand(w[0])) }.put(out)
        },
        |f, w, out| judge::sample_one(taken::<N>(f).eta, at_hand(w[0])).put(out);
    933 "optics_k_at" [] + 1 -> 1,
        |f, w, out| {
            let Fields { eta, k, .. } = taken::<N>(f);
            unsafe { optics_k_at(eta.as_ptr(), eta.len(), k.as_ptr(), k.len(), at_hand(w[0])) }.put(out)
        },
        |f, w, out| judge::sample_one(taken::<N>(f).k, at_hand(w[0])).put(out);
    934 "optics_f" [Wo, Wh] + 4 -> 4,
        |f, w, out| {
            let wls = Color(Color::get(&w[6..]).0.map(at_hand));
            unchecked!(optics_f, taken::<N>(f), v3(w), v3(&w[3..]), wls).put(out)
        },
        |f, w, out| {
            let wls = Color::get(&w[6..]).0.map(at_hand);
            Color(taken::<N>(f).judged(|j| j.f(v3(w), v3(&w[3..]), wls))).put(out)
        };
    935 "optics_index_on" [] + 1 -> 1,
        |f, w, out| unchecked!(optics_index_on, taken::<N>(f), at_hand(w[0])).put(out),
        |f, w, out| taken::<N>(f).judged(|j| j.eta_at(at_hand(w[0]))).put(out);
}

/// The index that a surface of such a kind has at a wavelength, unchecked.
pub fn index_at(kind: u64, of: Spectra, wl: f64) -> f64 {
    let (eta, k, outer) = (of.eta, of.k, of.outer);
    unsafe { optics_index_on(kind, eta.as_ptr(), eta.len(), k.as_ptr(), k.len(), outer.as_ptr(), outer.len(), wl) }
}

/// The fields with tables of one spacing, of any values: another in the place of what isn't one.
fn taken<'a, const N: usize>(f: &Fields<'a>) -> Fields<'a> {
    let or = |v: &'a [f64], w: &'a [f64]| if v.len() == N { v } else { w };
    let [eta, k] = accepted_spectra(N);
    Fields { eta: or(f.eta, eta), k: or(f.k, k), outer: or(f.outer, air(N)), ..*f }
}

/// A wavelength that the Rust takes.
fn at_hand(l: f64) -> f64 {
    if is_lookup(l) { l } else { 400.0 }
}

/// A surface of the roughness `f.a.x`, as words.
fn rust_make_surface(f: &Fields) -> [u64; 4] {
    let made = make_surface(f);
    [made.number, (made.number == 0 && f.glass()) as u64, bits(made.value.x), bits(made.value.y)]
}

/// x and y roughness by `MicrofacetConfig::new`, whose assertion is the refusal 1; then 2, 3 and 13.
pub fn make_surface(f: &Fields) -> Answer<Vec2> {
    let refused = |number| Answer { number, value: Vec2::new(0.0, 0.0) };
    if f.kind > GLASS {
        return refused(1);
    }
    let made = caught(|| {
        let one = crate::tracer::DenseSpectrum::from_constant;
        let t = crate::tracer::Texture::default;
        crate::tracer::microfacet::MicrofacetConfig::new(f.a.x, one(1.0), one(0.0), t(), t(), t()).roughness
    });
    let Some(a) = made else { return refused(1) };
    match spectra_refused(f.glass(), f.eta, f.k, f.outer) {
        0 => Answer { number: 0, value: a },
        number => refused(number),
    }
}

fn checked_outgoing(checks: &[(u64, bool)], value: impl FnOnce() -> Outgoing) -> Outgoing {
    match checks.iter().find(|c| !c.1) {
        Some((number, _)) => Outgoing { number: *number, outcome: 0, wi: Vec3::ZERO },
        None => value(),
    }
}

fn takes_no_spectra(f: &Function) -> bool {
    ["rulvimba_reflect", "rulvimba_refract"].contains(&f.name)
}

fn takes_outer(f: &Function) -> bool {
    !takes_no_spectra(f) && !["optics_eta_at", "optics_k_at"].contains(&f.name)
}

pub fn table() -> Vec<Function> {
    let mut all = functions();
    for f in &mut all {
        f.source = Some(source(f.name));
        f.bench = bench_source(f.name);
        // `max(x, 0.0)` meets -0 only where one roughness is below 0
        match f.name {
            "optics_sample_normal_pdf" | "optics_conductor_pdf" | "optics_dielectric_pdf" => {
                f.open_zero = true;
                f.open_at = |w| w[0].is_sign_negative() != w[1].is_sign_negative();
            }
            "optics_pdf" => {
                f.open_zero = true;
                f.open_at = |w| w[1].is_sign_negative() != w[2].is_sign_negative();
            }
            _ => (),
        }
    }
    // mirror and bend take no spectra
    let (mut of_none, of_coarse): (Vec<_>, Vec<_>) = refusing_functions::<SAMPLES, false>().into_iter().partition(takes_no_spectra);
    of_none.iter_mut().for_each(|f| f.tables = None);
    all.extend(of_none);
    all.extend(of_coarse);
    all.extend(refusing_functions::<FINE_SAMPLES, false>().into_iter().filter(|f| !takes_no_spectra(f)));
    all.extend(refusing_functions::<SAMPLES, true>().into_iter().filter(takes_outer));
    all.extend(refusing_functions::<FINE_SAMPLES, true>().into_iter().filter(takes_outer));
    all.sort_by_key(|f| f.number);
    all
}

// ---- the sample: a surface's spectra stand in records before those of its functions

/// The numbers of a spectrum's records: its entries as they are; one past that 95 entries, two past it 471, by their first
/// words, which stand by turns.
const ETA: u32 = 970;
const K: u32 = 980;
const OUTER: u32 = 940;

/// The most words that a record's count has room for.
const WORDS: usize = 99;

/// How a spectrum stands in a record, with at most so many words by turns: what its number adds to its kind's, and the
/// words. None where a record has no room for it.
fn as_record(values: &[f64], turns: usize) -> Option<(u32, &[f64])> {
    let same = |i: usize, p: usize| bits(values[i]) == bits(values[i - p]);
    let shortest = (1..=turns).find(|p| (*p..values.len()).all(|i| same(i, *p)));
    match (values.len(), shortest) {
        (SAMPLES, Some(p)) => Some((1, &values[..p])),
        (FINE_SAMPLES, Some(p)) => Some((2, &values[..p])),
        (n, _) if n <= WORDS => Some((0, values)),
        _ => None,
    }
}

/// Whether records have room for a spectrum.
pub fn is_writable(values: &[f64]) -> bool {
    as_record(values, WORDS).is_some()
}

/// The entries of a surface's spectra where they are others than before.
pub struct Written {
    before: [Vec<u64>; 3],
}

impl Written {
    pub fn new() -> Self {
        Self { before: [vec![], vec![], vec![]] }
    }

    /// Those of a surface in air: its outer spectrum is not written.
    pub fn write_in_air(&mut self, eta: &[f64], k: &[f64], out: &mut String) {
        self.one(0, eta, ETA, 1, out);
        self.one(1, k, K, 1, out);
    }

    pub fn write(&mut self, eta: &[f64], k: &[f64], outer: &[f64], out: &mut String) {
        self.one(0, eta, ETA, WORDS, out);
        self.one(1, k, K, WORDS, out);
        self.one(2, outer, OUTER, WORDS, out);
    }

    fn one(&mut self, which: usize, values: &[f64], number: u32, turns: usize, out: &mut String) {
        let now: Vec<u64> = values.iter().map(|v| bits(*v)).collect();
        // the first record of none stands too
        if self.before[which] == now && !now.is_empty() {
            return;
        }
        let (more, words) = as_record(values, turns).expect("a record has room for the spectrum");
        record(out, number + more, words, &[]);
        self.before[which] = now;
    }
}

/// How many surfaces the sample has, and how many inputs each function on each.
const SAMPLED: usize = 40;
const ON_EACH: usize = 2;

/// Document 01's samples of a surface that is made: roughness 0 is accepted as 1e-5; -1e-9 and NaN are 1.
fn sample_roughness(written: &mut Written, out: &mut String) {
    let (eta, k) = ([1.5; SAMPLES], [0.0; SAMPLES]);
    written.write_in_air(&eta, &k, out);
    for (a, number) in [(0.0, 0), (-1e-9, 1), (f64::NAN, 1)] {
        let f = Fields { kind: GLASS, a: Vec2::splat(a), eta: &eta, k: &k, outer: air(SAMPLES) };
        let made = rust_make_surface(&f);
        assert!(made[0] == number && f64::from_bits(made[2]) == [1e-5, 0.0][number as usize], "document 01's roughness {a}");
        record(out, 962, &[1.0, a, a], &made);
    }
}

/// Records of every function that the Rust judges: the number, the counts of words, the words in, its words out.
pub fn sample(seed: u64) -> String {
    let mut out = String::new();
    // the index by itself stands in the sample of outer spectra
    let recorded = table().into_iter().filter(|f| f.is_judged_by_rust() && ![935, 950].contains(&f.number));
    let (of_surfaces, others): (Vec<Function>, Vec<Function>) = recorded.partition(|f| f.number > 930);
    for f in &others {
        f.sample(seed, 60, &mut out);
    }
    let rng = &mut Rng(seed);
    let mut written = Written::new();
    sample_roughness(&mut written, &mut out);
    for at in 0..SAMPLED {
        let glass = at % 2 == 0;
        let [mut eta, mut k] = POOL.pick(rng, glass);
        // every fourth is refused, by a length of at most 99 too
        match at % 8 {
            3 => eta = POOL.etas_taken + rng.below(POOL.etas.len() - 1 - POOL.etas_taken),
            6 => k = POOL.ks_taken + rng.below(POOL.ks.len() - 1 - POOL.ks_taken),
            _ => (),
        }
        written.write_in_air(&POOL.etas[eta], &POOL.ks[k], &mut out);
        for f in &of_surfaces {
            // these read 95 entries
            if f.number < 950 && (POOL.etas[eta].len() != SAMPLES || POOL.ks[k].len() != SAMPLES) {
                continue;
            }
            for i in 0..ON_EACH {
                let mut w = vec![0.0; f.ins()];
                (f.source.unwrap())(rng, i, &mut w);
                w[0] = glass as u8 as f64;
                record_on(f, [eta, k, AIR], w, &mut out);
            }
        }
    }
    out
}

/// The record of a function on the surface of an input with other spectra, which stand before it.
pub fn record_on(f: &Function, spectra: [usize; 3], mut w: Vec<f64>, out: &mut String) {
    w[3..SURFACE].copy_from_slice(&spectra.map(|i| i as f64));
    if f.number < 950 {
        w[SURFACE..].iter_mut().rev().take([0, 1, 1, 4, 1][f.number as usize - 931]).for_each(|l| *l = at_hand(*l));
    }
    let mut answer = vec![0; f.outs];
    (f.rust)(&w, &mut answer);
    w.drain(3..SURFACE);
    record(out, f.number, &w, &answer);
}

// ---- for the benchmark: functions of a whole surface, two directions and a wavelength

pub type OfSurface = extern "C-unwind" fn(&Surface, Vec3, Vec3, f64) -> f64;

fn eta_and_k(s: &Surface, wl: f64) -> (f64, f64) {
    let Surface { eta, k, outer, .. } = s;
    let index = index_at(s.glass as u64, Spectra { eta, k, outer }, wl);
    (index, unsafe { optics_k_at(eta.as_ptr(), eta.len(), k.as_ptr(), k.len(), wl) })
}

extern "C-unwind" fn here_f_at(s: &Surface, wo: Vec3, wh: Vec3, wl: f64) -> f64 {
    let (eta, k) = eta_and_k(s, wl);
    unsafe { here::optics_f_at(wo, wh, eta, k) }
}

extern "C-unwind" fn rust_f_at(s: &Surface, wo: Vec3, wh: Vec3, wl: f64) -> f64 {
    s.distribution().f_at(wo, wh, wl)
}

extern "C-unwind" fn here_f(s: &Surface, wo: Vec3, wh: Vec3, wl: f64) -> f64 {
    let wls = Color([wl, 400.0, 512.5, 700.0]);
    let f = unsafe {
        optics_f(s.glass as u64, s.eta.as_ptr(), s.eta.len(), s.k.as_ptr(), s.k.len(), s.outer.as_ptr(), s.outer.len(), wo, wh, wls)
    };
    f.0[0] + f.0[1] + f.0[2] + f.0[3]
}

extern "C-unwind" fn rust_f(s: &Surface, wo: Vec3, wh: Vec3, wl: f64) -> f64 {
    let wls = ColorWavelength { lambda: [wl, 400.0, 512.5, 700.0] };
    let f = s.distribution().f(wo, wh, &wls).samples;
    f[0] + f[1] + f[2] + f[3]
}

fn here_pdf(s: &Surface, wo: Vec3, wi: Vec3, reflection: bool, wl: f64) -> f64 {
    let (eta, k) = eta_and_k(s, wl);
    unsafe { here::optics_pdf(surface(s.glass as u64, s.a), wo, wi, reflection, eta, k) }
}

fn lumo_pdf(s: &Surface, wo: Vec3, wi: Vec3, reflection: bool, wl: f64) -> f64 {
    s.rust.as_ref().unwrap().pdf(wo, wi, reflection, &ColorWavelength { lambda: [wl, 0.0, 0.0, 0.0] })
}

extern "C-unwind" fn here_pdf_reflected(s: &Surface, wo: Vec3, wi: Vec3, wl: f64) -> f64 {
    here_pdf(s, wo, wi, true, wl)
}

extern "C-unwind" fn rust_pdf_reflected(s: &Surface, wo: Vec3, wi: Vec3, wl: f64) -> f64 {
    lumo_pdf(s, wo, wi, true, wl)
}

extern "C-unwind" fn here_pdf_passed(s: &Surface, wo: Vec3, wi: Vec3, wl: f64) -> f64 {
    here_pdf(s, wo, -wi, false, wl)
}

extern "C-unwind" fn rust_pdf_passed(s: &Surface, wo: Vec3, wi: Vec3, wl: f64) -> f64 {
    lumo_pdf(s, wo, -wi, false, wl)
}

/// The name, whether the surface is glass, the function here and the Rust's.
pub fn of_surface_calls() -> Vec<(&'static str, bool, OfSurface, OfSurface)> {
    vec![
        ("f_at, real index", true, here_f_at, rust_f_at),
        ("f_at, complex index", false, here_f_at, rust_f_at),
        ("f at four wavelengths, real index", true, here_f, rust_f),
        ("f at four wavelengths, complex index", false, here_f, rust_f),
        ("density of metal", false, here_pdf_reflected, rust_pdf_reflected),
        ("density of glass, reflected", true, here_pdf_reflected, rust_pdf_reflected),
        ("density of glass, passed", true, here_pdf_passed, rust_pdf_passed),
    ]
}
