//! The crates `floats` and `numbers` beside lumo's floats, vectors, complex numbers, bases and angles.
use super::harness::*;
use super::inputs::{Rng, Slot};
use super::judge::{self, spectrum, Tables};
use super::reading;
use super::root::numbers_sqrt_by_digits;
use super::rulvimba;
use super::spectra::{self, FINE_SAMPLES, MORE, SAMPLES};
use super::surfaces::{is_direction, is_length, is_lookup};
use crate::functions;
use crate::math::{complex::Complex, spherical_utils};
use crate::stand_in::{half_angle, Powi};
use crate::tracer::onb::Onb;
use crate::tracer::DenseSpectrum;
use crate::{Vec2, Vec3};

/// lumo's `Complex`, laid out as C does.
#[derive(Clone, Copy)]
#[repr(C)]
pub struct Pair {
    pub re: f64,
    pub im: f64,
}

impl Pair {
    #[inline(always)]
    fn complex(self) -> Complex {
        Complex::new(self.re, self.im)
    }
}

impl From<Complex> for Pair {
    #[inline(always)]
    fn from(z: Complex) -> Self {
        Self { re: z.Re, im: z.Im }
    }
}

impl Words for Pair {
    const SHAPE: &'static [Slot] = &[Slot::Float, Slot::Float];
    fn get(w: &[f64]) -> Self {
        Self { re: w[0], im: w[1] }
    }
    fn put(self, out: &mut [u64]) {
        out.copy_from_slice(&[bits(self.re), bits(self.im)]);
    }
}

/// lumo's `Onb`, laid out as C does.
#[derive(Clone, Copy)]
#[repr(C)]
pub struct Basis {
    u: Vec3,
    v: Vec3,
    w: Vec3,
}

impl Basis {
    #[inline(always)]
    fn onb(self) -> Onb {
        Onb { u: self.u, v: self.v, w: self.w }
    }
}

impl From<Onb> for Basis {
    #[inline(always)]
    fn from(b: Onb) -> Self {
        Self { u: b.u, v: b.v, w: b.w }
    }
}

impl Words for Basis {
    const SHAPE: &'static [Slot] = &[
        Slot::Vector, Slot::Rest, Slot::Rest,
        Slot::Vector, Slot::Rest, Slot::Rest,
        Slot::Vector, Slot::Rest, Slot::Rest,
    ];
    fn get(w: &[f64]) -> Self {
        Self { u: Vec3::get(&w[0..3]), v: Vec3::get(&w[3..6]), w: Vec3::get(&w[6..9]) }
    }
    fn put(self, out: &mut [u64]) {
        self.u.put(&mut out[0..3]);
        self.v.put(&mut out[3..6]);
        self.w.put(&mut out[6..9]);
    }
}

/// The value where the directions are accepted, and otherwise 5.
#[inline(always)]
fn of_directions<T: Words>(directions: &[Vec3], value: impl FnOnce() -> T) -> Answer<T> {
    if directions.iter().all(|w| is_direction(*w)) {
        return Answer { number: 0, value: value() };
    }
    Answer { number: 5, value: T::get(&[0.0; 9]) }
}

functions! {
    101 numbers_float_max(x: f64, y: f64) -> f64 = x.max(y);
    102 numbers_float_min(x: f64, y: f64) -> f64 = x.min(y);
    103 numbers_float_clamp(x: f64, lo: f64, hi: f64) -> f64 = x.clamp(lo, hi);
    104 numbers_float_abs(x: f64) -> f64 = x.abs();
    105 numbers_float_is_sign_negative(x: f64) -> bool = x.is_sign_negative();
    106 numbers_float_signum(x: f64) -> f64 = x.signum();
    107 numbers_float_is_infinite(x: f64) -> bool = x.is_infinite();
    108 numbers_float_is_finite(x: f64) -> bool = x.is_finite();
    109 numbers_float_powi2(v: f64) -> f64 = v.powi2();
    110 numbers_float_powi5(v: f64) -> f64 = v.powi5();
    111 numbers_float_within(lo: f64, hi: f64, x: f64) -> bool = lo <= x && x <= hi;
    112 numbers_float_nan() -> f64 = f64::NAN;
    120 numbers_sqrt(x: f64) -> f64 = x.sqrt();

    201 numbers_vec2_new(x: f64, y: f64) -> Vec2 = Vec2::new(x, y);
    202 numbers_vec2_splat(v: f64) -> Vec2 = Vec2::splat(v);
    203 numbers_vec2_extend(v: Vec2, z: f64) -> Vec3 = v.extend(z);
    204 numbers_vec2_dot(v: Vec2, w: Vec2) -> f64 = v.dot(w);
    205 numbers_vec2_abs(v: Vec2) -> Vec2 = v.abs();
    206 numbers_vec2_min(v: Vec2, w: Vec2) -> Vec2 = v.min(w);
    207 numbers_vec2_max(v: Vec2, w: Vec2) -> Vec2 = v.max(w);
    208 numbers_vec2_negate(v: Vec2) -> Vec2 = -v;
    209 numbers_vec2_add(v: Vec2, w: Vec2) -> Vec2 = v + w;
    210 numbers_vec2_sub(v: Vec2, w: Vec2) -> Vec2 = v - w;
    211 numbers_vec2_mul(v: Vec2, w: Vec2) -> Vec2 = v * w;
    212 numbers_vec2_div(v: Vec2, w: Vec2) -> Vec2 = v / w;
    213 numbers_vec2_add_float(v: Vec2, a: f64) -> Vec2 = v + a;
    214 numbers_vec2_sub_float(v: Vec2, a: f64) -> Vec2 = v - a;
    215 numbers_vec2_mul_float(v: Vec2, a: f64) -> Vec2 = v * a;
    216 numbers_vec2_div_float(v: Vec2, a: f64) -> Vec2 = v / a;
    217 numbers_vec2_float_add(a: f64, v: Vec2) -> Vec2 = a + v;
    218 numbers_vec2_float_sub(a: f64, v: Vec2) -> Vec2 = a - v;
    219 numbers_vec2_float_mul(a: f64, v: Vec2) -> Vec2 = a * v;
    220 numbers_vec2_float_div(a: f64, v: Vec2) -> Vec2 = a / v;

    301 numbers_vec3_new(x: f64, y: f64, z: f64) -> Vec3 = Vec3::new(x, y, z);
    302 numbers_vec3_splat(v: f64) -> Vec3 = Vec3::splat(v);
    303 numbers_vec3_truncate(v: Vec3) -> Vec2 = v.truncate();
    304 numbers_vec3_length(v: Vec3) -> f64 = v.length();
    305 numbers_vec3_length_squared(v: Vec3) -> f64 = v.length_squared();
    306 numbers_vec3_distance(v: Vec3, w: Vec3) -> f64 = v.distance(w);
    307 numbers_vec3_distance_squared(v: Vec3, w: Vec3) -> f64 = v.distance_squared(w);
    308 numbers_vec3_scale(v: Vec3, s: f64) -> Vec3 = v.scale(s);
    309 numbers_vec3_cross(v: Vec3, w: Vec3) -> Vec3 = v.cross(w);
    310 numbers_vec3_dot(v: Vec3, w: Vec3) -> f64 = v.dot(w);
    311 numbers_vec3_project_onto(v: Vec3, n: Vec3) -> Vec3 = v.project_onto(n);
    312 numbers_vec3_normalize(v: Vec3) -> Vec3 = v.normalize();
    313 numbers_vec3_is_normalized(v: Vec3) -> bool = v.is_normalized();
    314 numbers_vec3_is_direction(v: Vec3) -> bool = is_direction(v);
    315 numbers_vec3_min_element(v: Vec3) -> f64 = v.min_element();
    316 numbers_vec3_max_element(v: Vec3) -> f64 = v.max_element();
    317 numbers_vec3_abs(v: Vec3) -> Vec3 = v.abs();
    318 numbers_vec3_min(v: Vec3, w: Vec3) -> Vec3 = v.min(w);
    319 numbers_vec3_max(v: Vec3, w: Vec3) -> Vec3 = v.max(w);
    320 numbers_vec3_negate(v: Vec3) -> Vec3 = -v;
    321 numbers_vec3_add(v: Vec3, w: Vec3) -> Vec3 = v + w;
    322 numbers_vec3_sub(v: Vec3, w: Vec3) -> Vec3 = v - w;
    323 numbers_vec3_mul(v: Vec3, w: Vec3) -> Vec3 = v * w;
    324 numbers_vec3_div(v: Vec3, w: Vec3) -> Vec3 = v / w;
    325 numbers_vec3_add_float(v: Vec3, a: f64) -> Vec3 = v + a;
    326 numbers_vec3_sub_float(v: Vec3, a: f64) -> Vec3 = v - a;
    327 numbers_vec3_mul_float(v: Vec3, a: f64) -> Vec3 = v * a;
    328 numbers_vec3_div_float(v: Vec3, a: f64) -> Vec3 = v / a;
    329 numbers_vec3_float_add(a: f64, v: Vec3) -> Vec3 = a + v;
    330 numbers_vec3_float_sub(a: f64, v: Vec3) -> Vec3 = a - v;
    331 numbers_vec3_float_mul(a: f64, v: Vec3) -> Vec3 = a * v;
    332 numbers_vec3_float_div(a: f64, v: Vec3) -> Vec3 = a / v;

    401 numbers_complex_new(re: f64, im: f64) -> Pair = Complex::new(re, im).into();
    402 numbers_complex_from(v: f64) -> Pair = Complex::from(v).into();
    403 numbers_complex_norm_sqr(z: Pair) -> f64 = z.complex().norm_sqr();
    404 numbers_complex_co(z: Pair) -> Pair = z.complex().co().into();
    405 numbers_complex_sqrt(z: Pair) -> Pair = z.complex().sqrt().into();
    406 numbers_complex_norm(z: Pair) -> f64 = z.complex().norm();
    407 numbers_complex_cos_half(z: Pair, norm: f64) -> f64 = half_angle(z.re, z.im, norm).0;
    408 numbers_complex_sin_half(z: Pair, norm: f64) -> f64 = half_angle(z.re, z.im, norm).1;
    409 numbers_complex_add(z: Pair, w: Pair) -> Pair = (z.complex() + w.complex()).into();
    410 numbers_complex_float_add(a: f64, w: Pair) -> Pair = (a + w.complex()).into();
    411 numbers_complex_sub(z: Pair, w: Pair) -> Pair = (z.complex() - w.complex()).into();
    412 numbers_complex_float_sub(a: f64, w: Pair) -> Pair = (a - w.complex()).into();
    413 numbers_complex_mul(z: Pair, w: Pair) -> Pair = (z.complex() * w.complex()).into();
    414 numbers_complex_mul_float(z: Pair, a: f64) -> Pair = (z.complex() * a).into();
    415 numbers_complex_float_mul(a: f64, w: Pair) -> Pair = (a * w.complex()).into();
    416 numbers_complex_div(z: Pair, w: Pair) -> Pair = (z.complex() / w.complex()).into();
    417 numbers_complex_div_float(z: Pair, a: f64) -> Pair = (z.complex() / a).into();
    418 numbers_complex_float_div(a: f64, w: Pair) -> Pair = (a / w.complex()).into();

    501 numbers_onb_new(w: Vec3) -> Basis = Onb::new(w).into();
    502 numbers_onb_to_world(b: Basis, v: Vec3) -> Vec3 = b.onb().to_world(v);
    503 numbers_onb_to_local(b: Basis, v: Vec3) -> Vec3 = b.onb().to_local(v);

    601 numbers_spherical_utils_same_hemisphere(v: Vec3, u: Vec3) -> bool = spherical_utils::same_hemisphere(v, u);
    602 numbers_spherical_utils_cos_phi(w: Vec3) -> f64 = spherical_utils::cos_phi(w);
    603 numbers_spherical_utils_sin_phi(w: Vec3) -> f64 = spherical_utils::sin_phi(w);
    604 numbers_spherical_utils_cos_theta(w: Vec3) -> f64 = spherical_utils::cos_theta(w);
    605 numbers_spherical_utils_sin_theta(w: Vec3) -> f64 = spherical_utils::sin_theta(w);
    606 numbers_spherical_utils_tan_theta(w: Vec3) -> f64 = spherical_utils::tan_theta(w);
    607 numbers_spherical_utils_cos2_theta(w: Vec3) -> f64 = spherical_utils::cos2_theta(w);
    608 numbers_spherical_utils_sin2_theta(w: Vec3) -> f64 = spherical_utils::sin2_theta(w);
    609 numbers_spherical_utils_tan2_theta(w: Vec3) -> f64 = spherical_utils::tan2_theta(w);

    802 numbers_checked_onb(normal: Vec3) -> Answer<Basis> = of_directions(&[normal], || Onb::new(normal).into());
    803 numbers_checked_to_local(v: Vec3, normal: Vec3) -> Answer<Vec3> = of_directions(&[v, normal], || Onb::new(normal).to_local(v));
    804 numbers_checked_to_world(v: Vec3, normal: Vec3) -> Answer<Vec3> = of_directions(&[v, normal], || Onb::new(normal).to_world(v));
    805 numbers_checked_same_hemisphere(v: Vec3, u: Vec3) -> Answer<bool> = of_directions(&[v, u], || spherical_utils::same_hemisphere(v, u));
    806 numbers_checked_cos_phi(w: Vec3) -> Answer<f64> = of_directions(&[w], || spherical_utils::cos_phi(w));
    807 numbers_checked_sin_phi(w: Vec3) -> Answer<f64> = of_directions(&[w], || spherical_utils::sin_phi(w));
    808 numbers_checked_cos_theta(w: Vec3) -> Answer<f64> = of_directions(&[w], || spherical_utils::cos_theta(w));
    809 numbers_checked_sin_theta(w: Vec3) -> Answer<f64> = of_directions(&[w], || spherical_utils::sin_theta(w));
    810 numbers_checked_tan_theta(w: Vec3) -> Answer<f64> = of_directions(&[w], || spherical_utils::tan_theta(w));
    811 numbers_checked_cos2_theta(w: Vec3) -> Answer<f64> = of_directions(&[w], || spherical_utils::cos2_theta(w));
    812 numbers_checked_sin2_theta(w: Vec3) -> Answer<f64> = of_directions(&[w], || spherical_utils::sin2_theta(w));
    813 numbers_checked_tan2_theta(w: Vec3) -> Answer<f64> = of_directions(&[w], || spherical_utils::tan2_theta(w));
}

/// Rust's `clamp` panics where its bounds are out of order or a NaN.
fn bounds_in_order(w: &mut [f64]) {
    for bound in &mut w[1..3] {
        if bound.is_nan() {
            *bound = 1.0;
        }
    }
    if w[1] > w[2] {
        w.swap(1, 2);
    }
}

/// A NaN's sign is free, so where the sign bit is read a NaN comes with it clear.
fn positive_nan(w: &mut [f64]) {
    w.iter_mut().filter(|v| v.is_nan()).for_each(|v| *v = v.abs());
}

fn normal_values(rng: &mut Rng, _: &[Slot], w: &mut [f64]) {
    w[0] = f64::from_bits((rng.next() % 0x7fe0000000000000) + 0x0010000000000000);
}

pub type RootCall = extern "C-unwind" fn(f64) -> f64;

/// The square root here, its digits by themselves, and the root in the Rust, for the benchmark.
pub fn root_calls() -> (RootCall, RootCall, RootCall) {
    let f: unsafe extern "C" fn(f64) -> f64 = here::numbers_sqrt;
    let g: unsafe extern "C" fn(f64) -> f64 = numbers_sqrt_by_digits;
    let (here, digits) = unsafe { (std::mem::transmute(f), std::mem::transmute(g)) };
    (here, digits, rust::numbers_sqrt)
}

pub type BasisCalls = (extern "C-unwind" fn(Vec3) -> Basis, extern "C-unwind" fn(Basis, Vec3) -> Vec3);

/// The basis and the change to it, here and in the Rust.
pub fn basis_calls() -> (BasisCalls, BasisCalls) {
    let f: unsafe extern "C" fn(Vec3) -> Basis = here::numbers_onb_new;
    let g: unsafe extern "C" fn(Basis, Vec3) -> Vec3 = here::numbers_onb_to_local;
    let here = unsafe { (std::mem::transmute(f), std::mem::transmute(g)) };
    (here, (rust::numbers_onb_new, rust::numbers_onb_to_local))
}

// ---- spectra: entries as a pointer and their number, as C has a slice
extern "C" {
    fn numbers_dense_spectrum_sample_one(values: *const f64, n: usize, lambda: f64) -> f64;
    fn numbers_dense_spectrum_is_constant(values: *const f64, n: usize) -> bool;
    fn numbers_dense_spectrum_all_within(values: *const f64, n: usize, lo: f64, hi: f64) -> bool;
    fn numbers_dense_spectrum_all_finite(values: *const f64, n: usize) -> bool;
    fn numbers_dense_spectrum_is_wavelength(lambda: f64) -> bool;
    fn numbers_dense_spectrum_is_lookup_wavelength(lambda: f64) -> bool;
}

/// The lookup without checks, of a table and a wavelength that are taken.
pub fn sample_one(values: &[f64], lambda: f64) -> f64 {
    unsafe { numbers_dense_spectrum_sample_one(values.as_ptr(), values.len(), lambda) }
}

type Lookup = extern "C-unwind" fn(*const f64, usize, f64) -> f64;

#[inline(never)]
extern "C-unwind" fn rust_sample_one(values: *const f64, _n: usize, lambda: f64) -> f64 {
    let spectrum: &DenseSpectrum = unsafe { &*values.cast() };
    spectrum.sample_one(lambda)
}

#[inline(never)]
extern "C-unwind" fn read_sample_one(values: *const f64, n: usize, lambda: f64) -> f64 {
    let values = unsafe { std::slice::from_raw_parts(values, n) };
    reading::sample_one(values, reading::step(values), lambda)
}

/// ns for a lookup, in one spectrum of `N` entries, at the last word of each input.
#[inline(never)]
fn time_lookup<const N: usize>(data: &[f64], f: Lookup) -> f64 {
    let values = &data[..N];
    let lambdas: Vec<f64> = data.chunks(N + 1).map(|c| c[N]).collect();
    let mut out = vec![0.0; lambdas.len()];
    let f = black_box(f);
    timed(lambdas.len(), || {
        for (o, lambda) in out.iter_mut().zip(&lambdas) {
            *o = f(values.as_ptr(), N, *lambda);
        }
        out
    })
}

/// `N` entries, then a wavelength that is taken.
fn lookup_source<const N: usize>(rng: &mut Rng, _i: usize, w: &mut [f64]) {
    spectra::entries(rng, &mut w[..N]);
    w[N] = spectra::wavelength(rng, N);
}

/// Where the words behind the entries begin in an input that begins with their number.
const fn behind(n: usize) -> usize {
    1 + n + MORE
}

/// A number of entries, `N` or any up to a few more, the entries, then two limits.
fn entries_source<const N: usize>(rng: &mut Rng, i: usize, w: &mut [f64]) {
    let n = if i % 4 == 0 { i / 4 % behind(N) } else { N };
    w.fill(0.0);
    w[0] = n as f64;
    spectra::entries(rng, &mut w[1..n + 1]);
    let limits = [[0.01, 100.0], [1e-6, 100.0], [0.0, 0.0], [-f64::INFINITY, f64::INFINITY], [f64::NAN, 1.0]];
    w[behind(N)..].copy_from_slice(&limits[rng.below(limits.len())]);
}

fn lookup_bench<const N: usize>(rng: &mut Rng, _: &[Slot], w: &mut [f64]) {
    w.iter_mut().for_each(|v| *v = rng.between(0.01, 100.0));
    w[N] = rng.between(360.0, 830.0);
}

fn any_wavelength_source(rng: &mut Rng, i: usize, w: &mut [f64]) {
    w[0] = spectra::any_wavelength(rng, i, SAMPLES);
}

/// The checked lookup by documents 01 and 02 (i): 2, then 4, on 95 entries where the Rust panics.
fn rust_lookup(values: &[f64], lambda: f64) -> Answer<f64> {
    let refused = |number| Answer { number, value: 0.0 };
    if !is_length(values.len()) || !values.iter().all(|v| v.is_finite()) {
        return refused(2);
    }
    let taken = if values.len() == SAMPLES { !panics(|| spectrum(values).sample_one(lambda)) } else { is_lookup(lambda) };
    if !taken {
        return refused(4);
    }
    Answer { number: 0, value: judge::sample_one(values, lambda) }
}

/// A number of entries, the entries, a wavelength of any kind, and nothing.
fn checked_lookup_source<const N: usize>(rng: &mut Rng, i: usize, w: &mut [f64]) {
    entries_source::<N>(rng, i, w);
    // mostly entries that are taken
    if i % 8 > 2 {
        w[0] = N as f64;
        w[1..=N].iter_mut().for_each(|v| *v = rng.between(-100.0, 100.0));
    }
    w[behind(N)] = spectra::any_wavelength(rng, i / 8, N);
}

/// A function of entries: `call` is given them, and the words after them.
fn of_entries<const N: usize>(
    name: &'static str,
    number: u32,
    here: fn(&[f64], &[f64]) -> bool,
    rust: fn(&[f64], &[f64]) -> bool,
) -> Function {
    fn call<const N: usize>(f: fn(&[f64], &[f64]) -> bool) -> Call {
        Box::new(move |w, out| f(&w[1..1 + w[0] as usize], &w[behind(N)..]).put(out))
    }
    Function {
        tables: Some(Tables::in_air(N)),
        shape: vec![Slot::Float; behind(N) + 2],
        source: Some(entries_source::<N>),
        ..Function::new(name, number, 1, call::<N>(here), call::<N>(rust))
    }
}

/// The second reading at 95 entries, where the Rust can judge it.
pub fn reading_beside_rust() -> Function {
    Function {
        tables: Some(Tables::in_air(SAMPLES)),
        shape: vec![Slot::Float; SAMPLES + 1],
        source: Some(lookup_source::<SAMPLES>),
        ..Function::new(
            "the second reading itself",
            0,
            2,
            Box::new(|w, out| {
                let values = &w[..SAMPLES];
                out[0] = bits(reading::sample_one(values, reading::step(values), w[SAMPLES]));
                out[1] = reading::is_constant(values) as u64;
            }),
            Box::new(|w, out| {
                let values = spectrum(&w[..SAMPLES]);
                out[0] = bits(values.sample_one(w[SAMPLES]));
                out[1] = values.is_constant() as u64;
            }),
        )
    }
}

/// The functions of tables of `N` entries.
fn spectrum_functions<const N: usize>() -> Vec<Function> {
    let lookup = Function {
        tables: Some(Tables::in_air(N)),
        shape: vec![Slot::Float; N + 1],
        source: Some(lookup_source::<N>),
        time_here: Some(Box::new(|data| {
            let f: unsafe extern "C" fn(*const f64, usize, f64) -> f64 = numbers_dense_spectrum_sample_one;
            time_lookup::<N>(data, unsafe { std::mem::transmute(f) })
        })),
        time_rust: Some(Box::new(|data| time_lookup::<N>(data, if N == SAMPLES { rust_sample_one } else { read_sample_one }))),
        bench: lookup_bench::<N>,
        ..Function::new(
            "numbers_dense_spectrum_sample_one",
            701,
            1,
            Box::new(|w, out| sample_one(&w[..N], w[N]).put(out)),
            Box::new(|w, out| judge::sample_one(&w[..N], w[N]).put(out)),
        )
    };
    let checked_lookup = Function {
        tables: Some(Tables::in_air(N)),
        shape: vec![Slot::Float; behind(N) + 2],
        source: Some(checked_lookup_source::<N>),
        ..Function::new(
            "rulvimba_lookup",
            801,
            2,
            Box::new(|w, out| rulvimba::lookup(&w[1..1 + w[0] as usize], w[behind(N)]).put(out)),
            Box::new(|w, out| rust_lookup(&w[1..1 + w[0] as usize], w[behind(N)]).put(out)),
        )
    };
    vec![
        lookup,
        of_entries::<N>(
            "numbers_dense_spectrum_is_constant",
            702,
            |v, _| unsafe { numbers_dense_spectrum_is_constant(v.as_ptr(), v.len()) },
            |v, _| judge::is_constant(v),
        ),
        of_entries::<N>(
            "numbers_dense_spectrum_all_within",
            703,
            |v, l| unsafe { numbers_dense_spectrum_all_within(v.as_ptr(), v.len(), l[0], l[1]) },
            |v, l| v.iter().all(|x| l[0] <= *x && *x <= l[1]),
        ),
        of_entries::<N>(
            "numbers_dense_spectrum_all_finite",
            704,
            |v, _| unsafe { numbers_dense_spectrum_all_finite(v.as_ptr(), v.len()) },
            |v, _| v.iter().all(|x| x.is_finite()),
        ),
        checked_lookup,
    ]
}

/// The Rust takes a wavelength, 0 aside, where its lookup doesn't panic.
fn wavelength_functions() -> Vec<Function> {
    let taken = |lambda: f64| !panics(|| DenseSpectrum::from_constant(1.0).sample_one(lambda));
    let of_wavelength = |name, number, here: Call, rust: Call| Function {
        shape: vec![Slot::Float],
        source: Some(any_wavelength_source),
        ..Function::new(name, number, 1, here, rust)
    };
    vec![
        of_wavelength(
            "numbers_dense_spectrum_is_wavelength",
            705,
            Box::new(|w, out| unsafe { numbers_dense_spectrum_is_wavelength(w[0]) }.put(out)),
            Box::new(move |w, out| (w[0] != 0.0 && taken(w[0])).put(out)),
        ),
        of_wavelength(
            "numbers_dense_spectrum_is_lookup_wavelength",
            706,
            Box::new(|w, out| unsafe { numbers_dense_spectrum_is_lookup_wavelength(w[0]) }.put(out)),
            Box::new(move |w, out| taken(w[0]).put(out)),
        ),
    ]
}

pub fn table() -> Vec<Function> {
    let mut all = functions();
    all.extend(spectrum_functions::<SAMPLES>());
    all.extend(spectrum_functions::<FINE_SAMPLES>());
    all.extend(wavelength_functions());
    all.sort_by_key(|f| f.number);
    for f in &mut all {
        match f.name {
            "numbers_float_clamp" => f.fit = Some(bounds_in_order),
            "numbers_float_is_sign_negative" | "numbers_complex_sin_half" => f.fit = Some(positive_nan),
            "numbers_sqrt" => f.bench = normal_values,
            _ => (),
        }
        f.open_zero = ["_max", "_min", "_max_element", "_min_element"].iter().any(|end| f.name.ends_with(end));
    }
    all
}

// ---- the sample: functions of entries are called on those of the record 700 before
const SPECTRA: usize = 24;

pub fn record(out: &mut String, number: u32, ins: &[f64], outs: &[u64]) {
    let digit = char::from_digit(outs.len() as u32, 36).unwrap();
    out.push_str(&format!("{number:03} {:02} {digit}", ins.len()));
    let ins: Vec<u64> = ins.iter().map(|w| bits(*w)).collect();
    for w in ins.iter().chain(outs) {
        out.push_str(&format!(" {w:016x}"));
    }
    out.push('\n');
}

fn sample_spectra(seed: u64, out: &mut String) {
    let rng = &mut Rng(seed);
    for k in 0..SPECTRA {
        let n = [SAMPLES, SAMPLES, SAMPLES, SAMPLES, SAMPLES, 0, 1, 94, 96][k % 9];
        let mut values = vec![0.0; n];
        spectra::entries(rng, &mut values);
        record(out, 700, &values, &[]);
        if n == SAMPLES {
            record(out, 702, &[], &[spectrum(&values).is_constant() as u64]);
            for _ in 0..24 {
                let lambda = spectra::wavelength(rng, SAMPLES);
                record(out, 701, &[lambda], &[bits(spectrum(&values).sample_one(lambda))]);
            }
        }
        for limits in [[0.01, 100.0], [0.0, 0.0]] {
            let within = values.iter().all(|x| limits[0] <= *x && *x <= limits[1]);
            record(out, 703, &limits, &[within as u64]);
        }
        record(out, 704, &[], &[values.iter().all(|x| x.is_finite()) as u64]);
    }
}

fn sample_lookups(seed: u64, out: &mut String) {
    let rng = &mut Rng(seed);
    for k in 0..SPECTRA {
        let n = [SAMPLES, 0, SAMPLES, 94, SAMPLES, 96][k % 6];
        let mut values = vec![0.0; n];
        spectra::entries(rng, &mut values);
        record(out, 800, &values, &[]);
        for i in 0..12 {
            let lambda = spectra::any_wavelength(rng, k * 12 + i, SAMPLES);
            let mut answer = [0; 2];
            rust_lookup(&values, lambda).put(&mut answer);
            record(out, 801, &[lambda], &answer);
        }
    }
}

/// Records of every function that the Rust judges: the number, the counts of words, the words in, its words out.
pub fn sample(seed: u64) -> String {
    let mut out = String::new();
    for f in table().iter().filter(|f| f.is_judged_by_rust()) {
        match f.number {
            701 => sample_spectra(seed, &mut out),
            702..=704 => (),
            801 => sample_lookups(seed, &mut out),
            120 => f.sample(seed, 400, &mut out),
            _ => f.sample(seed, [1, 160, 80, 60][f.ins().min(3)], &mut out),
        }
    }
    out
}
