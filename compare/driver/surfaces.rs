//! Surfaces, local directions and random numbers as inputs, and lumo's surfaces over the same fields.
use super::inputs::{edges, near_unit, scaled, Rng};
use super::judge::{Judge, Reading, Tables};
use super::spectra::{FINE_SAMPLES, SAMPLES};
use crate::tracer::bxdf::BxDF;
use crate::tracer::microfacet::{MfDistribution, MicrofacetConfig};
use crate::tracer::{DenseSpectrum, Texture};
use crate::{Vec2, Vec3};
use std::sync::LazyLock;

// ---- lumo's surface

/// The values of 95 entries.
pub fn spectrum_of(values: &[f64]) -> DenseSpectrum {
    DenseSpectrum::new(values.try_into().unwrap())
}

/// lumo's distribution with any fields, x and y roughness apart.
pub fn distribution(a: Vec2, eta: DenseSpectrum, k: DenseSpectrum) -> MfDistribution {
    let texture = Texture::default;
    MfDistribution::Ggx(MicrofacetConfig { roughness: a, eta, k, kd: texture(), ks: texture(), tf: texture() })
}

/// Sets the entry at 360 nm: the array is a spectrum's one field.
#[inline]
fn set_first(spectrum: &mut DenseSpectrum, x: f64) {
    const { assert!(size_of::<DenseSpectrum>() == size_of::<[f64; SAMPLES]>()) };
    unsafe { *(spectrum as *mut DenseSpectrum).cast::<f64>() = x };
}

/// lumo's metal and glass that values are lent to, one after the other.
static mut LENT: Option<[BxDF; 2]> = None;

/// lumo's surface with the roughness, and the index and the absorption at 360 nm. It is to be read nowhere else, so
/// it has a NaN there.
#[inline]
pub fn lent_surface(glass: bool, a: Vec2, eta: f64, k: f64) -> &'static BxDF {
    let lent = unsafe { &mut *std::ptr::addr_of_mut!(LENT) };
    let lent = lent.get_or_insert_with(|| {
        let nowhere = || DenseSpectrum::from_constant(f64::NAN);
        [BxDF::MfConductor, BxDF::MfDielectric].map(|kind| kind(distribution(a, nowhere(), nowhere())))
    });
    let of = &mut lent[glass as usize];
    if let BxDF::MfConductor(MfDistribution::Ggx(cfg)) | BxDF::MfDielectric(MfDistribution::Ggx(cfg)) = of {
        cfg.roughness = a;
        set_first(&mut cfg.eta, eta);
        set_first(&mut cfg.k, k);
    }
    of
}

/// The distribution of lumo's metal or glass: the driver makes no others, so the benchmark needn't pay for a test.
#[inline]
pub fn of_bxdf(of: &BxDF) -> &MfDistribution {
    match of {
        BxDF::MfConductor(of) | BxDF::MfDielectric(of) => of,
        _ => unsafe { std::hint::unreachable_unchecked() },
    }
}

/// That of a lent surface.
#[inline]
pub fn lent(a: Vec2, eta: f64, k: f64) -> &'static MfDistribution {
    of_bxdf(lent_surface(true, a, eta, k))
}

/// The same where neither index nor absorption is read.
#[inline]
pub fn facets(a: Vec2) -> &'static MfDistribution {
    lent(a, 1.5, 0.0)
}

/// Whether lumo has such a surface: tables of 95 entries, and air outside glass.
pub fn is_lumos(glass: bool, eta: &[f64], k: &[f64], outer: &[f64]) -> bool {
    eta.len() == SAMPLES && k.len() == SAMPLES && (!glass || is_air(outer) && outer.len() == SAMPLES)
}

/// Whether an outer spectrum is 1.0 throughout.
pub fn is_air(outer: &[f64]) -> bool {
    outer.iter().all(|x| *x == 1.0)
}

/// An outer spectrum of ones.
pub fn air(entries: usize) -> &'static [f64] {
    static ONES: [f64; 512] = [1.0; 512];
    &ONES[..entries]
}

/// A surface with its spectra in lists, and lumo's over the same.
pub struct Surface {
    pub glass: bool,
    pub a: Vec2,
    pub eta: Vec<f64>,
    pub k: Vec<f64>,
    pub outer: Vec<f64>,
    /// None where lumo has no such surface.
    pub rust: Option<BxDF>,
}

impl Surface {
    pub fn new(glass: bool, a: Vec2, eta: &[f64], k: &[f64], outer: &[f64]) -> Self {
        let rust = is_lumos(glass, eta, k, outer).then(|| {
            let of = distribution(a, spectrum_of(eta), spectrum_of(k));
            if glass { BxDF::MfDielectric(of) } else { BxDF::MfConductor(of) }
        });
        Self { glass, a, eta: eta.to_vec(), k: k.to_vec(), outer: outer.to_vec(), rust }
    }

    /// 0 where it is accepted.
    pub fn refused(&self) -> u64 {
        surface_refused(self.glass, self.a, &self.eta, &self.k, &self.outer)
    }

    pub fn distribution(&self) -> &MfDistribution {
        of_bxdf(self.rust.as_ref().unwrap())
    }

    /// The second reading's surface.
    #[inline]
    pub fn reading(&self) -> Reading<'_> {
        Reading::new(self.glass, self.a, &self.eta, &self.k, &self.outer)
    }

    /// What the surface's judge answers, where it is accepted: the Rust where it has such a surface, else the second reading.
    pub fn judged<R>(&self, call: impl FnOnce(&dyn Judge) -> R) -> R {
        match &self.rust {
            Some(of) => call(of),
            None => call(&self.reading()),
        }
    }
}

// ---- document 01's rules ("Records", "At the counter") with 02 (i) and (iv), read once more

pub fn within(lo: f64, hi: f64, x: f64) -> bool {
    lo <= x && x <= hi
}

/// A table has 95 entries or 471.
pub fn is_length(n: usize) -> bool {
    n == 95 || n == 471
}

pub fn eta_refused(eta: &[f64]) -> bool {
    !is_length(eta.len()) || eta.iter().any(|v| !within(0.01, 100.0, *v))
}

/// Beside an eta that is accepted, whose length k's is to be.
pub fn k_refused(glass: bool, eta: &[f64], k: &[f64]) -> bool {
    let zero = k.iter().all(|v| *v == 0.0);
    k.len() != eta.len() || !(zero || !glass && k.iter().all(|v| within(1e-6, 100.0, *v)))
}

/// Beside an eta that is accepted, whose length glass's outer spectrum is to have. Metal has none: nothing is asked of
/// what is lent beside it.
pub fn outer_refused(glass: bool, eta: &[f64], outer: &[f64]) -> bool {
    glass && (outer.len() != eta.len() || outer.iter().any(|v| !within(0.01, 100.0, *v)))
}

/// 0 where the fields of a surface are accepted.
pub fn surface_refused(glass: bool, a: Vec2, eta: &[f64], k: &[f64], outer: &[f64]) -> u64 {
    if !within(1e-5, 1.0, a.x) || !within(1e-5, 1.0, a.y) {
        1
    } else {
        spectra_refused(glass, eta, k, outer)
    }
}

/// The same of its spectra alone.
pub fn spectra_refused(glass: bool, eta: &[f64], k: &[f64], outer: &[f64]) -> u64 {
    if eta_refused(eta) {
        2
    } else if k_refused(glass, eta, k) {
        3
    } else if outer_refused(glass, eta, outer) {
        13
    } else {
        0
    }
}

pub fn is_direction(w: Vec3) -> bool {
    within(0.999999, 1.000001, w.x * w.x + w.y * w.y + w.z * w.z)
}

pub fn is_wavelength(l: f64) -> bool {
    within(360.0, 830.0, l)
}

pub fn is_lookup(l: f64) -> bool {
    l == 0.0 || is_wavelength(l)
}

pub fn is_random(u: f64) -> bool {
    0.0 <= u && u < 1.0
}

pub fn is_pair(c: f64, s: f64) -> bool {
    within(-1.0, 1.0, c) && within(-1.0, 1.0, s) && within(1.0 - 1e-12, 1.0 + 1e-12, c * c + s * s)
}

// ---- inputs

fn beside(rng: &mut Rng, x: f64) -> f64 {
    match rng.below(3) {
        0 => x,
        1 => x.next_up(),
        _ => x.next_down(),
    }
}

/// Any float, mostly an edge.
pub fn any(rng: &mut Rng) -> f64 {
    static EDGES: LazyLock<Vec<f64>> = LazyLock::new(edges);
    match rng.below(6) {
        0 => f64::from_bits(rng.next()),
        1 => scaled(rng),
        _ => EDGES[rng.below(EDGES.len())],
    }
}

/// An accepted roughness.
fn alpha(rng: &mut Rng) -> f64 {
    match rng.below(12) {
        0 => 1e-5,
        1 => 1e-5f64.next_up(),
        2 => 1.0,
        3 => 1f64.next_down(),
        4 => 1e-3,
        5 => beside(rng, 1e-3),
        6 => rng.between(0.0009, 0.0011),
        7 => [0.5, 0.25, 0.1, 0.01, 0.3][rng.below(5)],
        8 => 10f64.powf(rng.between(-5.0, 0.0)).clamp(1e-5, 1.0),
        _ => rng.between(1e-3, 1.0),
    }
}

/// Roughness x and y: mostly the same, else apart, and with a mean beside 1e-3.
pub fn roughness(rng: &mut Rng) -> [f64; 2] {
    let x = alpha(rng);
    match rng.below(8) {
        0 => [x, alpha(rng)],
        1 => [alpha(rng), x],
        2 => {
            let x = rng.between(1e-5, 0.00199);
            let y = beside(rng, 0.002 - x).clamp(1e-5, 1.0);
            [x, y]
        }
        3 => [x, beside(rng, x).clamp(1e-5, 1.0)],
        _ => [x, x],
    }
}

/// An accepted index.
pub fn index(rng: &mut Rng) -> f64 {
    match rng.below(16) {
        0 => 0.01,
        1 => 100.0,
        2 => 1.0,
        3 => 1f64.next_up(),
        4 => 1f64.next_down(),
        5 => {
            let mut x = 1f64;
            let up = rng.below(2) == 0;
            for _ in 0..rng.below(6) {
                x = if up { x.next_up() } else { x.next_down() };
            }
            x
        }
        6 => 1.0 + 10f64.powf(rng.between(-16.0, -1.0)) * rng.sign(),
        7 => [0.5, 0.75, 1.5, 2.0, 3.0, 1.0 / 1.5, 1.33, 4.0][rng.below(8)],
        8 => 10f64.powf(rng.between(-2.0, 2.0)).clamp(0.01, 100.0),
        9 => beside(rng, 0.01).max(0.01),
        10 => beside(rng, 100.0).min(100.0),
        _ => rng.between(0.4, 2.6),
    }
}

/// An accepted absorption that is not 0.
pub fn absorption(rng: &mut Rng) -> f64 {
    match rng.below(8) {
        0 => 1e-6,
        1 => 1e-6f64.next_up(),
        2 => 100.0,
        3 => 100f64.next_down(),
        4 => 10f64.powf(rng.between(-6.0, 2.0)).clamp(1e-6, 100.0),
        5 => [1.0, 2.0, 0.5][rng.below(3)],
        _ => rng.between(0.1, 8.0),
    }
}

/// A local direction: of nearly unit length, grazing, along an axis, or one with tiny parts.
pub fn direction(rng: &mut Rng) -> Vec3 {
    let v = match rng.below(10) {
        0..=4 => near_unit(rng),
        5 => {
            // grazing
            let z = 10f64.powf(rng.between(-17.0, 0.0)) * rng.sign();
            let phi = rng.between(0.0, std::f64::consts::TAU);
            [phi.cos(), phi.sin(), z]
        }
        6 => {
            // nearly along Z
            let t = 10f64.powf(rng.between(-20.0, 0.0));
            let phi = rng.between(0.0, std::f64::consts::TAU);
            let z: f64 = 1.0 - t * t / 2.0;
            [t * phi.cos(), t * phi.sin(), z * rng.sign()]
        }
        7 => {
            // grazing beyond all measure
            let z = 10f64.powf(rng.between(-320.0, -10.0)) * rng.sign();
            let x = rng.between(-1.0, 1.0);
            [x, (1.0 - x * x).sqrt() * rng.sign(), z]
        }
        8 => {
            let mut v = [0.0 * rng.sign(), 0.0 * rng.sign(), 0.0 * rng.sign()];
            let at = rng.below(3);
            v[at] = beside(rng, 1.0) * rng.sign();
            v
        }
        _ => {
            let x = rng.between(-1.0, 1.0);
            let mut v = [x, (1.0 - x * x).sqrt(), 0.0 * rng.sign()];
            v.rotate_right(rng.below(3));
            v
        }
    };
    let v = Vec3::new(v[0], v[1], v[2]);
    // in the middle of the limits, where it isn't at their ends
    if is_direction(v) { v } else { v.normalize() }
}

/// Local wo, wi and the facet's normal: related as a bounce has them, or not.
pub fn directions(rng: &mut Rng, eta: f64) -> [Vec3; 3] {
    let wo = direction(rng);
    match rng.below(10) {
        0 | 1 => {
            // a normal, and the direction mirrored about it
            let wh = direction(rng);
            [wo, 2.0 * wo.project_onto(wh) - wo, wh]
        }
        2 => {
            let wi = direction(rng);
            [wo, wi, (wo + wi).normalize()]
        }
        3 | 4 => {
            // bent at a facet
            let wh = direction(rng);
            let facing = if wh.dot(wo) < 0.0 { (1.0 / eta, -wh) } else { (eta, wh) };
            let cos = facing.1.dot(wo);
            let sin2 = (1.0 - cos * cos) / (facing.0 * facing.0);
            let wi = -wo / facing.0 + (cos / facing.0 - (1.0 - sin2).max(0.0).sqrt()) * facing.1;
            [wo, wi, wh]
        }
        5 => [wo, Vec3::new(-wo.x, -wo.y, wo.z), Vec3::Z],
        6 => {
            let wi = -wo;
            [wo, wi, direction(rng)]
        }
        7 => [wo, wo, wo],
        8 => {
            // beside the mirrored direction
            let mut wi = Vec3::new(-wo.x, -wo.y, wo.z);
            for part in [&mut wi.x, &mut wi.y, &mut wi.z] {
                *part = beside(rng, *part);
            }
            [wo, wi, direction(rng)]
        }
        _ => [wo, direction(rng), direction(rng)],
    }
}

/// A number from 0 to below 1.
pub fn random_number(rng: &mut Rng) -> f64 {
    match rng.below(8) {
        0 => 0.0 * rng.sign(),
        1 => 1f64.next_down(),
        2 => [f64::from_bits(1), 1e-300, 1e-20, 0.25, 0.5, 0.75][rng.below(6)],
        3 => 1.0 - 10f64.powf(rng.between(-16.0, 0.0)),
        _ => rng.unit(),
    }
}

/// A point of the circle: the axes, both ends of the limit, or any.
pub fn circle_pair(rng: &mut Rng) -> [f64; 2] {
    let at_axis = [[1.0, 0.0], [0.0, 1.0], [-1.0, -0.0], [0.0, -1.0], [-0.0, 1.0], [1.0, -0.0]];
    match rng.below(8) {
        0 => at_axis[rng.below(6)],
        1 => {
            let theta = rng.between(0.0, std::f64::consts::TAU);
            let scale = (1.0 + 0.9e-12 * rng.sign()).sqrt();
            let (c, s) = (theta.cos() * scale, theta.sin() * scale);
            if is_pair(c, s) { [c, s] } else { [theta.cos(), theta.sin()] }
        }
        2 => {
            let t = 10f64.powf(rng.between(-20.0, 0.0));
            let mut v = [(1.0 - t * t).sqrt() * rng.sign(), t * rng.sign()];
            if rng.below(2) == 0 {
                v.swap(0, 1);
            }
            v
        }
        _ => {
            let theta = rng.between(0.0, std::f64::consts::TAU);
            [theta.cos(), theta.sin()]
        }
    }
}

// ---- spectra of a surface, accepted ones and others

pub struct Pool {
    pub etas: Vec<Vec<f64>>,
    pub ks: Vec<Vec<f64>>,
    /// Outer spectra, and those that match an eta: equal to it, and each entry the double above or below.
    pub outers: Vec<Vec<f64>>,
    matched: [Vec<Vec<f64>>; 3],
    /// How many at the front are accepted; of k, how many of them are all zero.
    pub etas_taken: usize,
    pub ks_taken: usize,
    pub ks_zero: usize,
    pub outers_taken: usize,
}

/// Those of 95 entries and those of 471, each with a few of other lengths.
pub static POOL: LazyLock<Pool> = LazyLock::new(|| Pool::new(&mut Rng(0x5eed), SAMPLES, &[0, 1, 94, 96, 100]));
static FINE_POOL: LazyLock<Pool> = LazyLock::new(|| Pool::new(&mut Rng(0xf19e), FINE_SAMPLES, &[0, 1, 94, 96, 470, 472, 500]));

/// Both pools have their indices: from here on they are those of 471 entries.
const FINE: usize = 1000;

/// Indices of outer spectra besides those of the pools: ones, as many as eta has, and three that match eta.
pub const AIR: usize = 2000;
const MATCHED: usize = 2001;

/// The pool of an index, and the index there.
fn at_home(i: usize) -> (&'static Pool, usize) {
    if i < FINE { (&POOL, i) } else { (&FINE_POOL, i - FINE) }
}

/// The eta of an index.
pub fn eta_of(i: usize) -> &'static [f64] {
    let (pool, i) = at_home(i);
    &pool.etas[i]
}

/// The k of an index.
pub fn k_of(i: usize) -> &'static [f64] {
    let (pool, i) = at_home(i);
    &pool.ks[i]
}

/// The outer spectrum of an index, beside the eta of one.
pub fn outer_of(i: usize, eta: usize) -> &'static [f64] {
    match i {
        AIR => air(eta_of(eta).len()),
        MATCHED.. => {
            let (pool, eta) = at_home(eta);
            &pool.matched[i - MATCHED][eta]
        }
        _ => {
            let (pool, i) = at_home(i);
            &pool.outers[i]
        }
    }
}

/// The eta, the k and the outer spectrum of three indices.
pub fn spectra_of([eta, k, outer]: [usize; 3]) -> [&'static [f64]; 3] {
    [eta_of(eta), k_of(k), outer_of(outer, eta)]
}

/// An eta and a k of `n` entries that are accepted.
pub fn accepted_spectra(n: usize) -> [&'static [f64]; 2] {
    let pool = if n == SAMPLES { &POOL } else { &FINE_POOL };
    [&pool.etas[0], &pool.ks[0]]
}

/// Indices of eta, k and the outer spectrum, often refused: of as many entries as the tables have, and beside 471 now and
/// then 95.
pub fn pick_any(rng: &mut Rng, tables: Tables, glass: bool) -> [usize; 3] {
    let [eta, k] = if tables.entries == SAMPLES {
        POOL.pick_any(rng, glass)
    } else {
        let picked = FINE_POOL.pick_any(rng, glass).map(|i| FINE + i);
        unlike(rng, glass, picked)
    };
    [eta, k, pick_outer(rng, tables, glass, eta, 8)]
}

/// The index of an outer spectrum beside an eta: on glass mostly one that is accepted, one in `often` of any; beside metal
/// any.
fn pick_outer(rng: &mut Rng, tables: Tables, glass: bool, eta: usize, often: usize) -> usize {
    if !tables.outer {
        return AIR;
    }
    let mut pools = [(&POOL, 0), (&FINE_POOL, FINE)];
    pools.rotate_left((eta >= FINE) as usize);
    if rng.below(if glass { often } else { 2 }) == 0 {
        // now and then of the other spacing
        let (pool, from) = pools[(rng.below(4) == 0) as usize];
        return from + rng.below(pool.outers.len());
    }
    match rng.below(8) {
        0 => AIR,
        1 | 2 => MATCHED + rng.below(3),
        _ => pools[0].1 + rng.below(pools[0].0.outers_taken),
    }
}

/// One in 24 has an eta of 95 entries in the place of 471, one a k.
fn unlike(rng: &mut Rng, glass: bool, [eta, k]: [usize; 2]) -> [usize; 2] {
    match rng.below(24) {
        0 => [POOL.pick(rng, glass)[0], k],
        1 => [eta, POOL.pick(rng, glass)[1]],
        _ => [eta, k],
    }
}

/// The spectra of a list's surface: one eta or k in twelve may be refused; among 471 entries one in eight has 95.
pub fn pick_for_list(rng: &mut Rng, tables: Tables, glass: bool) -> [&'static [f64]; 3] {
    let n = tables.entries;
    if n != SAMPLES && rng.below(8) == 0 {
        return pick_for_list(rng, Tables { entries: SAMPLES, ..tables }, glass);
    }
    let (pool, from) = if n == SAMPLES { (&POOL, 0) } else { (&FINE_POOL, FINE) };
    let [mut eta, mut k] = pool.pick(rng, glass);
    match rng.below(24) {
        0 => eta = rng.below(pool.etas.len()),
        1 => k = rng.below(pool.ks.len()),
        _ => (),
    }
    let mut picked = [from + eta, from + k];
    if n != SAMPLES {
        picked = unlike(rng, glass, picked);
    }
    let [eta, k] = picked;
    spectra_of([eta, k, pick_outer(rng, tables, glass, eta, 16)])
}

impl Pool {
    /// Of tables of `n` entries, and of `others`, which are refused.
    fn new(rng: &mut Rng, n: usize, others: &[usize]) -> Self {
        let constant = |x: f64| vec![x; n];
        let mut etas = vec![];
        for x in [1.5, 1.0, 3.0, 2.0, 100.0, 0.01, 0.75, 0.5, 1f64.next_up(), 1f64.next_down(), 1.33, 2.417] {
            etas.push(constant(x));
        }
        for _ in 0..20 {
            etas.push(constant(index(rng)));
        }
        let mut varying = |of: &mut dyn FnMut(&mut Rng, usize) -> f64, rng: &mut Rng| {
            let v: Vec<f64> = (0..n).map(|i| of(rng, i)).collect();
            etas.push(v);
        };
        for _ in 0..6 {
            let (a, b) = (rng.between(1.2, 2.0), rng.between(-0.002, 0.002));
            varying(&mut |_, i| a + b * i as f64, rng);
            varying(&mut |rng, _| rng.between(0.01, 100.0), rng);
            varying(&mut |rng, _| index(rng), rng);
            varying(&mut |_, i| if i % 2 == 0 { 0.01 } else { 100.0 }, rng);
            varying(&mut |rng, _| beside(rng, 1.0), rng);
            varying(&mut |rng, _| rng.between(0.9, 1.1), rng);
            varying(&mut |_, i| if i % 3 == 0 { 1.0 } else { 1.5 }, rng);
            // one entry aside
            let (x, at) = (index(rng), rng.below(n));
            varying(&mut |_, i| if i == at { (x * 1.01).clamp(0.01, 100.0) } else { x }, rng);
            let (x, last) = (index(rng), [0, n - 1][rng.below(2)]);
            varying(&mut |_, i| if i == last { x.next_up().clamp(0.01, 100.0) } else { x }, rng);
        }
        let etas_taken = etas.len();
        for x in [0.01f64.next_down(), 100f64.next_up(), f64::NAN, f64::INFINITY, 0.0, -1.5, -f64::INFINITY] {
            for at in [0, rng.below(n), n - 1] {
                let mut v = constant(1.5);
                v[at] = x;
                etas.push(v);
            }
            etas.push(constant(x));
        }
        for n in others {
            etas.push(vec![1.5; *n]);
        }

        let mut ks = vec![constant(0.0), constant(-0.0)];
        for _ in 0..3 {
            ks.push((0..n).map(|_| 0.0 * rng.sign()).collect());
        }
        let ks_zero = ks.len();
        for x in [1e-6, 100.0, 1.0, 2.0, 1e-6f64.next_up(), 3.5] {
            ks.push(constant(x));
        }
        for _ in 0..8 {
            let x = absorption(rng);
            ks.push(constant(x));
            ks.push((0..n).map(|_| absorption(rng)).collect());
            ks.push((0..n).map(|i| 2.0 + 0.02 * i as f64).collect());
            ks.push((0..n).map(|i| if i % 2 == 0 { 1e-6 } else { 100.0 }).collect());
            ks.push((0..n).map(|_| rng.between(1e-6, 2e-6)).collect());
        }
        let ks_taken = ks.len();
        for x in [1e-6f64.next_down(), 100f64.next_up(), f64::NAN, f64::INFINITY, 0.0, -0.0, -1.0, f64::from_bits(1)] {
            for at in [0, rng.below(n), n - 1] {
                let mut v = constant(2.0);
                v[at] = x;
                ks.push(v);
                let mut v = constant(0.0);
                v[at] = if x == 0.0 { 1.0 } else { x };
                ks.push(v);
            }
        }
        for n in others {
            ks.push(vec![0.0; *n]);
        }

        let mut outers = vec![];
        for x in [1.333, 1.5, 1.0, 0.01, 100.0, 3.0, 0.75, 1f64.next_up(), 1f64.next_down(), 0.01f64.next_up(), 100f64.next_down(), 1.473] {
            outers.push(constant(x));
        }
        for _ in 0..12 {
            outers.push(constant(index(rng)));
        }
        for _ in 0..6 {
            let mut varying = |of: &mut dyn FnMut(&mut Rng, usize) -> f64| {
                let v: Vec<f64> = (0..n).map(|i| of(rng, i)).collect();
                outers.push(v);
            };
            // water, and liquids of a steeper curve
            varying(&mut |_, i| 1.3445 - 0.0152 * i as f64 / n as f64);
            varying(&mut |_, i| 1.6 - 0.2 * i as f64 / n as f64);
            varying(&mut |rng, _| rng.between(0.01, 100.0));
            varying(&mut |rng, _| index(rng));
            varying(&mut |_, i| if i % 2 == 0 { 0.01 } else { 100.0 });
            varying(&mut |_, i| if i % 2 == 0 { 100.0 } else { 0.01 });
            varying(&mut |rng, _| beside(rng, 1.0));
            varying(&mut |rng, _| rng.between(0.9, 1.1));
            // few entries by turns
            let few: [f64; 7] = std::array::from_fn(|_| rng.between(1.0, 2.0));
            outers.push((0..n).map(|i| few[i % 7]).collect());
            // one entry aside, and one that is the next double
            let (x, at) = (index(rng), rng.below(n));
            outers.push((0..n).map(|i| if i == at { (x * 1.01).clamp(0.01, 100.0) } else { x }).collect());
            let (x, last) = (index(rng), [0, n - 1][rng.below(2)]);
            outers.push((0..n).map(|i| if i == last { x.next_up().clamp(0.01, 100.0) } else { x }).collect());
        }
        let outers_taken = outers.len();
        for x in [0.01f64.next_down(), 100f64.next_up(), f64::NAN, f64::INFINITY, 0.0, -0.0, -1.333, -f64::INFINITY, f64::from_bits(1)] {
            for at in [0, rng.below(n), n - 1] {
                let mut v = constant(1.333);
                v[at] = x;
                outers.push(v);
            }
            outers.push(constant(x));
        }
        for n in others.iter().chain(&[SAMPLES, FINE_SAMPLES]) {
            outers.push(vec![1.0; *n]);
            outers.push(vec![1.333; *n]);
        }
        let matched = [|x: f64| x, |x: f64| x.next_up(), |x: f64| x.next_down()];
        let matched = matched.map(|to| etas.iter().map(|eta| eta.iter().map(|x| to(*x)).collect()).collect());
        Self { etas, ks, outers, matched, etas_taken, ks_taken, ks_zero, outers_taken }
    }

    /// The fields of a surface as indices: mostly one that is accepted.
    pub fn pick(&self, rng: &mut Rng, glass: bool) -> [usize; 2] {
        let k = match rng.below(3) {
            0 if !glass => self.ks_zero + rng.below(self.ks_taken - self.ks_zero),
            1 if !glass => self.ks_zero + rng.below(self.ks_taken - self.ks_zero),
            _ => rng.below(self.ks_zero),
        };
        [rng.below(self.etas_taken), k]
    }

    /// The same, often refused.
    pub fn pick_any(&self, rng: &mut Rng, glass: bool) -> [usize; 2] {
        let [mut eta, mut k] = self.pick(rng, glass);
        if rng.below(12) == 0 {
            eta = rng.below(self.etas.len());
        }
        if rng.below(12) == 0 {
            k = rng.below(self.ks.len());
        }
        [eta, k]
    }
}
