//! A whole bounce by lumo's `BSDF::sample` and `BxDF::pdf`, with document 01's refusals, weights and shares, and q as
//! document 02 (v) mends it, written once more from the documents; and lists of bounces on one path as inputs. judge.rs
//! has what lumo's functions look up, library.rs what is held against the bounce.
use super::harness::*;
use super::inputs::{near_unit, Rng};
use super::judge::{Judge, Tables};
use super::library::output_of;
use super::numbers::record;
use super::optics::{caught, g_over_g1, Color, Written};
pub use super::rulvimba::{LOST, PASSED, REFLECTED, REFUSED};
use super::spectra::{self, FINE_SAMPLES};
use super::surfaces::*;
use super::wall;
use crate::math::spherical_utils;
use crate::stand_in::Random;
use crate::tracer::bsdf::BSDF;
use crate::tracer::bxdf::microfacet::util;
use crate::tracer::microfacet::MfDistribution;
use crate::tracer::onb::Onb;
use crate::tracer::ColorWavelength;
use crate::{Vec2, Vec3};

#[derive(Clone, Copy)]
#[repr(C)]
pub struct Path {
    pub lambda: Color,
    pub power: Color,
}

#[derive(Clone, Copy)]
#[repr(C)]
pub struct Bounce {
    pub wo: Vec3,
    pub normal: Vec3,
    pub backface: bool,
    pub u: f64,
    pub disk: f64,
    pub c: f64,
    pub s: f64,
    pub ks: Color,
    pub tf: Color,
}

#[derive(Clone, Copy)]
#[repr(C)]
pub struct Density {
    pub finite: bool,
    pub value: f64,
}

#[derive(Clone, Copy)]
#[repr(C)]
pub struct Shares {
    pub there: bool,
    pub reflected: f64,
    pub passed: f64,
}

/// What a bounce answers: document 01's number, 0 where it isn't refused; the case; what it carries.
#[derive(Clone, Copy)]
#[repr(C)]
pub struct Bounced {
    pub number: u64,
    pub case: u64,
    pub wi: Vec3,
    pub density: Density,
    pub shares: Shares,
    pub path: Path,
}

/// How many words an answer has, and a bounce without its surface.
pub const OUTS: usize = 18;
pub const INS: usize = 8 + 19;

impl Path {
    pub fn words(&self) -> [u64; 8] {
        let mut out = [0; 8];
        self.lambda.put(&mut out[..4]);
        self.power.put(&mut out[4..]);
        out
    }
}

impl Bounced {
    pub fn words(&self) -> [u64; OUTS] {
        let mut out = [0; OUTS];
        out[0] = self.number;
        out[1] = self.case;
        self.wi.put(&mut out[2..5]);
        out[5] = self.density.finite as u64;
        out[6] = bits(self.density.value);
        out[7] = self.shares.there as u64;
        out[8] = bits(self.shares.reflected);
        out[9] = bits(self.shares.passed);
        out[10..].copy_from_slice(&self.path.words());
        out
    }
}

/// The path's words, then the bounce's.
pub fn words_in(p: &Path, b: &Bounce) -> [f64; INS] {
    let mut w = [0.0; INS];
    w[0..4].copy_from_slice(&p.lambda.0);
    w[4..8].copy_from_slice(&p.power.0);
    w[8..14].copy_from_slice(&[b.wo.x, b.wo.y, b.wo.z, b.normal.x, b.normal.y, b.normal.z]);
    w[14] = b.backface as u8 as f64;
    w[15..19].copy_from_slice(&[b.u, b.disk, b.c, b.s]);
    w[19..23].copy_from_slice(&b.ks.0);
    w[23..27].copy_from_slice(&b.tf.0);
    w
}

// ---- document 01, once more

fn shares_hold(a: &Color) -> bool {
    a.0.iter().all(|x| within(0.0, 1.0, *x))
}

/// 0 where the bounce is accepted.
pub fn refused(p: &Path, s: &Surface, b: &Bounce) -> u64 {
    match s.refused() {
        0 => refused_on(p, b),
        number => number,
    }
}

/// The same on a surface that is accepted.
fn refused_on(p: &Path, b: &Bounce) -> u64 {
    let wavelengths = is_wavelength(p.lambda.0[0]) && p.lambda.0[1..].iter().all(|l| is_lookup(*l));
    let checks = [
        (4, wavelengths),
        (10, shares_hold(&p.power)),
        (5, is_direction(b.wo)),
        (5, is_direction(b.normal)),
        (6, is_random(b.u)),
        (6, is_random(b.disk)),
        (7, is_pair(b.c, b.s)),
        (8, shares_hold(&b.ks)),
        (8, shares_hold(&b.tf)),
    ];
    checks.iter().find(|c| !c.1).map_or(0, |c| c.0)
}

const NO_DENSITY: Density = Density { finite: false, value: 0.0 };
const NO_SHARES: Shares = Shares { there: false, reflected: 0.0, passed: 0.0 };

/// A density as a bounce hands it out: only if it is finite.
#[inline]
fn handed_out(density: f64) -> Density {
    if density.is_finite() { Density { finite: true, value: density } } else { NO_DENSITY }
}

fn random_of(b: &Bounce) -> Random {
    Random { x: b.disk, y: 0.0, c: b.c, s: b.s }
}

/// q of documents 01 and 02 (v): 1 where there is one direction; else 0 where wi's tan² is infinite: lumo's `lambda` is 0
/// there, so that its g over g1 need not be.
#[inline]
fn q(one_direction: bool, of: &MfDistribution, wo: Vec3, wi: Vec3, wh: Vec3) -> f64 {
    if one_direction {
        1.0
    } else if spherical_utils::tan2_theta(wi).is_infinite() {
        0.0
    } else {
        g_over_g1(of, wo, wi, wh)
    }
}

/// A surface, and lumo's over it twice, where it has one: a `BSDF` hands out no `BxDF`.
pub struct Lumo {
    pub surface: Surface,
    bsdf: Option<BSDF>,
}

impl Lumo {
    pub fn new(glass: bool, a: Vec2, eta: &[f64], k: &[f64], outer: &[f64]) -> Self {
        let made = || Surface::new(glass, a, eta, k, outer);
        Self { surface: made(), bsdf: made().rust.map(BSDF::new) }
    }
}

/// The bounce by lumo's sampler and density, and by 01's rules.
pub fn rust(p: &Path, of: &Lumo, b: &Bounce) -> Bounced {
    let number = refused(p, &of.surface, b);
    if number != 0 {
        return kept(number, *p);
    }
    match (&of.surface.rust, &of.bsdf) {
        (Some(own), Some(bsdf)) => {
            let mut lambda = ColorWavelength { lambda: p.lambda.0 };
            let world = sampled(bsdf, &mut lambda, b);
            judged(own, world, lambda.lambda, p, b)
        }
        _ => {
            let of = of.surface.reading();
            let (lent, mut lambda) = of.lent_to_samplers(p.lambda.0);
            let world = sampled(&BSDF::new(lent), &mut lambda, b);
            judged(&of, world, [p.lambda.0[0], lambda.lambda[1], lambda.lambda[2], lambda.lambda[3]], p, b)
        }
    }
}

/// lumo's sampler, which ends wavelengths.
fn sampled(of: &BSDF, lambda: &mut ColorWavelength, b: &Bounce) -> Option<Vec3> {
    of.sample(b.wo, b.normal, b.backface, lambda, b.u, random_of(b))
}

/// The answer to a bounce that isn't refused, from the direction that was sampled and the wavelengths that were left.
fn judged(of: &impl Judge, world: Option<Vec3>, lambda: [f64; 4], p: &Path, b: &Bounce) -> Bounced {
    let ended = of.glass() && !of.constant_eta();
    let left = if ended { [p.lambda.0[0], 0.0, 0.0, 0.0] } else { p.lambda.0 };
    assert_eq!(left.map(f64::to_bits), lambda.map(f64::to_bits), "the wavelengths that lumo ends");

    // the same on local directions
    let uvw = Onb::new(b.normal);
    let wo = uvw.to_local(b.wo);
    let local = of.sampled(wo, b.backface, p.lambda.0, b.u, random_of(b));
    assert_eq!(world.is_some(), local.is_some(), "lumo's two samplers");

    // the facet's normal, and the shares at the leading wavelength
    let wl = left[0];
    let one_direction = of.one_direction(wl);
    let wh = if one_direction { Vec3::Z } else { of.facets().sample_normal(wo, random_of(b)) };
    let share = of.f_at(wo, wh, wl);
    let shares = if of.glass() { Shares { there: true, reflected: share, passed: 1.0 - share } } else { NO_SHARES };

    let powers = |weights: [f64; 4]| Path {
        lambda: Color(left),
        power: Color(std::array::from_fn(|i| p.power.0[i] * weights[i])),
    };
    let (Some(world), Some(wi)) = (world, local) else {
        return Bounced { number: 0, case: LOST, wi: Vec3::ZERO, density: NO_DENSITY, shares, path: powers([0.0; 4]) };
    };
    let reflection = !of.glass() || b.u < share / (share + (1.0 - share));
    let density = handed_out(of.pdf_at(wo, wi, reflection, wl));

    // the weights
    let q = q(one_direction, of.facets(), wo, wi, wh);
    let weight = |i: usize| {
        let wl = left[i];
        if wl == 0.0 {
            0.0
        } else if of.glass() {
            let filter = if reflection { b.ks.0[i] } else { b.tf.0[i] };
            filter * q
        } else {
            let f = of.f_at(wo, wh, wl);
            let m = if f.is_nan() {
                0.0
            } else if f <= 1.0 {
                f
            } else {
                1.0
            };
            (b.ks.0[i] * m) * q
        }
    };
    Bounced {
        number: 0,
        case: if reflection { REFLECTED } else { PASSED },
        wi: world,
        density,
        shares,
        path: powers(std::array::from_fn(weight)),
    }
}

/// A refusal, which hands the path back.
fn kept(number: u64, p: Path) -> Bounced {
    Bounced { number, case: REFUSED, wi: Vec3::ZERO, density: NO_DENSITY, shares: NO_SHARES, path: p }
}

// ---- inputs

/// A vector by its bits.
pub fn v(x: u64, y: u64, z: u64) -> Vec3 {
    Vec3::new(f64::from_bits(x), f64::from_bits(y), f64::from_bits(z))
}

const ONES: Color = Color([1.0; 4]);

/// The path of the lists with known edges, at wavelengths of the grid.
pub const ON_GRID: Path = Path { lambda: Color([400.0, 500.0, 600.0, 700.0]), power: ONES };

/// Metal of n 1, k 2.
pub fn metal(tables: Tables, a: f64) -> Lumo {
    let outer = if tables.outer { &[] } else { air(tables.entries) };
    Lumo::new(false, Vec2::splat(a), &vec![1.0; tables.entries], &vec![2.0; tables.entries], outer)
}

/// Glass of a constant index, which is the same at the grid's wavelengths where it doesn't lie in air: both spectra are
/// constant, and twice as large.
pub fn glass(tables: Tables, a: f64, index: f64) -> Lumo {
    let by = if tables.outer { 2.0 } else { 1.0 };
    let all = |x: f64| vec![x; tables.entries];
    Lumo::new(true, Vec2::splat(a), &all(by * index), &all(0.0), &all(by))
}

/// A bounce about Z with filters of 1.
pub fn plain_bounce(wo: Vec3, u: f64, disk: f64, c: f64, s: f64) -> Bounce {
    Bounce { wo, normal: Vec3::Z, backface: false, u, disk, c, s, ks: ONES, tf: ONES }
}

/// Surfaces of such spectra: the first are those of the samples of document 01 and of known edges.
pub fn surfaces(rng: &mut Rng, count: usize, tables: Tables) -> Vec<Lumo> {
    let (metal, glass) = (|a| metal(tables, a), |a, index| glass(tables, a, index));
    let mut out = vec![metal(1e-5), glass(1e-5, 3.0), glass(1.0, 1f64.next_up()), glass(0.5, 0.75), metal(1.0)];
    while out.len() < count {
        let glass = rng.below(2) == 0 || tables.outer && rng.below(2) == 0;
        let [eta, k, outer] = pick_for_list(rng, tables, glass);
        let mut a = roughness(rng);
        if rng.below(24) == 0 {
            a[rng.below(2)] = [1e-5f64.next_down(), 1f64.next_up(), 0.0, f64::NAN, -1e-9][rng.below(5)];
        }
        out.push(Lumo::new(glass, Vec2::new(a[0], a[1]), eta, k, outer));
    }
    out
}

/// Bounces at known edges, each with the index of its surface.
fn special(i: usize) -> Option<(usize, Bounce)> {
    let plain = plain_bounce;
    Some(match i {
        // metal, delta: powers 0.5, then 0.25
        0 | 1 => (0, plain(Vec3::Z, 0.0, 0.0, 1.0, 0.0)),
        // glass, delta, index 3
        2 => (1, plain(Vec3::Z, 0.2, 0.0, 1.0, 0.0)),
        3 => (1, plain(Vec3::Z, 0.25, 0.0, 1.0, 0.0)),
        // a density that isn't finite
        4 => (2, plain(v(0x3fea000000000000, 0, 0x3fe2a79e3a2cd2e6), 0.5, 0.0, 1.0, 0.0)),
        // an infinite lambda
        5 => (4, plain(v(0x3fe6a09efe58d70a, 0x3fe6a09efe58d70a, 0x1ff000000006c32e), 0.5, 0.5, 1.0, 0.0)),
        // a passed direction whose z is 0: along the wall. No power is left by now, so that q is seen in wall.rs, not here
        6 => (3, plain(v(0x3fef169f5e2a60b5, 0x3f9080a621a05426, 0x3fce43c94cc41490), 1f64.next_down(), f64::from_bits(0x3fbd88ac158e3ce7), 0.0, -1.0)),
        // a filter of -0
        7 => (0, Bounce { ks: Color([-0.0, 1.0, -0.0, 0.5]), ..plain(Vec3::Z, 0.0, 0.0, 1.0, 0.0) }),
        8 => (1, Bounce { tf: Color([-0.0, 1.0, -0.0, 0.5]), ..plain(Vec3::Z, 0.9, 0.0, 1.0, 0.0) }),
        // backfaces
        9 => (0, Bounce { backface: true, ..plain(Vec3::Z, 0.0, 0.0, 1.0, 0.0) }),
        10 => (1, Bounce { backface: true, ..plain(Vec3::Z, 0.2, 0.0, 1.0, 0.0) }),
        _ => return None,
    })
}

/// What the samples of document 01 among them answer: the case, the density, the leading power.
const SAMPLES: [(u64, f64, f64); 4] = [(REFLECTED, 1.0, 0.5), (REFLECTED, 1.0, 0.25), (REFLECTED, 0.25, 0.25), (PASSED, 0.75, 0.25)];

fn four(rng: &mut Rng, one: impl Fn(&mut Rng) -> f64) -> Color {
    Color(std::array::from_fn(|_| one(rng)))
}

fn filter(rng: &mut Rng) -> Color {
    match rng.below(24) {
        0..=7 => ONES,
        8 => four(rng, |rng| [0.0, -0.0, 1.0, f64::from_bits(1), 1f64.next_down(), 1e-300][rng.below(6)]),
        _ => four(rng, |rng| rng.unit()),
    }
}

/// The path that a list on tables of `n` entries starts from: mostly one that is accepted, with powers 1.0.
pub fn start(rng: &mut Rng, n: usize) -> Path {
    let mut lambda = four(rng, |rng| loop {
        let l = spectra::wavelength(rng, n);
        if l != 0.0 {
            return l;
        }
    });
    match rng.below(16) {
        0..=2 => lambda.0[1 + rng.below(3)] = 0.0 * rng.sign(),
        3 => lambda.0[1..].fill(0.0),
        4 => lambda = Color([lambda.0[0]; 4]),
        5 if rng.below(4) == 0 => lambda.0[rng.below(4)] = spectra::any_wavelength(rng, rng.0 as usize % 200, n),
        _ => (),
    }
    let power = match rng.below(16) {
        0 => four(rng, |rng| [0.0, -0.0, 1.0, f64::from_bits(1), 1e-300, 0.5][rng.below(6)]),
        1 => four(rng, |rng| rng.unit()),
        2 if rng.below(4) == 0 => four(rng, |rng| if rng.below(4) == 0 { any(rng) } else { 1.0 }),
        _ => ONES,
    };
    Path { lambda, power }
}

/// A bounce; `on` is the direction that light came from, where there is one.
pub fn bounce(rng: &mut Rng, p: &Path, of: &Lumo, on: Option<Vec3>) -> Bounce {
    let axis = [Vec3::Z, Vec3::X, Vec3::Y, -Vec3::Z];
    let normal = match rng.below(4) {
        0 => axis[rng.below(4)],
        1 => Vec3::Z,
        _ => {
            let n = near_unit(rng);
            let n = Vec3::new(n[0], n[1], n[2]);
            if is_direction(n) { n } else { n.normalize() }
        }
    };
    let local = direction(rng);
    let mut wo = match rng.below(4) {
        0 => local,
        1 if on.is_some() => on.unwrap(),
        _ => Onb::new(normal).to_world(local),
    };
    // most of metal is lit from its front
    if !of.surface.glass && rng.below(4) != 0 && wo.dot(normal) < 0.0 {
        wo = -wo;
    }
    let [c, s] = circle_pair(rng);
    let mut b = Bounce {
        wo,
        normal,
        backface: rng.below(8) == 0,
        u: random_number(rng),
        disk: random_number(rng),
        c,
        s,
        ks: filter(rng),
        tf: filter(rng),
    };
    // the number beside the share that is reflected
    if of.surface.glass && rng.below(6) == 0 && refused(p, &of.surface, &b) == 0 {
        let share = rust(p, of, &b).shares.reflected;
        b.u = [share, share.next_up(), share.next_down(), 1.0 - share][rng.below(4)];
    }
    // one in ten has an argument that may be refused
    if rng.below(10) == 0 {
        let x = any(rng);
        match rng.below(12) {
            0 => b.wo.x = x,
            1 => b.wo.z = x,
            2 => b.normal.y = x,
            3 => b.normal.z = x,
            4 => b.u = x,
            5 => b.disk = x,
            6 => b.c = x,
            7 => b.s = x,
            8 => b.ks.0[rng.below(4)] = x,
            9 => b.tf.0[rng.below(4)] = x,
            10 => b.wo = b.wo * [0.9999995f64.next_down(), 1.0000005, 0.9999994, 1.0000006][rng.below(4)],
            _ => b.u = [1.0, 1f64.next_down(), -0.0, f64::NAN, -f64::from_bits(1)][rng.below(5)],
        }
    }
    b
}

/// The next bounce of a list and the index of its surface. Light that is lost leaves no power for those after
/// it, so most of the bounces that lose it make room for others.
pub fn next_bounce(rng: &mut Rng, p: &Path, of: &[Lumo], on: Option<Vec3>) -> (usize, Bounce) {
    loop {
        let which = rng.below(of.len());
        let b = bounce(rng, p, &of[which], on);
        if rng.below(6) == 0 || caught(|| rust(p, &of[which], &b)).is_none_or(|a| a.case != LOST) {
            return (which, b);
        }
    }
}

// ---- the comparison

#[derive(Default)]
pub struct Counts {
    pub bounces: usize,
    /// Of these, on surfaces of 471 entries, and on glass that doesn't lie in air.
    pub fine: usize,
    pub outer: usize,
    lists: usize,
    pub differences: usize,
    refused: [usize; 14],
    lost_metal: usize,
    lost_glass: usize,
    reflected: [usize; 2],
    passed: usize,
    not_finite: usize,
    /// After a direction, leading powers that are 0, and others.
    powers: [usize; 2],
    /// Of the former, after a direction along a wall that was looked for.
    walls: usize,
    /// Bounces with a NaN among the shares, the powers or the direction; and with shares outside 0 to 1, or whose sum isn't 1.
    nan: usize,
    shares: usize,
}

impl Counts {
    fn count(&mut self, of: &Lumo, a: &Bounced) {
        let s = &of.surface;
        self.bounces += 1;
        self.fine += (s.eta.len() == FINE_SAMPLES && s.k.len() == FINE_SAMPLES) as usize;
        self.outer += (s.glass && !is_air(&s.outer)) as usize;
        match a.case {
            REFUSED => self.refused[a.number as usize] += 1,
            LOST if s.glass => self.lost_glass += 1,
            LOST => self.lost_metal += 1,
            REFLECTED => self.reflected[s.glass as usize] += 1,
            _ => self.passed += 1,
        }
        if a.case >= REFLECTED {
            self.not_finite += !a.density.finite as usize;
            self.powers[0] += (a.path.power.0[0] == 0.0) as usize;
            self.powers[1] += (a.path.power.0[0] != 0.0) as usize;
        }
        // a refusal hands the path back, whatever it holds
        if a.case != REFUSED {
            let Shares { there, reflected, passed } = a.shares;
            let numbers = [a.wi.x, a.wi.y, a.wi.z, reflected, passed];
            self.nan += numbers.iter().chain(&a.path.power.0).any(|x| x.is_nan()) as usize;
            self.shares += (there && !(within(0.0, 1.0, reflected) && within(0.0, 1.0, passed) && reflected + passed == 1.0)) as usize;
        }
    }

    /// All that makes a comparison fail.
    pub fn faults(&self) -> usize {
        self.differences + self.nan + self.shares
    }

    /// Who judged, and how many where it was not the Rust alone.
    pub fn judges(&self, tables: Tables) -> String {
        match (tables.outer, self.fine) {
            (true, _) => format!("{}, {} on glass not in air", tables.judge(), self.outer),
            (false, 0) => tables.judge().into(),
            (false, fine) => format!("{}, on {fine}, the Rust on the rest", tables.judge()),
        }
    }

    pub fn print(&self, name: &str, tables: Tables) {
        println!("{name:<44} {:>9} bounces {:>5} differences from {}, in {} lists", self.bounces, self.differences, self.judges(tables), self.lists);
        println!(
            "  refused {} (by number {:?}), lost {} on metal and {} on glass, reflected {} by metal and {} by glass, passed {}",
            self.refused.iter().sum::<usize>(), &self.refused[1..], self.lost_metal, self.lost_glass, self.reflected[0], self.reflected[1], self.passed
        );
        println!(
            "  density not finite {}; leading power after a direction 0 {}, of them along a wall that was looked for {}, else {}",
            self.not_finite, self.powers[0], self.walls, self.powers[1]
        );
        println!("  NaN among shares, powers and direction {}; shares outside 0 to 1 or not of sum 1 {}", self.nan, self.shares);
    }
}

pub fn report(name: &str, p: &Path, of: &Lumo, b: &Bounce, here: &[u64], rust: Option<&Bounced>) {
    let s = &of.surface;
    println!("  {name}, {}, roughness {}", if s.glass { "glass" } else { "metal" }, hex_floats(&[s.a.x, s.a.y]));
    println!("    eta {}\n    k   {}\n    outer {}", hex_floats(&s.eta), hex_floats(&s.k), hex_floats(&s.outer));
    println!("    in  {}", hex_floats(&words_in(p, b)));
    println!("    here  {}", hex(here));
    match rust {
        Some(rust) => println!("    judge {}", hex(&rust.words())),
        None => println!("    judge panics"),
    }
}

/// Four wavelengths to start at, often refused.
pub fn start_input(rng: &mut Rng, i: usize) -> Color {
    match rng.below(4) {
        0 => four(rng, |rng| spectra::wavelength(rng, spectra::SAMPLES)),
        1 => {
            let mut l = four(rng, |rng| rng.between(360.0, 830.0));
            l.0[rng.below(4)] = spectra::any_wavelength(rng, i, spectra::SAMPLES);
            l
        }
        _ => start(rng, spectra::SAMPLES).lambda,
    }
}

/// The path that a start gives: every wavelength is one of 360 to 830. None where it is refused, by 4.
pub fn rust_start(lambda: Color) -> Option<Path> {
    lambda.0.iter().all(|l| is_wavelength(*l)).then_some(Path { lambda, power: ONES })
}

/// What answers the bounces of a walk.
pub trait Subject {
    const NAME: &'static str;

    /// The answer on the surface at `which`, and its words as they came. `rust` is the driver's own.
    fn bounce(&mut self, p: &Path, which: usize, of: &Lumo, b: &Bounce, rust: Option<&Bounced>) -> (Bounced, [u64; OUTS]);

    /// Other surfaces take the place of these.
    fn surfaces_end(&mut self, _of: &[Lumo]) {}
}

/// One bounce of a list, beside the driver's own answer.
fn beside_judge<S: Subject>(c: &mut Counts, subject: &mut S, p: &Path, which: usize, l: &Lumo, b: &Bounce) -> Bounced {
    let r = caught(|| rust(p, l, b));
    let (a, words) = subject.bounce(p, which, l, b, r.as_ref());
    if r.is_none_or(|r| r.words() != words) {
        c.differences += 1;
        if c.differences <= 3 {
            report(S::NAME, p, l, b, &words, r.as_ref());
        }
    }
    c.count(l, &a);
    a
}

/// Light along the wall: the list that is written out, then lists of two bounces whose first was looked for.
fn walk_along_walls<S: Subject>(seed: u64, tables: Tables, count: usize, c: &mut Counts, subject: &mut S) {
    let rng = &mut Rng(seed ^ 0x3a11);
    let (of, list) = wall::written(tables);
    let mut p = ON_GRID;
    for (which, (b, written)) in list.iter().enumerate() {
        let a = beside_judge(c, subject, &p, which, &of[which], b);
        if a.words() != written.words() {
            c.differences += 1;
            report("beside what is written out", &p, &of[which], b, &a.words(), Some(written));
        }
        p = a.path;
    }
    c.lists += 1;
    subject.surfaces_end(&of);
    for _ in 0..count {
        let (of, bounces) = wall::found(rng, tables);
        let mut p = ON_GRID;
        for (which, b) in bounces.iter().enumerate() {
            p = beside_judge(c, subject, &p, which, &of[which], b).path;
        }
        c.walls += 1;
        c.lists += 1;
        subject.surfaces_end(&of);
    }
}

/// Lists of bounces on one path, `bounces` of them on surfaces of such spectra or a few more, each beside the driver's own
/// answer; the first lists have the known edges.
pub fn walk<S: Subject>(seed: u64, tables: Tables, bounces: usize, subject: &mut S) -> Counts {
    let n = tables.entries;
    let mut c = Counts::default();
    walk_along_walls(seed, tables, bounces / 2_500, &mut c, subject);
    let walls = c.lists;
    let rng = &mut Rng(seed ^ 0x9a7b);
    let mut of = surfaces(rng, 64, tables);
    while bounces > if n == FINE_SAMPLES { c.fine } else { c.bounces } {
        let list = c.lists - walls;
        // other surfaces every so often
        if list % 256 == 255 {
            subject.surfaces_end(&of);
            of = surfaces(rng, 64, tables);
        }
        let mut p = start(rng, n);
        if list == 0 {
            p = ON_GRID;
        }
        let length = if list == 0 { 12 } else { 1 + rng.below(64) };
        let mut on = None;
        for at in 0..length {
            let (which, b) = match if list == 0 { special(at) } else { None } {
                Some(of) => of,
                None => next_bounce(rng, &p, &of, on),
            };
            let a = beside_judge(&mut c, subject, &p, which, &of[which], &b);
            // document 01's own numbers
            if list == 0 && at < SAMPLES.len() {
                let (case, density, power) = SAMPLES[at];
                assert!(a.case == case && a.density.value == density && a.path.power.0[0] == power, "sample {at} of document 01");
            }
            if list == 0 && (at == 4 || at == 6) {
                let z = a.wi.z.to_bits();
                assert!(a.case == PASSED && if at == 4 { !a.density.finite } else { z << 1 == 0 }, "edge {at}");
            }
            on = (a.case >= REFLECTED).then_some(-a.wi);
            p = a.path;
            // little is seen of a path without power
            if list > 0 && p.power.0[0] == 0.0 && rng.below(4) == 0 {
                break;
            }
        }
        c.lists += 1;
    }
    subject.surfaces_end(&of);
    c
}

// ---- the sample: a record for each bounce of a list, with the path before it

const LISTS: usize = 64;
const LONGEST: usize = 20;

pub fn sample(seed: u64) -> String {
    let mut out = String::new();
    let rng = &mut Rng(seed ^ 0x5a3);
    let mut written = Written::new();
    let of = surfaces(rng, 48, Tables::in_air(spectra::SAMPLES));
    sample_lists(rng, spectra::SAMPLES, &of, LISTS, LONGEST, &mut out, |s, out| {
        // a record has at most 99 entries
        if s.eta.len() > 99 || s.k.len() > 99 {
            return false;
        }
        written.write_in_air(&s.eta, &s.k, out);
        true
    });
    sample_along_wall(Tables::in_air(spectra::SAMPLES), &mut out, |s, out| written.write_in_air(&s.eta, &s.k, out));
    out
}

/// The record of a bounce on a path.
pub fn record_bounce(out: &mut String, p: &Path, s: &Surface, b: &Bounce, a: &Bounced) {
    let mut ins = vec![s.glass as u8 as f64, s.a.x, s.a.y];
    ins.extend(words_in(p, b));
    record(out, 990, &ins, &a.words());
}

/// Records of so many lists of at most so many bounces, before each of which `spectra` writes those of its surface, or says
/// that it can't. The first list has the known edges.
pub fn sample_lists(
    rng: &mut Rng, n: usize, of: &[Lumo], lists: usize, longest: usize, out: &mut String, mut spectra: impl FnMut(&Surface, &mut String) -> bool,
) {
    for list in 0..lists {
        let mut p = if list == 0 { ON_GRID } else { start(rng, n) };
        let length = if list == 0 { 11 } else { 1 + rng.below(longest) };
        let mut on = None;
        // a list has two surfaces of its own, so that few spectra are written
        let own = [rng.below(of.len()), rng.below(of.len())];
        for at in 0..length {
            let (which, b) = match if list == 0 { special(at) } else { None } {
                Some(of) => of,
                None => {
                    let which = own[(at % 8 > 5) as usize];
                    let one = std::slice::from_ref(&of[which]);
                    (which, next_bounce(rng, &p, one, on).1)
                }
            };
            let s = &of[which].surface;
            if !spectra(s, out) {
                continue;
            }
            let a = rust(&p, &of[which], &b);
            record_bounce(out, &p, s, &b, &a);
            on = (a.case >= REFLECTED).then_some(-a.wi);
            p = a.path;
        }
    }
}

/// Records of the list along the wall, likewise.
pub fn sample_along_wall(tables: Tables, out: &mut String, mut spectra: impl FnMut(&Surface, &mut String)) {
    let (of, list) = wall::written(tables);
    let mut p = ON_GRID;
    for (Lumo { surface, .. }, (b, written)) in of.iter().zip(&list) {
        spectra(surface, out);
        record_bounce(out, &p, surface, b, written);
        p = written.path;
    }
}

// ---- for the benchmark

/// A whole checked bounce as one writes it in Rust on lumo's functions, with nothing computed twice but what
/// these compute twice.
#[inline(never)]
pub extern "C-unwind" fn plain(p: Path, s: &Surface, b: Bounce) -> Bounced {
    match (refused(&p, s, &b), &s.rust) {
        (0, Some(own)) => plain_on(own, s.glass && own.constant_eta(), p, b),
        (0, None) => {
            let of = s.reading();
            plain_on(&of, s.glass && of.constant_eta(), p, b)
        }
        (number, _) => kept(number, p),
    }
}

/// Many bounces on one surface, likewise: the surface is checked once, and whether its eta is constant is found once.
#[inline(never)]
pub fn plain_many(s: &Surface, input: &[f64], output: &mut [f64]) {
    match (s.refused(), &s.rust) {
        (0, Some(own)) => plain_many_on(own, input, output),
        (0, None) => plain_many_on(&s.reading(), input, output),
        (number, _) => each_row(input, output, |p, _| kept(number, p)),
    }
}

fn plain_many_on(of: &impl Judge, input: &[f64], output: &mut [f64]) {
    let constant = of.glass() && of.constant_eta();
    each_row(input, output, |p, b| match refused_on(&p, &b) {
        0 => plain_on(of, constant, p, b),
        number => kept(number, p),
    })
}

#[inline]
fn each_row(input: &[f64], output: &mut [f64], answer: impl Fn(Path, Bounce) -> Bounced) {
    for (w, out) in input.chunks_exact(INS).zip(output.chunks_exact_mut(OUTS)) {
        let (p, b) = of_words(w);
        out.copy_from_slice(&output_of(&answer(p, b)));
    }
}

/// A path and a bounce from their words.
#[inline]
fn of_words(w: &[f64]) -> (Path, Bounce) {
    let four = |i: usize| Color([w[i], w[i + 1], w[i + 2], w[i + 3]]);
    let three = |i: usize| Vec3::new(w[i], w[i + 1], w[i + 2]);
    let path = Path { lambda: four(0), power: four(4) };
    (path, Bounce { wo: three(8), normal: three(11), backface: w[14] != 0.0, u: w[15], disk: w[16], c: w[17], s: w[18], ks: four(19), tf: four(23) })
}

/// A bounce that is accepted.
#[inline]
fn plain_on(of: &impl Judge, constant: bool, p: Path, b: Bounce) -> Bounced {
    let of_facets = of.facets();
    let uvw = Onb::new(b.normal);
    let wo = uvw.to_local(b.wo);
    let mut lambda = ColorWavelength { lambda: p.lambda.0 };
    let lost = |lambda: &ColorWavelength, shares| Bounced {
        number: 0,
        case: LOST,
        wi: Vec3::ZERO,
        density: NO_DENSITY,
        shares,
        path: Path { lambda: Color(lambda.lambda), power: Color(p.power.0.map(|x| x * 0.0)) },
    };
    let (wh, sampled, reflection, shares, one_direction);
    if of.glass() {
        let wl = if constant { lambda.lambda[0] } else { lambda.terminate() };
        let eta = of.eta_at(wl);
        one_direction = eta == 1.0 || of_facets.is_delta();
        wh = if one_direction { Vec3::Z } else { of_facets.sample_normal(wo, random_of(&b)) };
        let share = of.f_at(wo, wh, wl);
        let rest = 1.0 - share;
        shares = Shares { there: true, reflected: share, passed: rest };
        reflection = b.u < share / (share + rest);
        sampled = if reflection { util::reflect(wo, wh) } else { util::refract(eta, wo, wh) };
    } else {
        shares = NO_SHARES;
        if b.backface {
            return lost(&lambda, shares);
        }
        one_direction = of_facets.is_delta();
        reflection = true;
        if one_direction {
            wh = Vec3::Z;
            sampled = Some(Vec3::new(-wo.x, -wo.y, wo.z));
        } else {
            wh = of_facets.sample_normal(wo, random_of(&b));
            sampled = util::reflect(wo, wh);
        }
    }
    let Some(wi) = sampled else {
        return lost(&lambda, shares);
    };
    let density = handed_out(of.pdf_at(wo, wi, reflection, lambda.lambda[0]));
    let q = q(one_direction, of_facets, wo, wi, wh);
    let filter = if reflection { &b.ks } else { &b.tf };
    let mut power = [0.0; 4];
    for i in 0..4 {
        let wl = lambda.lambda[i];
        let weight = if wl == 0.0 {
            0.0
        } else if of.glass() {
            filter.0[i] * q
        } else {
            let f = of.f_at(wo, wh, wl);
            filter.0[i] * if f.is_nan() { 0.0 } else { f.min(1.0) } * q
        };
        power[i] = p.power.0[i] * weight;
    }
    Bounced {
        number: 0,
        case: if reflection { REFLECTED } else { PASSED },
        wi: uvw.to_world(wi),
        density,
        shares,
        path: Path { lambda: Color(lambda.lambda), power: Color(power) },
    }
}

/// What lies outside a surface as a renderer has it.
#[derive(Clone, Copy)]
pub enum Outside {
    Air,
    /// A constant index.
    Constant,
    /// Water, whose index falls from violet to red.
    Water,
}

/// A surface as a renderer has it, in air.
pub fn usual_surface(rng: &mut Rng, glass: bool, rough: bool, varying: bool) -> Surface {
    let [coarse, _] = surfaces_of(rng, glass, rough, varying, !glass, Outside::Air);
    coarse
}

/// The same of 95 entries and of 471, against anything, and metal may be without absorption.
pub fn surfaces_of(rng: &mut Rng, glass: bool, rough: bool, varying: bool, absorbs: bool, outside: Outside) -> [Surface; 2] {
    let a = if rough { rng.between(0.05, 0.8) } else { 1e-5 };
    [(spectra::SAMPLES, 1.0), (FINE_SAMPLES, 0.2)].map(|(n, step)| {
        let rise = |by: f64| move |i: usize| by * step * i as f64;
        let eta: Vec<f64> = (0..n).map(rise(if varying { 0.001 } else { 0.0 })).map(|x| 1.5 + x).collect();
        let k: Vec<f64> = (0..n).map(rise(0.01)).map(|x| if absorbs { 2.0 + x } else { 0.0 }).collect();
        let outer: Vec<f64> = (0..n).map(rise(-0.00016)).map(|x| match outside {
            Outside::Air => 1.0,
            Outside::Constant => 1.333,
            Outside::Water => 1.3445 + x,
        }).collect();
        Surface::new(glass, Vec2::splat(a), &eta, &k, &outer)
    })
}

pub fn usual_path(rng: &mut Rng) -> Path {
    Path { lambda: four(rng, |rng| rng.between(360.0, 830.0)), power: ONES }
}

pub fn usual_bounce(rng: &mut Rng) -> Bounce {
    let n = Vec3::new(rng.between(-1.0, 1.0), rng.between(-1.0, 1.0), rng.between(-1.0, 1.0)).normalize();
    let w = Vec3::new(rng.between(-1.0, 1.0), rng.between(-1.0, 1.0), rng.between(0.05, 1.0)).normalize();
    let theta = rng.between(0.0, std::f64::consts::TAU);
    Bounce {
        wo: Onb::new(n).to_world(w),
        normal: n,
        backface: false,
        u: rng.unit(),
        disk: rng.unit(),
        c: theta.cos(),
        s: theta.sin(),
        ks: ONES,
        tf: ONES,
    }
}
