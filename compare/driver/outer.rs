//! The sample of glass that isn't in air, which a program replays: answers of the second reading, on 95 entries and on 471.
use super::harness::{bits, Function};
use super::inputs::Rng;
use super::judge::Tables;
use super::numbers::record;
use super::optics::{self, is_writable, record_on, Color, Fields, Written};
use super::path::{plain_bounce, record_bounce, rust, sample_along_wall, sample_lists, surfaces, Bounce, Lumo, ON_GRID};
use super::rulvimba::{GLASS, METAL};
use super::spectra::{FINE_SAMPLES, SAMPLES};
use super::surfaces::*;
use crate::{Vec2, Vec3};

/// How many surfaces of each spacing it has, and how many lists of at most so many bounces.
const SURFACES: usize = 20;
const LISTS: usize = 20;
const LONGEST: usize = 8;

/// A surface's spectra that records have room for: of eight surfaces one is refused 13, and one is metal.
fn pick(rng: &mut Rng, tables: Tables, at: usize) -> (bool, [usize; 3]) {
    let glass = at % 8 != 7;
    let number = if at % 8 == 3 { 13 } else { 0 };
    loop {
        let picked = pick_any(rng, tables, glass);
        let [eta, k, outer] = spectra_of(picked);
        if [eta, k, outer].into_iter().all(is_writable) && spectra_refused(glass, eta, k, outer) == number {
            return (glass, picked);
        }
    }
}

/// Every call that takes an outer spectrum, on surfaces of one spacing.
fn calls(rng: &mut Rng, tables: Tables, written: &mut Written, out: &mut String) {
    let all: Vec<Function> = optics::table().into_iter().filter(|f| f.tables == Some(tables) && f.number != 950).collect();
    for at in 0..SURFACES {
        let (glass, picked) = pick(rng, tables, at);
        let [eta, k, outer] = spectra_of(picked);
        written.write(eta, k, outer, out);
        for f in &all {
            // these read tables of one spacing
            if f.number < 950 && [eta, k, outer].iter().any(|v| v.len() != tables.entries) {
                continue;
            }
            let mut w = vec![0.0; f.ins()];
            (f.source.unwrap())(rng, at, &mut w);
            w[0] = glass as u8 as f64;
            record_on(f, picked, w, out);
        }
    }
}

/// The figures that are known beforehand, with the spectra that they are about.
struct Known<'a> {
    written: &'a mut Written,
    out: &'a mut String,
}

impl Known<'_> {
    /// The record of a call, whose words out are to be those.
    fn call(&mut self, number: u32, of: &Fields, words: &[f64], expected: &[u64]) {
        self.written.write(of.eta, of.k, of.outer, self.out);
        let mut ins = vec![of.kind as f64, of.a.x, of.a.y];
        ins.extend(words);
        record(self.out, number, &ins, expected);
    }

    /// The record of a bounce from four wavelengths, of which those are left, or a refusal.
    fn bounce(&mut self, of: &Fields, b: &Bounce, number: u64, left: [f64; 4]) {
        self.written.write(of.eta, of.k, of.outer, self.out);
        let lumo = Lumo::new(of.kind == GLASS, of.a, of.eta, of.k, of.outer);
        let a = rust(&ON_GRID, &lumo, b);
        assert!(a.number == number && a.path.lambda.0 == left, "a bounce that is not in air");
        record_bounce(self.out, &ON_GRID, &lumo.surface, b, &a);
    }
}

/// eta 3 everywhere on delta glass, of `n` entries, against ones, 1.333 and a spectrum that varies.
fn of_threes(n: usize) -> [Fields<'static>; 3] {
    let leak = |v: Vec<f64>| -> &'static [f64] { v.leak() };
    let (eta, k) = (leak(vec![3.0; n]), leak(vec![0.0; n]));
    let of = |outer| Fields { kind: GLASS, a: Vec2::splat(1e-5), eta, k, outer };
    [of(air(n)), of(leak(vec![1.333; n])), of(leak((0..n).map(|i| [1.25, 1.5, 1.375][i % 3]).collect()))]
}

fn known_calls(n: usize, known: &mut Known) {
    let [in_air, water, varying] = of_threes(n);
    let up = [0.0, 0.0, 1.0, 0.0, 0.0, 1.0];
    let with = |more: &[f64]| [&up[..], more].concat();
    // the index at 360.9 nm: at 5 nm eta is read one unit off there, and the outer spectrum as its entry
    let [index, f] = if n == SAMPLES { [0x40020126fc59e0e3, 0x3fd0000000000002] } else { [bits(3.0 / 1.333), bits(0.25)] };
    known.call(935, &water, &[360.9], &[index]);
    known.call(935, &Fields { kind: METAL, ..varying }, &[400.0], &[bits(3.0)]);
    known.call(935, &varying, &[0.0], &[0]);
    known.call(935, &varying, &[-0.0], &[0]);
    known.call(958, &in_air, &with(&[501.0]), &[0, f]);
    // at a grid point, 3.0 over 1.5 and, from the third entry on, over 1.375
    let two = optics::fresnel_of(2.0);
    let at = 360.0 + if n == SAMPLES { 5.0 } else { 1.0 };
    known.call(959, &varying, &with(&[at, 0.0, -0.0, 0.0]), &[0, two, 0, 0, 0]);
    known.call(931, &varying, &[], &[0]);
    known.call(931, &water, &[], &[1]);
    // 13, before 4 and 5
    let bad = [vec![], vec![1.0; 94], vec![f64::NAN; n], vec![100f64.next_up(); n], vec![0.01f64.next_down(); n], vec![1.0; SAMPLES + FINE_SAMPLES - n]];
    for outer in &bad {
        let of = Fields { outer, ..in_air };
        known.call(958, &of, &with(&[359.0]), &[13, 0]);
        known.call(952, &of, &[0.0, 0.0, 2.0], &[13, 0]);
        known.call(962, &of, &[], &[13, 0, 0, 0]);
        let one = bits(1e-5);
        known.call(962, &Fields { kind: METAL, ..of }, &[], &[0, 0, one, one]);
    }
}

fn known_bounces(n: usize, known: &mut Known) {
    let [in_air, water, varying] = of_threes(n);
    let b = plain_bounce(Vec3::Z, 0.5, 0.0, 1.0, 0.0);
    let all = [400.0, 500.0, 600.0, 700.0];
    known.bounce(&water, &b, 0, all);
    // eta is constant and the outer spectrum isn't
    known.bounce(&varying, &b, 0, [400.0, 0.0, 0.0, 0.0]);
    known.bounce(&Fields { kind: METAL, ..varying }, &b, 0, all);
    known.bounce(&Fields { kind: METAL, outer: &[], ..in_air }, &b, 0, all);
    for outer in [&[][..], &[f64::NAN; 95], &[1.0; 94]] {
        known.bounce(&Fields { outer, ..in_air }, &Bounce { u: 2.0, ..b }, 13, all);
    }
}

/// Records of every call that takes an outer spectrum, then of bounces.
pub fn sample(seed: u64) -> String {
    let mut out = String::new();
    let rng = &mut Rng(seed ^ 0x07e5);
    let mut written = Written::new();
    for n in [SAMPLES, FINE_SAMPLES] {
        known_calls(n, &mut Known { written: &mut written, out: &mut out });
        calls(rng, Tables::any_outer(n), &mut written, &mut out);
    }
    for n in [SAMPLES, FINE_SAMPLES] {
        known_bounces(n, &mut Known { written: &mut written, out: &mut out });
        let mut of = surfaces(rng, 96, Tables::any_outer(n));
        of.retain(|l| [&l.surface.eta, &l.surface.k, &l.surface.outer].into_iter().all(|v| is_writable(v)));
        sample_lists(rng, n, &of, LISTS, LONGEST, &mut out, |s, out| {
            written.write(&s.eta, &s.k, &s.outer, out);
            true
        });
        sample_along_wall(Tables::any_outer(n), &mut out, |s, out| written.write(&s.eta, &s.k, &s.outer, out));
    }
    out
}
