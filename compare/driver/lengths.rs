//! Answers that are written out from document 02 (i) and (iv), by neither the model nor its judge: the refusals of every
//! pair of lengths about 95 and 471, and of an outer spectrum beside them, their order, the values of a known table, and
//! known indices. And facet terms along the wall (02 (v)), of which that Λ is 0 and G is G1 follows from the document, and
//! G1's digits are a figure of lumo's.
use super::harness::{bits, get};
use super::library::thin;
use super::numbers::sample_one;
use super::optics::index_at;
use super::reading;
use super::rulvimba::{self, BounceArgs, Spectra, BOUNCE_IN, BOUNCE_OUT, GLASS, METAL};
use super::surfaces::air;

const LENGTHS: [usize; 7] = [0, 94, 95, 96, 470, 471, 472];

/// The number of a surface, for each length of eta (a row) beside each of k, where all entries are good.
const OF_SURFACES: [[u64; 7]; 7] = [
    [2, 2, 2, 2, 2, 2, 2],
    [2, 2, 2, 2, 2, 2, 2],
    [3, 3, 0, 3, 3, 3, 3],
    [2, 2, 2, 2, 2, 2, 2],
    [2, 2, 2, 2, 2, 2, 2],
    [3, 3, 3, 3, 3, 0, 3],
    [2, 2, 2, 2, 2, 2, 2],
];

/// The number of a surface whose eta and k are good, for each length of the outer spectrum, where all entries are good:
/// glass of 95 entries and of 471, and metal of either.
const OF_OUTERS: [(u64, usize, [u64; 7]); 4] = [
    (GLASS, 95, [13, 13, 0, 13, 13, 13, 13]),
    (GLASS, 471, [13, 13, 13, 13, 13, 0, 13]),
    (METAL, 95, [0; 7]),
    (METAL, 471, [0; 7]),
];

/// The number of the lone lookup at each length.
const OF_LOOKUPS: [u64; 7] = [2, 2, 0, 2, 2, 0, 2];

/// How many answers there were, and how many were others than those written out.
#[derive(Default)]
struct Tally {
    answers: usize,
    differences: usize,
}

impl Tally {
    fn expect(&mut self, what: impl Fn() -> String, here: u64, written: u64) {
        self.answers += 1;
        if here != written {
            self.differences += 1;
            if self.differences <= 3 {
                println!("  {}\n    here    {here:x}\n    written {written:x}", what());
            }
        }
    }

    /// The number of every call that takes a surface, whose other arguments are good.
    fn expect_of_surface(&mut self, what: &str, kind: u64, roughness: f64, of: Spectra, written: u64) {
        for (call, here) in numbers_of_calls(kind, roughness, of, true) {
            self.expect(|| format!("{call}, kind {kind}, {what}"), here, written);
        }
    }

    /// The same where every other argument is bad too.
    fn expect_before_others(&mut self, what: &str, kind: u64, roughness: f64, of: Spectra, written: u64) {
        for (call, here) in numbers_of_calls(kind, roughness, of, false) {
            self.expect(|| format!("{call}, kind {kind}, {what}, other arguments bad"), here, written);
        }
    }
}

/// The number that each call answers on the surface, whose other arguments are good or bad.
fn numbers_of_calls(kind: u64, a: f64, of: Spectra, good: bool) -> Vec<(&'static str, u64)> {
    let s = rulvimba::Surface { kind, roughness: rulvimba::Vec2 { x: a, y: a } };
    let one = if good { 1.0 } else { 2.0 };
    let first = if good { 400.0 } else { 359.0 };
    let z = get(&[0.0, 0.0, one]);
    let ones = get(&[one; 4]);
    let wls = get(&[first, 500.5, 600.25, 0.0]);
    let path = rulvimba::Path { lambda: wls, power: ones };
    let args = BounceArgs { wo: z, normal: z, backface: false, u: 0.5 * one, disk: 0.25, c: one, s: 0.0, ks: ones, tf: ones };
    let words = [
        first, 500.5, 600.25, 0.0, one, one, one, one, 0.0, 0.0, one, 0.0, 0.0, one, 0.0, 0.5 * one, 0.25, one, 0.0, one, one, one, one, one,
        one, one, one,
    ];
    let many = |input: [f64; BOUNCE_IN]| {
        let mut output = [0.5; BOUNCE_OUT];
        rulvimba::bounces(s, of, &input, &mut output);
        output[8] as u64
    };
    vec![
        ("rulvimba_make_surface", rulvimba::make_surface(kind, a, of).number),
        ("rulvimba_check_surface", rulvimba::check_surface(s, of)),
        ("rulvimba_bounce", rulvimba::bounce(&mut { path }, s, of, args).number),
        ("rulvimba_bounces", many(words)),
        ("path_bounce_on", thin(&mut { path }, s, of, args).number),
        ("rulvimba_density", rulvimba::density(s, of, z, z, true, first + 100.5).number),
        ("rulvimba_fresnel_at", rulvimba::fresnel_at(s, of, z, z, first + 100.5).number),
        ("rulvimba_fresnel", rulvimba::fresnel(s, of, z, z, wls).number),
        ("rulvimba_lambda", rulvimba::lambda(s, of, z).number),
        ("rulvimba_g1", rulvimba::g1(s, of, z, z).number),
        ("rulvimba_g", rulvimba::g(s, of, z, z, z).number),
        ("rulvimba_d", rulvimba::d(s, of, z).number),
        ("rulvimba_sample_normal", rulvimba::sample_normal(s, of, z, 0.25, one, 0.0).number),
    ]
}

/// The number of each of these calls on a good surface whose other arguments are bad: two ask nothing else.
const OF_OTHERS: [u64; 13] = [0, 0, 4, 4, 4, 5, 5, 5, 5, 5, 5, 5, 5];

fn all_pairs(t: &mut Tally) {
    for (n, row) in LENGTHS.iter().zip(OF_SURFACES) {
        for (m, written) in LENGTHS.iter().zip(row) {
            for (kind, k) in [(METAL, 2.0), (METAL, 0.0), (GLASS, 0.0), (GLASS, -0.0)] {
                let (eta, k) = (vec![1.5; *n], vec![k; *m]);
                let what = format!("eta of {n} entries, k of {m}");
                t.expect_of_surface(&what, kind, 0.5, Spectra { eta: &eta, k: &k, outer: air(*n) }, written);
            }
        }
    }
    for (kind, n, numbers) in OF_OUTERS {
        for (l, written) in LENGTHS.iter().zip(numbers) {
            for x in [1.0, 1.333] {
                let (eta, k, outer) = (vec![1.5; n], vec![0.0; n], vec![x; *l]);
                let what = format!("eta and k of {n} entries, outer of {l}");
                t.expect_of_surface(&what, kind, 0.5, Spectra { eta: &eta, k: &k, outer: &outer }, written);
            }
        }
    }
    for (n, written) in LENGTHS.iter().zip(OF_LOOKUPS) {
        let here = rulvimba::lookup(&vec![1.5; *n], 500.5).number;
        t.expect(|| format!("rulvimba_lookup in {n} entries"), here, written);
    }
}

/// `n` entries with one that is another.
fn with(n: usize, x: f64, at: usize, other: f64) -> Vec<f64> {
    let mut all = vec![x; n];
    all[at] = other;
    all
}

/// 1 comes before 2, 2 before 3, and 3 before 13.
fn order(t: &mut Tally) {
    let (metal, glass) = (vec![2.0; 471], vec![0.0; 471]);
    let good = vec![1.5; 471];
    let cases: [(&str, u64, f64, &[f64], &[f64], u64); 16] = [
        ("roughness 2, both 471", METAL, 2.0, &good, &metal, 1),
        ("roughness 2, eta of 94", GLASS, 2.0, &good[..94], &glass, 1),
        ("roughness 2, eta of 471, k of 95", METAL, 2.0, &good, &metal[..95], 1),
        ("eta of 471 with its last entry 0, k of 95", METAL, 0.5, &with(471, 1.5, 470, 0.0), &metal[..95], 2),
        ("eta of 471 with its 96th entry NaN, k of 95", GLASS, 0.5, &with(471, 1.5, 95, f64::NAN), &glass[..95], 2),
        ("eta of 471 with its 96th entry past 100", GLASS, 0.5, &with(471, 1.5, 95, 100f64.next_up()), &glass, 2),
        ("eta of 471 with its first entry below 0.01, k of 472", METAL, 0.5, &with(471, 1.5, 0, 0.01f64.next_down()), &vec![2.0; 472], 2),
        ("eta of 95 with a bad entry, k of 471", METAL, 0.5, &with(95, 1.5, 94, 0.0), &metal, 2),
        ("eta of 100, k of 471", METAL, 0.5, &good[..100], &metal, 2),
        ("k of 100 beside 471", METAL, 0.5, &good, &metal[..100], 3),
        ("k of 471 with its last entry 0 on metal", METAL, 0.5, &good, &with(471, 2.0, 470, 0.0), 3),
        ("k of 471 with its 96th entry below 1e-6", METAL, 0.5, &good, &with(471, 2.0, 95, 1e-6f64.next_down()), 3),
        ("k of 471 that absorbs, on glass", GLASS, 0.5, &good, &metal, 3),
        ("k of 471 with its last entry 1e-6 on glass", GLASS, 0.5, &good, &with(471, 0.0, 470, 1e-6), 3),
        ("k of 471 with a zero of the other sign on glass", GLASS, 0.5, &good, &with(471, 0.0, 95, -0.0), 0),
        ("both 471 at their limits", METAL, 0.5, &with(471, 0.01, 470, 100.0), &with(471, 1e-6, 470, 100.0), 0),
    ];
    for (what, kind, a, eta, k, written) in cases {
        t.expect_of_surface(what, kind, a, Spectra { eta, k, outer: air(eta.len()) }, written);
        // an outer spectrum that is refused comes after them, and metal has none
        for outer in [&[][..], &[f64::NAN; 471], &[1.0; 472]] {
            let written = if written == 0 && kind == GLASS { 13 } else { written };
            let what = format!("{what}, a bad outer of {}", outer.len());
            t.expect_of_surface(&what, kind, a, Spectra { eta, k, outer }, written);
        }
    }
}

/// 13 comes before the numbers of all other arguments, in every call.
fn before_others(t: &mut Tally) {
    for n in [95, 471] {
        let (eta, k) = (vec![1.5; n], vec![0.0; n]);
        let outers = [vec![], vec![1.0; n - 1], with(n, 1.333, n - 1, 0.0), with(n, 1.333, 0, f64::NAN), with(n, 1.333, n / 2, 100f64.next_up())];
        for outer in outers {
            let of = Spectra { eta: &eta, k: &k, outer: &outer };
            let what = format!("a bad outer of {}", outer.len());
            t.expect_before_others(&what, GLASS, 0.5, of, 13);
            for (kind, outer) in [(METAL, &outer[..]), (GLASS, air(n))] {
                let of = Spectra { outer, ..of };
                for ((call, here), written) in numbers_of_calls(kind, 0.5, of, false).into_iter().zip(OF_OTHERS) {
                    t.expect(|| format!("{call}, kind {kind}, other arguments bad"), here, written);
                }
            }
        }
    }
}

/// An entry out of its limits is seen wherever it stands.
fn every_entry(t: &mut Tally) {
    let [metal, glass] = [METAL, GLASS].map(|kind| rulvimba::Surface { kind, roughness: rulvimba::Vec2 { x: 0.5, y: 0.5 } });
    for n in [95, 471] {
        let (eta, k, zero) = (vec![1.5; n], vec![2.0; n], vec![0.0; n]);
        for at in 0..n {
            let bad_eta = with(n, 1.5, at, 100f64.next_up());
            let bad_k = with(n, 2.0, at, 0.0);
            let not_finite = with(n, 1.5, at, f64::INFINITY);
            let numbers = [
                rulvimba::check_surface(metal, Spectra { eta: &bad_eta, k: &k, outer: air(n) }),
                rulvimba::check_surface(metal, Spectra { eta: &eta, k: &bad_k, outer: air(n) }),
                rulvimba::lookup(&not_finite, 500.5).number,
            ];
            for (what, (here, written)) in ["eta", "k", "a lookup"].iter().zip(numbers.into_iter().zip([2, 3, 2])) {
                t.expect(|| format!("{what} with the entry {at} of {n} out of its limits"), here, written);
            }
            for bad in [100f64.next_up(), 0.01f64.next_down(), f64::NAN, 0.0, -1.333, f64::INFINITY] {
                let outer = with(n, 1.333, at, bad);
                let of = Spectra { eta: &eta, k: &zero, outer: &outer };
                t.expect(|| format!("outer with the entry {at} of {n} {bad:?}"), rulvimba::check_surface(glass, of), 13);
                t.expect(|| format!("the same beside metal, {at} of {n}"), rulvimba::check_surface(metal, of), 0);
            }
            for good in [100.0, 0.01] {
                let outer = with(n, 1.333, at, good);
                let of = Spectra { eta: &eta, k: &zero, outer: &outer };
                t.expect(|| format!("outer with the entry {at} of {n} {good:?}"), rulvimba::check_surface(glass, of), 0);
            }
        }
    }
}

/// Entry i is 1 + i/1024 over 471 entries: whole nm give the entries, halves the means, and all of them are exact.
fn known_table(t: &mut Tally) {
    let table: Vec<f64> = (0..471).map(|i| 1.0 + i as f64 / 1024.0).collect();
    let mut expect = |lambda: f64, number: u64, value: f64| {
        let here = rulvimba::lookup(&table, lambda);
        t.expect(|| format!("rulvimba_lookup's number at {lambda:?}"), here.number, number);
        t.expect(|| format!("rulvimba_lookup at {lambda:?}"), bits(here.value), bits(value));
        if number == 0 {
            t.expect(|| format!("sample_one at {lambda:?}"), bits(sample_one(&table, lambda)), bits(value));
            t.expect(|| format!("the second reading at {lambda:?}"), bits(reading::sample_one(&table, 1, lambda)), bits(value));
        }
    };
    for i in 0..471 {
        expect(360.0 + i as f64, 0, 1.0 + i as f64 / 1024.0);
    }
    for i in 0..470 {
        expect(360.5 + i as f64, 0, 1.0 + (2 * i + 1) as f64 / 2048.0);
    }
    expect(0.0, 0, 0.0);
    expect(-0.0, 0, 0.0);
    expect(830.0, 0, 1.458984375);
    for lambda in [830f64.next_up(), 359.0, 360f64.next_down(), 831.0, -360.0, f64::NAN, f64::INFINITY] {
        expect(lambda, 4, 0.0);
    }
    // 2 comes before 4
    let numbers = [with(471, 1.5, 470, f64::INFINITY), with(471, 1.5, 95, f64::NAN)].map(|v| rulvimba::lookup(&v, 359.0).number);
    t.expect(|| "rulvimba_lookup, the last entry infinite".into(), numbers[0], 2);
    t.expect(|| "rulvimba_lookup, the 96th entry NaN".into(), numbers[1], 2);
}

/// Figures of glass that isn't in air, which are known beforehand, on 95 entries and on 471.
fn known_indices(t: &mut Tally) {
    let z: rulvimba::Vec3 = get(&[0.0, 0.0, 1.0]);
    let delta = |kind| rulvimba::Surface { kind, roughness: rulvimba::Vec2 { x: 1e-5, y: 1e-5 } };
    for n in [95, 471] {
        let (zero, three) = (vec![0.0; n], vec![3.0; n]);
        let in_air = Spectra { eta: &three, k: &zero, outer: air(n) };
        let fresnel = |of, wl| rulvimba::fresnel_at(delta(GLASS), of, z, z, wl).value;
        let mut expect = |what: &str, here: u64, written: u64| t.expect(|| format!("{what}, {n} entries"), here, written);

        // the Rust's reading of a constant eta between grid points stays; 3.0 is read as itself where they are 1 nm apart
        let written = if n == 95 { 0x3fd0000000000002 } else { 0x3fd0000000000000 };
        expect("F at 501 nm, eta 3, outer ones", bits(fresnel(in_air, 501.0)), written);
        expect("F at 500 nm, eta 3, outer ones", bits(fresnel(in_air, 500.0)), bits(0.25));

        // a constant outer spectrum gives its entry between grid points too
        if n == 95 {
            let water = vec![1.333; n];
            let of = Spectra { outer: &water, ..in_air };
            expect("the index at 360.9 nm, eta 3, outer 1.333", bits(index_at(GLASS, of, 360.9)), 0x40020126fc59e0e3);
            expect("the index of metal there", bits(index_at(METAL, of, 360.9)), 0x4007ffffffffffff);
        }

        // an eta that varies over its half is 2 everywhere, over itself 1
        let eta: Vec<f64> = (0..n).map(|i| 1.5 + 0.37 * ((i * i) % 17) as f64).collect();
        let half: Vec<f64> = eta.iter().map(|x| x / 2.0).collect();
        for i in 0..=4700 {
            let wl = 360.0 + i as f64 / 10.0;
            for (outer, index) in [(&half, 2.0), (&eta, 1.0)] {
                expect("the index over a half and over itself", bits(index_at(GLASS, Spectra { eta: &eta, k: &zero, outer }, wl)), bits(index));
            }
        }
        // and of wavelengths that were ended 0.0, with a varying outer spectrum too
        for wl in [0.0, -0.0] {
            for outer in [&half[..], air(n)] {
                expect("the index at 0", bits(index_at(GLASS, Spectra { eta: &eta, k: &zero, outer }, wl)), 0);
            }
        }
        let of = Spectra { eta: &three, k: &zero, outer: &half };
        let four = rulvimba::fresnel(delta(GLASS), of, z, z, get(&[400.0, 0.0, -0.0, 0.0]));
        expect("F at 400 nm", bits(four.value.s0), bits(fresnel(of, 400.0)));
        for ended in [four.value.s1, four.value.s2, four.value.s3] {
            expect("F at an ended wavelength", bits(ended), 0);
        }
        expect("the number of F there", four.number, 0);

        // wavelengths two to four end unless both spectra are constant, and on metal never
        let ones = get(&[1.0; 4]);
        let args = BounceArgs { wo: z, normal: z, backface: false, u: 0.5, disk: 0.25, c: 1.0, s: 0.0, ks: ones, tf: ones };
        let left = |kind, of| {
            let mut path = rulvimba::Path { lambda: get(&[400.0, 500.0, 600.0, 700.0]), power: ones };
            let number = rulvimba::bounce(&mut path, delta(kind), of, args).number;
            [number as f64, path.lambda.s0, path.lambda.s1, path.lambda.s2, path.lambda.s3]
        };
        let constant = vec![1.333; n];
        let last_aside = with(n, 1.333, n - 1, 1.333f64.next_up());
        let all = [0.0, 400.0, 500.0, 600.0, 700.0];
        let one = [0.0, 400.0, 0.0, 0.0, 0.0];
        for (kind, eta, outer, written) in [
            (GLASS, &three[..], &constant[..], all),
            (GLASS, &three, &half, one),
            (GLASS, &three, &last_aside, one),
            (GLASS, &eta, &constant, one),
            (GLASS, &eta, &eta, one),
            (METAL, &three, &half, all),
            (METAL, &eta, &[], all),
        ] {
            let here = left(kind, Spectra { eta, k: &zero, outer });
            for (here, written) in here.into_iter().zip(written) {
                expect("the wavelengths that are left", bits(here), bits(written));
            }
        }
    }
}

/// Lambda is 0 along the wall, and so G is G1 there: only the weight takes q as 0 (wall.rs).
fn facets_along_wall(t: &mut Tally) {
    let (eta, k) = ([1.5; 95], [0.0; 95]);
    let of = Spectra { eta: &eta, k: &k, outer: air(95) };
    let s = rulvimba::Surface { kind: GLASS, roughness: rulvimba::Vec2 { x: 1.0, y: 1.0 } };
    let wo = get(&[0.8, 0.0, 0.6]);
    let wi = get(&[f64::from_bits(0xbff0000000000006), 0.0, 0.0]);
    let wh = rulvimba::sample_normal(s, of, wo, 0.0, 1.0, 0.0).value;
    for (call, here, written) in [
        ("rulvimba_lambda", rulvimba::lambda(s, of, wi), 0),
        ("rulvimba_g1", rulvimba::g1(s, of, wo, wh), 0x3fe7ffffffffffff),
        ("rulvimba_g", rulvimba::g(s, of, wo, wi, wh), 0x3fe7ffffffffffff),
    ] {
        t.expect(|| format!("{call} along the wall, its number"), here.number, 0);
        t.expect(|| format!("{call} along the wall"), bits(here.value), written);
    }
}

/// Answers the number of differences.
pub fn compare() -> usize {
    let mut t = Tally::default();
    all_pairs(&mut t);
    order(&mut t);
    before_others(&mut t);
    every_entry(&mut t);
    known_table(&mut t);
    known_indices(&mut t);
    facets_along_wall(&mut t);
    println!("{:<44} {:>9} answers {:>5} differences from those written out", "lengths, known tables, indices, facet terms", t.answers, t.differences);
    t.differences
}
