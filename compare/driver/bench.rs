//! Times, here and in the Rust: the least of several passes, each over fresh data.
use super::book;
use super::candidates::{Listed, Sorted};
use super::harness::*;
use super::inputs::{subnormal, Rng};
use super::library::{run_bounces, Lent};
use super::numbers::{basis_calls, root_calls, BasisCalls, RootCall};
use super::optics::{of_surface_calls, OfSurface};
use super::path::{plain, plain_many, surfaces_of, usual_bounce, usual_path, usual_surface, words_in, Bounce, Bounced, Outside, Path, INS, OUTS};
use super::rulvimba::{self, BookSurface, Candidate, Candidates, CountResult};
use super::surfaces::Surface;
use super::Function;
use crate::Vec3;

const PASSES: usize = 61;
const SIZE: usize = 4096;

fn line(name: &str, here: f64, rust: f64) {
    println!("{name:<47} {here:>8.2} {rust:>8.2} {:>6.2}", here / rust);
}

/// Both sides on 95 entries, then on 471, and what this is of that.
fn lines(name: &str, [here, rust, fine_here, fine_rust]: [f64; 4]) {
    line(&format!("{name}, 95 entries"), here, rust);
    let [grown_here, grown_rust] = [fine_here / here, fine_rust / rust];
    println!(
        "{:<47} {fine_here:>8.2} {fine_rust:>8.2} {:>6.2}   {grown_here:.3} and {grown_rust:.3} of 95",
        format!("{name}, 471 entries"),
        fine_here / fine_rust
    );
}

/// The least times of several passes of loops on the same data, each first in its turn.
fn least_of<T, const N: usize>(rng: &mut Rng, fresh: fn(&mut Rng) -> T, loops: [&dyn Fn(&[T]) -> f64; N]) -> [f64; N] {
    let mut least = [f64::INFINITY; N];
    for pass in 0..PASSES {
        let data: Vec<T> = (0..SIZE).map(|_| fresh(rng)).collect();
        for turn in 0..N {
            let i = (pass + turn) % N;
            least[i] = least[i].min(loops[i](&data));
        }
    }
    least
}

/// The same of a loop here and one in the Rust.
fn least<T>(rng: &mut Rng, fresh: fn(&mut Rng) -> T, here: impl Fn(&[T]) -> f64, rust: impl Fn(&[T]) -> f64) -> (f64, f64) {
    let [here, rust] = least_of(rng, fresh, [&here, &rust]);
    (here, rust)
}

/// A normal value above 0.
fn normal(rng: &mut Rng) -> f64 {
    f64::from_bits((rng.next() % 0x7fe0000000000000) + 0x0010000000000000)
}

fn direction(rng: &mut Rng) -> Vec3 {
    Vec3::new(rng.between(-1.0, 1.0), rng.between(-1.0, 1.0), rng.between(-1.0, 1.0)).normalize()
}

#[inline(never)]
fn array(data: &[f64], f: RootCall) -> f64 {
    let mut out = vec![0.5; data.len()];
    let f = black_box(f);
    timed(data.len(), || {
        for (o, x) in out.iter_mut().zip(data) {
            *o = f(*x);
        }
        out
    })
}

/// The machine's instruction in a loop, with no call.
#[inline(never)]
fn array_inline(data: &[f64]) -> f64 {
    let mut out = vec![0.5; data.len()];
    timed(data.len(), || {
        for (o, x) in out.iter_mut().zip(data) {
            *o = black_box(*x).sqrt();
        }
        out
    })
}

/// Each root needs the one before: of x and a value that is 0 times it.
#[inline(never)]
fn chain(data: &[f64], f: RootCall) -> f64 {
    let f = black_box(f);
    timed(data.len(), || {
        let mut r = 1.0;
        for x in data {
            r = f(*x + r * 0.0);
        }
        r
    })
}

/// The basis around a normal, and a direction in it.
#[inline(never)]
fn basis(data: &[(Vec3, Vec3)], f: BasisCalls) -> f64 {
    let mut out = vec![Vec3::ZERO; data.len()];
    let f = black_box(f);
    timed(data.len(), || {
        for (o, (n, w)) in out.iter_mut().zip(data) {
            *o = f.1(f.0(*n), *w);
        }
        out
    })
}

/// A function of a surface, two directions and a wavelength, on one surface.
#[inline(never)]
fn of_surface(data: &[(Vec3, Vec3, f64)], s: &Surface, f: OfSurface) -> f64 {
    let mut out = vec![0.0; data.len()];
    let f = black_box(f);
    timed(data.len(), || {
        for (o, (wo, w, wl)) in out.iter_mut().zip(data) {
            *o = f(s, *wo, *w, *wl);
        }
        out
    })
}

type BounceCall = extern "C-unwind" fn(Path, &Surface, Bounce) -> Bounced;

/// A path and a bounce, as each side takes them.
struct One {
    here: Lent,
    path: Path,
    bounce: Bounce,
}

/// Bounces, each on a path of its own.
#[inline(never)]
fn bounces(data: &[One], s: &Surface) -> f64 {
    let mut out = vec![0.0; data.len()];
    timed(data.len(), || {
        for (o, one) in out.iter_mut().zip(data) {
            *o = one.here.bounce(s);
        }
        out
    })
}

#[inline(never)]
fn bounces_in_rust(data: &[One], s: &Surface) -> f64 {
    let mut out = vec![0.0; data.len()];
    let f = black_box(plain as BounceCall);
    timed(data.len(), || {
        for (o, one) in out.iter_mut().zip(data) {
            let a = f(one.path, s, one.bounce);
            *o = a.path.power.0[0] + a.wi.x + a.density.value;
        }
        out
    })
}

/// Bounces on one surface, `n` in one call, each on a path of its own.
#[inline(never)]
fn many(data: &[[f64; INS]], s: &Surface, n: usize, f: fn(&Surface, &[f64], &mut [f64])) -> f64 {
    let data = &data[..data.len() / n * n];
    let mut out = vec![0.0; data.len() * OUTS];
    let f = black_box(f);
    timed(data.len(), || {
        for (input, output) in data.chunks(n).zip(out.chunks_mut(n * OUTS)) {
            f(s, input.as_flattened(), output);
        }
        out
    })
}

/// What is timed answers the same on both sides.
fn assert_same(rng: &mut Rng, row: fn(&mut Rng) -> [f64; INS], s: &Surface) {
    let data: Vec<[f64; INS]> = (0..SIZE).map(|_| row(rng)).collect();
    let [here, rust] = [run_bounces, plain_many].map(|f| {
        let mut out = vec![0.0; data.len() * OUTS];
        f(s, data.as_flattened(), &mut out);
        out.into_iter().map(bits).collect::<Vec<_>>()
    });
    assert!(here == rust, "the bounces that are timed differ, on {} entries", s.eta.len());
}

/// ns for each bounce of lists of `n`, each on one path and on four surfaces by turns.
#[inline(never)]
fn lists(data: &[One], s: &[Surface], n: usize) -> f64 {
    timed(data.len(), || {
        let mut sum = 0.0;
        for (i, list) in data.chunks(n).enumerate() {
            sum += Lent::bounces(list.iter().map(|one| &one.here), s, i * n);
        }
        sum
    })
}

#[inline(never)]
fn lists_in_rust(data: &[One], s: &[Surface], n: usize) -> f64 {
    let f = black_box(plain as BounceCall);
    timed(data.len(), || {
        let mut sum = 0.0;
        let mut i = 0;
        for list in data.chunks(n) {
            let mut p = list[0].path;
            for one in list {
                p = f(p, &s[i % s.len()], one.bounce).path;
                i += 1;
            }
            sum += p.power.0[0];
        }
        sum
    })
}

fn up(rng: &mut Rng) -> Vec3 {
    Vec3::new(rng.between(-1.0, 1.0), rng.between(-1.0, 1.0), rng.between(0.05, 1.0)).normalize()
}

/// The optics on whole surfaces, and bounces.
fn bench_bounces(rng: &mut Rng) {
    println!("on a surface, whose spectra are read at a wavelength");
    for (name, glass, here, rust) in of_surface_calls() {
        let s = usual_surface(rng, glass, true, true);
        let two = |rng: &mut Rng| (up(rng), up(rng), rng.between(360.0, 830.0));
        let (a, b) = least(rng, two, |d| of_surface(d, &s, here), |d| of_surface(d, &s, rust));
        line(name, a, b);
    }
    println!("a whole checked bounce; in Rust 471 entries, and glass that is not in air, are read by the second reading");
    let one = |rng: &mut Rng| {
        let (path, bounce) = (usual_path(rng), usual_bounce(rng));
        One { here: Lent::new(&path, &bounce), path, bounce }
    };
    use Outside::{Air, Constant, Water};
    for (name, glass, rough, varying, outside) in [
        ("rough metal", false, true, true, Air),
        ("delta metal", false, false, true, Air),
        ("rough glass, constant eta", true, true, false, Air),
        ("rough glass, varying eta", true, true, true, Air),
        ("delta glass, constant eta", true, false, false, Air),
        ("delta glass, varying eta", true, false, true, Air),
        ("rough glass, both constant", true, true, false, Constant),
        ("rough glass, both varying", true, true, true, Water),
        ("delta glass, both varying", true, false, true, Water),
    ] {
        let [s, fine] = &surfaces_of(rng, glass, rough, varying, !glass, outside);
        let times: [&dyn Fn(&[One]) -> f64; 4] =
            [&|d| bounces(d, s), &|d| bounces_in_rust(d, s), &|d| bounces(d, fine), &|d| bounces_in_rust(d, fine)];
        lines(name, least_of(rng, one, times));
    }
    println!("each of many bounces in one call, the surface checked once on both sides");
    let row = |rng: &mut Rng| words_in(&usual_path(rng), &usual_bounce(rng));
    for (name, glass, rough, varying, absorbs, outside) in [
        ("rough metal", false, true, true, true, Air),
        ("rough metal, k 0", false, true, true, false, Air),
        ("delta metal", false, false, true, true, Air),
        ("rough glass, constant eta", true, true, false, false, Air),
        ("rough glass, varying eta", true, true, true, false, Air),
        ("delta glass, constant eta", true, false, false, false, Air),
        ("delta glass, varying eta", true, false, true, false, Air),
        ("rough glass, both constant", true, true, false, false, Constant),
        ("rough glass, both varying", true, true, true, false, Water),
        ("delta glass, both varying", true, false, true, false, Water),
    ] {
        let [s, fine] = &surfaces_of(rng, glass, rough, varying, absorbs, outside);
        [s, fine].map(|s| assert_same(rng, row, s));
        let (a, b) = least(rng, row, |d| many(d, s, SIZE, run_bounces), |d| many(d, s, SIZE, plain_many));
        line(&format!("{SIZE}, {name}, 95 entries"), a, b);
        let times: [&dyn Fn(&[[f64; INS]]) -> f64; 4] = [
            &|d| many(d, s, 1000, run_bounces),
            &|d| many(d, s, 1000, plain_many),
            &|d| many(d, fine, 1000, run_bounces),
            &|d| many(d, fine, 1000, plain_many),
        ];
        lines(&format!("1000, {name}"), least_of(rng, row, times));
    }
    println!("each bounce of a list on one path: metal and glass, rough and delta by turns");
    let s = [(false, true), (true, true), (false, false), (true, false)].map(|(glass, rough)| usual_surface(rng, glass, rough, false));
    for n in [1, 10, 100, 1000] {
        let (a, b) = least(rng, one, |d| lists(d, &s, n), |d| lists_in_rust(d, &s, n));
        line(&format!("  {n} bounces"), a, b);
    }
}

/// A density and a number to draw by.
type Draw = (f64, usize);

fn draw(rng: &mut Rng) -> Draw {
    (rng.unit(), rng.next() as usize)
}

/// A list of `n` candidates, and the calls on it: one arrives whose id is new, then one of those present departs.
fn turns<L: Listed>(data: &[Draw], n: usize) -> (L, Vec<(Candidate, u16)>) {
    let mut list = L::empty();
    let mut present: Vec<u16> = (0..n as u16).collect();
    for (id, (density, _)) in present.iter().zip(data) {
        list.arrive(Candidate { id: *id, density: *density });
    }
    let calls = data.iter().zip(n as u16..).map(|((density, which), id)| {
        present.push(id);
        (Candidate { id, density: *density }, present.swap_remove(which % (n + 1)))
    });
    let calls = calls.collect();
    (list, calls)
}

/// ns for an arrival and the departure after it.
#[inline(never)]
fn arrive_and_depart<L: Listed>(data: &[Draw], n: usize) -> f64 {
    let (mut list, calls) = turns::<L>(data, n);
    timed(calls.len(), || {
        let mut sum = 0;
        for (c, id) in &calls {
            sum += list.arrive(*c) + list.depart(*id);
        }
        sum
    })
}

/// ns for an arrival that is refused: by 12, or by 9 where the density is to be below 0.
#[inline(never)]
fn refused_arrival<L: Listed>(data: &[Draw], n: usize, below: bool) -> f64 {
    let (mut list, _) = turns::<L>(data, n);
    let sign = if below { -1.0 } else { 1.0 };
    let calls: Vec<Candidate> = data.iter().map(|(x, which)| Candidate { id: (which % n) as u16, density: sign * (x + 0.5) }).collect();
    timed(calls.len(), || {
        let mut sum = 0;
        for c in &calls {
            sum += list.arrive(*c);
        }
        sum
    })
}

/// What is timed gives the same answers and the same list on both sides.
fn assert_same_lists(rng: &mut Rng, n: usize) {
    fn run<L: Listed>(data: &[Draw], n: usize) -> (Vec<u64>, Vec<Candidate>) {
        let (mut list, calls) = turns::<L>(data, n);
        let numbers = calls.iter().flat_map(|(c, id)| [list.arrive(*c), list.depart(*id), list.arrive(Candidate { id: *id, density: -1.0 })]);
        let numbers = numbers.collect();
        (numbers, list.all())
    }
    let data: Vec<Draw> = (0..SIZE).map(|_| draw(rng)).collect();
    let (here, rust) = (run::<Candidates>(&data, n), run::<Sorted>(&data, n));
    assert!(here == rust && here.1.len() == n, "the lists that are timed differ, of {n} candidates");
}

fn bench_candidates(rng: &mut Rng) {
    println!("a list of candidates; in Rust a vector that is kept sorted");
    for n in [63, 32, 8] {
        assert_same_lists(rng, n);
        let (a, b) = least(rng, draw, |d| arrive_and_depart::<Candidates>(d, n), |d| arrive_and_depart::<Sorted>(d, n));
        line(&format!("{n} candidates, an arrival and a departure"), a, b);
    }
    for (number, below) in [(9, true), (12, false)] {
        let (a, b) = least(rng, draw, |d| refused_arrival::<Candidates>(d, 63, below), |d| refused_arrival::<Sorted>(d, 63, below));
        line(&format!("63 candidates, an arrival refused {number}"), a, b);
    }
}

/// How often a book is read or written in a pass.
const BOOKS: usize = 32;

type BookRead = fn(&[u8], usize, &mut [BookSurface]) -> CountResult;
type BookWrite = fn(&[BookSurface], &mut [u8]) -> CountResult;

/// ns for a book that is read whole.
#[inline(never)]
fn read_books(book: &[u8], surfaces: &mut [BookSurface], f: BookRead) -> f64 {
    let f = black_box(f);
    timed(BOOKS, || (0..BOOKS).map(|_| f(black_box(book), 0, surfaces).count).sum::<usize>())
}

#[inline(never)]
fn write_books(surfaces: &[BookSurface], buffer: &mut [u8], f: BookWrite) -> f64 {
    let f = black_box(f);
    timed(BOOKS, || (0..BOOKS).map(|_| f(black_box(surfaces), buffer).count).sum::<usize>())
}

/// The least of several passes of the two, each first in its turn.
fn least_of_both(mut pass: impl FnMut(usize) -> f64) -> (f64, f64) {
    let mut least = [f64::INFINITY; 2];
    for i in 0..2 * PASSES {
        let which = (i + i / 2) % 2;
        least[which] = least[which].min(pass(which));
    }
    (least[0], least[1])
}

fn bench_books(seed: u64) {
    println!("a material book of 23 surfaces, 65,481 bytes; in Rust in place, the same checks");
    book::assert_plain(seed, 10_000);
    for (name, by_last_entry) in [("told apart by roughness", false), ("told apart by the last entry", true)] {
        let (mut surfaces, mut book) = book::longest(by_last_entry);
        let (a, b) = least_of_both(|which| read_books(&book, &mut surfaces, [rulvimba::read_book, book::plain_read][which]));
        line(&format!("a book read, {name}"), a, b);
        let (a, b) = least_of_both(|which| write_books(&surfaces, &mut book, [rulvimba::write_book, book::plain_write][which]));
        line(&format!("a book written, {name}"), a, b);
    }
}

pub fn bench(seed: u64, functions: &[Function]) {
    let mut rng = Rng(seed);
    let (here, digits, rust) = root_calls();
    println!("{:<47} {:>8} {:>8} {:>6}", format!("ns, least of {PASSES} passes over {SIZE} inputs"), "here", "Rust", "ratio");
    let (a, b) = least(&mut rng, normal, |d| array(d, here), |d| array(d, rust));
    line("square root, array of normal values", a, b);
    let (a, b) = least(&mut rng, |rng| rng.between(0.0, 1.0), |d| array(d, here), |d| array(d, rust));
    line("square root, array of values from 0 to 1", a, b);
    let (a, b) = least(&mut rng, normal, |d| array(d, here), array_inline);
    line("  against the instruction with no call", a, b);
    let (a, b) = least(&mut rng, normal, |d| chain(d, here), |d| chain(d, rust));
    line("square root, each from the one before", a, b);
    let (a, b) = least(&mut rng, subnormal, |d| array(d, here), |d| array(d, rust));
    line("square root, array of subnormals", a, b);
    let (a, b) = least(&mut rng, normal, |d| array(d, digits), |d| array(d, rust));
    line("square root by digits, array of normal values", a, b);
    let (a, b) = least(&mut rng, subnormal, |d| array(d, digits), |d| array(d, rust));
    line("square root by digits, array of subnormals", a, b);
    let (a, b) = least(&mut rng, normal, |d| chain(d, digits), |d| chain(d, rust));
    line("square root by digits, each from the one before", a, b);
    let (here, rust) = basis_calls();
    let both = |rng: &mut Rng| (direction(rng), direction(rng));
    let (a, b) = least(&mut rng, both, |d| basis(d, here), |d| basis(d, rust));
    line("basis: Onb::new, then to_local", a, b);
    for f in functions {
        if let Some((a, b)) = f.times(seed, PASSES, SIZE) {
            line(&f.tables.map_or(f.name.into(), |t| format!("{}, {} entries", f.name, t.entries)), a, b);
        }
    }
    bench_bounces(&mut rng);
    bench_candidates(&mut rng);
    bench_books(seed);
}
