//! librulvimba, the static library for customers, beside the Rust: every call of include/rulvimba.h, through
//! the declarations that the example in Rust has.
//!
//! Bounces are the lists of path.rs, one by one on a path in memory (`rulvimba_bounce`) and then once more by
//! surface, many to a call (`rulvimba_bounces`); and once more through path's thin form (`path_bounce_on`), which
//! takes the same records. Lists of candidates stand in candidates.rs, material books in book.rs, the other calls in the
//! tables of numbers.rs and optics.rs.
use super::book;
use super::candidates;
use super::harness::*;
use super::inputs::{Rng, Slot};
use super::judge::Tables;
use super::lengths;
use super::optics::{caught, other_kind, Color};
use super::path::{report, rust, rust_start, start_input, walk, words_in, Bounce, Bounced, Density, Lumo, Path, Shares, Subject, INS, OUTS};
use super::rulvimba::{self, BounceArgs, BounceResult, DirectionResult, Spectra, BOUNCE_IN, BOUNCE_OUT};
use super::spectra::{FINE_SAMPLES, SAMPLES};
use super::surfaces::Surface;
use crate::{Vec2, Vec3};

// ---- the library's records as words

impl Words for rulvimba::Vec3 {
    const SHAPE: &'static [Slot] = Vec3::SHAPE;
    fn get(w: &[f64]) -> Self {
        Self { x: w[0], y: w[1], z: w[2] }
    }
    fn put(self, out: &mut [u64]) {
        out.copy_from_slice(&three(self).map(bits));
    }
}

impl Words for rulvimba::Color {
    const SHAPE: &'static [Slot] = Color::SHAPE;
    fn get(w: &[f64]) -> Self {
        Self { s0: w[0], s1: w[1], s2: w[2], s3: w[3] }
    }
    fn put(self, out: &mut [u64]) {
        out.copy_from_slice(&four(self).map(bits));
    }
}

impl Words for rulvimba::Surface {
    const SHAPE: &'static [Slot] = &[Slot::Float; 3];
    fn get(w: &[f64]) -> Self {
        surface(w[0] as u64, Vec2::new(w[1], w[2]))
    }
    fn put(self, out: &mut [u64]) {
        out.copy_from_slice(&[self.kind, bits(self.roughness.x), bits(self.roughness.y)]);
    }
}

impl Words for DirectionResult {
    const SHAPE: &'static [Slot] = &[Slot::Float; 5];
    fn get(_: &[f64]) -> Self {
        unreachable!()
    }
    fn put(self, out: &mut [u64]) {
        out[..2].copy_from_slice(&[self.number, self.outcome]);
        self.direction.put(&mut out[2..5]);
    }
}

// ---- the driver's records as the library's, and back

fn c2(v: Vec2) -> rulvimba::Vec2 {
    rulvimba::Vec2 { x: v.x, y: v.y }
}

fn c3(v: Vec3) -> rulvimba::Vec3 {
    rulvimba::Vec3 { x: v.x, y: v.y, z: v.z }
}

fn c4(c: Color) -> rulvimba::Color {
    let [s0, s1, s2, s3] = c.0;
    rulvimba::Color { s0, s1, s2, s3 }
}

fn three(v: rulvimba::Vec3) -> [f64; 3] {
    [v.x, v.y, v.z]
}

fn four(c: rulvimba::Color) -> [f64; 4] {
    [c.s0, c.s1, c.s2, c.s3]
}

fn c8(p: &Path) -> rulvimba::Path {
    rulvimba::Path { lambda: c4(p.lambda), power: c4(p.power) }
}

fn eight(p: &rulvimba::Path) -> [f64; 8] {
    let mut out = [0.0; 8];
    out[..4].copy_from_slice(&four(p.lambda));
    out[4..].copy_from_slice(&four(p.power));
    out
}

fn arguments(b: &Bounce) -> BounceArgs {
    BounceArgs {
        wo: c3(b.wo),
        normal: c3(b.normal),
        backface: b.backface,
        u: b.u,
        disk: b.disk,
        c: b.c,
        s: b.s,
        ks: c4(b.ks),
        tf: c4(b.tf),
    }
}

pub fn surface(kind: u64, a: Vec2) -> rulvimba::Surface {
    rulvimba::Surface { kind, roughness: c2(a) }
}

fn spectra(s: &Surface) -> Spectra<'_> {
    Spectra { eta: &s.eta, k: &s.k, outer: &s.outer }
}

// ---- a bounce on a path in memory

/// An answer's words in the order of `Bounced::words`.
fn words(r: &BounceResult, p: &rulvimba::Path) -> [u64; OUTS] {
    let mut out = [0; OUTS];
    out[..2].copy_from_slice(&[r.number, r.outcome]);
    out[2..5].copy_from_slice(&three(r.wi).map(bits));
    out[5..7].copy_from_slice(&[r.density.finite, bits(r.density.value)]);
    out[7..10].copy_from_slice(&[r.shares.given, bits(r.shares.reflected), bits(r.shares.passed)]);
    out[10..].copy_from_slice(&eight(p).map(bits));
    out
}

fn bounced(r: &BounceResult, p: &rulvimba::Path) -> Bounced {
    Bounced {
        number: r.number,
        case: r.outcome,
        wi: Vec3::new(r.wi.x, r.wi.y, r.wi.z),
        density: Density { finite: r.density.finite == 1, value: r.density.value },
        shares: Shares { there: r.shares.given == 1, reflected: r.shares.reflected, passed: r.shares.passed },
        path: Path { lambda: Color(four(p.lambda)), power: Color(four(p.power)) },
    }
}

type OnPath = fn(&mut rulvimba::Path, rulvimba::Surface, Spectra, BounceArgs) -> BounceResult;

/// One bounce on a path in memory. `aside` counts how often memory that must be kept was not as it was: the words
/// about the path, or the path after a refusal.
fn on_path(name: &str, call: OnPath, aside: &mut usize, kind: u64, s: &Surface, p: &Path, b: &Bounce) -> (Bounced, [u64; OUTS]) {
    let mut path = Guarded::new(c8(p));
    let r = call(&mut path.held, surface(kind, s.a), spectra(s), arguments(b));
    if !path.is_kept(&c8(p), r.number != 0) {
        *aside += 1;
        if *aside <= 3 {
            println!("  {name}, number {}: memory that must be kept is not as it was", r.number);
            println!("    in  {}", hex_floats(&words_in(p, b)));
        }
    }
    (bounced(&r, &path.held), words(&r, &path.held))
}

extern "C" {
    fn path_bounce_on(
        path: *mut rulvimba::Path, surface: rulvimba::Surface, eta: *const f64, n: usize, k: *const f64, m: usize, outer: *const f64, l: usize,
        b: BounceArgs,
    ) -> BounceResult;
}

/// path's thin form.
pub fn thin(p: &mut rulvimba::Path, s: rulvimba::Surface, of: Spectra, b: BounceArgs) -> BounceResult {
    unsafe { path_bounce_on(p, s, of.eta.as_ptr(), of.eta.len(), of.k.as_ptr(), of.k.len(), of.outer.as_ptr(), of.outer.len(), b) }
}

/// How often memory was not as it must be.
struct Thin(usize);

impl Subject for Thin {
    const NAME: &'static str = "path_bounce_on";

    fn bounce(&mut self, p: &Path, _: usize, of: &Lumo, b: &Bounce, _: Option<&Bounced>) -> (Bounced, [u64; OUTS]) {
        on_path(Self::NAME, thin, &mut self.0, of.surface.glass as u64, &of.surface, p, b)
    }
}

/// The answer to a bounce that is refused.
fn refused(number: u64, p: &Path) -> Bounced {
    let none = rulvimba::Vec3::default();
    let r = BounceResult {
        number,
        outcome: rulvimba::REFUSED,
        wi: none,
        density: rulvimba::Density { finite: 0, value: 0.0 },
        shares: rulvimba::Shares { given: 0, reflected: 0.0, passed: 0.0 },
    };
    bounced(&r, &c8(p))
}

// ---- many bounces to a call

/// A bounce's numbers as they go in, and the answer's as they must come out.
#[derive(Clone, Copy)]
struct Row {
    input: [f64; BOUNCE_IN],
    output: [f64; BOUNCE_OUT],
}

/// The answer's numbers in their places, whole numbers as doubles.
pub fn output_of(a: &Bounced) -> [f64; BOUNCE_OUT] {
    let (l, w) = (a.path.lambda.0, a.path.power.0);
    [
        l[0], l[1], l[2], l[3], w[0], w[1], w[2], w[3], a.number as f64, a.case as f64, a.wi.x, a.wi.y, a.wi.z,
        a.density.finite as u8 as f64, a.density.value, a.shares.there as u8 as f64, a.shares.reflected, a.shares.passed,
    ]
}

/// The whole call, for the benchmark.
pub fn run_bounces(s: &Surface, input: &[f64], output: &mut [f64]) {
    rulvimba::bounces(surface(s.glass as u64, s.a), spectra(s), input, output);
}

impl Row {
    fn new(rng: &mut Rng, p: &Path, b: &Bounce, rust: &Bounced) -> Self {
        let mut input: [f64; INS] = words_in(p, b);
        // any number but 0 stands for a backface
        if rng.below(4) == 0 {
            input[14] = if b.backface { [-1.0, 0.5, f64::NAN, f64::INFINITY, f64::from_bits(1)][rng.below(5)] } else { -0.0 };
        }
        Self { input, output: output_of(rust) }
    }

    fn refused(&self, number: u64) -> Self {
        let mut output = [0.0; BOUNCE_OUT];
        output[..8].copy_from_slice(&self.input[..8]);
        output[8] = number as f64;
        Self { output, ..*self }
    }
}

/// What one call is given: the rows, how many answers there is room for, and how many numbers more than whole
/// rows both arrays have.
struct Many<'a> {
    rows: &'a [Row],
    room: usize,
    input_more: usize,
    output_more: usize,
}

/// How many words behind the output are looked at.
const BEHIND: usize = 24;

impl Many<'_> {
    /// How many bounces the call must run.
    fn count(&self) -> usize {
        self.rows.len().min(self.room)
    }

    fn input(&self) -> Vec<f64> {
        let mut input: Vec<f64> = self.rows.iter().flat_map(|r| r.input).collect();
        // the numbers of a row that isn't whole
        input.resize(input.len() + self.input_more, 0.5);
        input
    }

    /// Runs the call and answers how many rows differ; what else must be kept, and wasn't, counts as one. The first
    /// differences are printed, where `print` says so.
    fn differences(&self, of: rulvimba::Surface, spectra: Spectra, print: bool) -> usize {
        let input = self.input();
        let kept = input.clone();
        let length = BOUNCE_OUT * self.room + self.output_more;
        let mut output = vec![f64::from_bits(GUARD); length + BEHIND];
        let n = rulvimba::bounces(of, spectra, &input, &mut output[..length]);
        let answers = output.chunks(BOUNCE_OUT).zip(self.rows).take(self.count());
        let wrong: Vec<_> = answers.filter(|(o, row)| !o.iter().zip(row.output).all(|(x, y)| bits(*x) == bits(y))).collect();
        let past = output[BOUNCE_OUT * self.count()..].iter().any(|x| x.to_bits() != GUARD);
        let changed = input.iter().zip(&kept).any(|(x, y)| x.to_bits() != y.to_bits());
        if let (true, Some((o, row))) = (print, wrong.first()) {
            println!("  rulvimba_bounces, kind {}, roughness {}", of.kind, hex_floats(&[of.roughness.x, of.roughness.y]));
            println!("    eta {}\n    k   {}\n    outer {}", hex_floats(spectra.eta), hex_floats(spectra.k), hex_floats(spectra.outer));
            println!("    in  {}\n    here  {}\n    judge {}", hex_floats(&row.input), hex_floats(o), hex_floats(&row.output));
        }
        if print && (n != self.count() || past || changed) {
            println!("  rulvimba_bounces: answers {n} for {} bounces; wrote past them: {past}; wrote to its input: {changed}", self.count());
        }
        wrong.len() + (n != self.count()) as usize + past as usize + changed as usize
    }
}

// ---- the walk through both calls

struct Library {
    rng: Rng,
    /// For each surface, the bounces that wait for a call of `rulvimba_bounces`.
    waiting: Vec<Vec<Row>>,
    /// Bounces on a kind that is neither metal nor glass, beside those of the walk.
    other_kinds: usize,
    /// Differences in them, and in memory that a bounce had to keep.
    aside: usize,
    /// Bounces on a book's surface, how many of them on two-sided metal's backface, and the differences.
    book_rng: Rng,
    on_books: usize,
    on_backfaces: usize,
    book_differences: usize,
    many: usize,
    calls: usize,
    many_differences: usize,
}

impl Library {
    fn new(seed: u64) -> Self {
        Self {
            rng: Rng(seed ^ 0x11b),
            waiting: vec![],
            other_kinds: 0,
            aside: 0,
            book_rng: Rng(seed ^ 0xb0c),
            on_books: 0,
            on_backfaces: 0,
            book_differences: 0,
            many: 0,
            calls: 0,
            many_differences: 0,
        }
    }

    fn one(&mut self, kind: u64, s: &Surface, p: &Path, b: &Bounce) -> (Bounced, [u64; OUTS]) {
        on_path(Self::NAME, rulvimba::bounce, &mut self.aside, kind, s, p, b)
    }

    fn one_of_other_kind(&mut self, of: &Lumo, p: &Path, b: &Bounce) {
        let kind = other_kind(&mut self.rng);
        let words = self.one(kind, &of.surface, p, b).1;
        let rust = refused(1, p);
        self.other_kinds += 1;
        if words != rust.words() {
            self.aside += 1;
            if self.aside <= 3 {
                report(&format!("rulvimba_bounce on kind {kind}"), p, of, b, &words, Some(&rust));
            }
        }
    }

    /// Now and then the bounce on the book's surface that stands for this one, and on a backface of metal always. Two-sided
    /// metal ignores the backface, so the Rust has it false there; and a roughness that isn't as it was given is refused as 1.
    fn on_book(&mut self, of: &Lumo, p: &Path, b: &Bounce, judge: &Bounced) {
        let rng = &mut self.book_rng;
        let is_backface = b.backface && !of.surface.glass;
        if rng.below(8) > 0 && !is_backface {
            return;
        }
        let Some(mut s) = book::of_surface(rng, &of.surface) else {
            return;
        };
        let is_ignored = is_backface && s.two_sided != 0;
        let must = if rng.below(16) == 0 {
            match rng.below(3) {
                0 => s.given = 1f64.next_up(),
                1 => s.roughness.y = s.roughness.y.next_up(),
                _ => s.kind = other_kind(rng),
            }
            refused(1, p)
        } else if is_ignored {
            match caught(|| rust(p, of, &Bounce { backface: false, ..*b })) {
                Some(judge) => judge,
                None => return,
            }
        } else {
            *judge
        };
        self.on_books += 1;
        self.on_backfaces += (is_ignored && must.number == 0) as usize;
        let (mut path, kept) = (Guarded::new(c8(p)), s);
        let r = rulvimba::book_bounce(&mut path.held, &s, arguments(b));
        let words = words(&r, &path.held);
        if words != must.words() || !path.is_kept(&c8(p), r.number != 0) || !same_bytes(&s, &kept) {
            self.book_differences += 1;
            if self.book_differences <= 3 {
                report(&format!("rulvimba_book_bounce, two_sided {}, given {:?}", s.two_sided, s.given), p, of, b, &words, Some(&must));
            }
        }
    }

    /// What waits on a surface goes through `rulvimba_bounces`, in calls of more and of less room than it needs.
    fn run_waiting(&mut self, which: usize, s: &Surface) {
        let waiting = std::mem::take(&mut self.waiting[which]);
        let mut rows = &waiting[..];
        while !rows.is_empty() {
            let rng = &mut self.rng;
            let room = match rng.below(8) {
                0 => rng.below(rows.len() + 1),
                1 => rows.len() + rng.below(3),
                _ => rows.len(),
            };
            let call = Many { rows, room, input_more: rng.below(BOUNCE_IN), output_more: rng.below(BOUNCE_OUT) };
            if rng.below(16) == 0 {
                let refused: Vec<Row> = rows.iter().map(|r| r.refused(1)).collect();
                self.other_kinds += call.count();
                let of = surface(other_kind(rng), s.a);
                self.many_differences += Many { rows: &refused, ..call }.differences(of, spectra(s), self.many_differences < 3);
            }
            let of = surface(s.glass as u64, s.a);
            self.many_differences += call.differences(of, spectra(s), self.many_differences < 3);
            self.many += call.count();
            self.calls += 1;
            rows = &rows[call.count()..];
        }
    }
}

impl Subject for Library {
    const NAME: &'static str = "rulvimba_bounce";

    fn bounce(&mut self, p: &Path, which: usize, of: &Lumo, b: &Bounce, rust: Option<&Bounced>) -> (Bounced, [u64; OUTS]) {
        if self.rng.below(64) == 0 {
            self.one_of_other_kind(of, p, b);
        }
        self.waiting.resize_with(self.waiting.len().max(which + 1), Vec::new);
        // where the Rust panics there is nothing to hold an answer against: the walk counts a difference
        if let Some(rust) = rust {
            let row = Row::new(&mut self.rng, p, b, rust);
            self.waiting[which].push(row);
            self.on_book(of, p, b, rust);
        }
        // else they wait until the surfaces change
        if self.rng.below(64) == 0 {
            self.run_waiting(which, &of.surface);
        }
        self.one(of.surface.glass as u64, &of.surface, p, b)
    }

    fn surfaces_end(&mut self, of: &[Lumo]) {
        for (which, l) in of.iter().enumerate().take(self.waiting.len()) {
            self.run_waiting(which, &l.surface);
        }
    }
}

pub fn compare_thin(seed: u64, tables: Tables, count: usize) -> usize {
    let mut thin = Thin(0);
    let c = walk(seed, tables, count, &mut thin);
    c.print(Thin::NAME, tables);
    println!("  differences in memory {}", thin.0);
    c.faults() + thin.0
}

/// How many bounces were run on surfaces of such spectra, and the differences.
pub fn compare_bounces(seed: u64, tables: Tables, count: usize) -> (usize, usize) {
    let mut library = Library::new(seed);
    let c = walk(seed, tables, count, &mut library);
    c.print(Library::NAME, tables);
    println!("  on kinds that are neither metal nor glass {}; differences there and in memory that must be kept {}", library.other_kinds, library.aside);
    println!(
        "{:<44} {:>9} bounces {:>5} differences from the same answers, {} of them on a backface of two-sided metal",
        "rulvimba_book_bounce", library.on_books, library.book_differences, library.on_backfaces
    );
    println!(
        "{:<44} {:>9} bounces {:>5} differences from {}, in {} calls",
        "rulvimba_bounces", library.many, library.many_differences, c.judges(tables), library.calls
    );
    let run = if tables.entries == FINE_SAMPLES { c.fine } else { c.bounces };
    (run, c.faults() + library.aside + library.book_differences + library.many_differences)
}

// ---- starts

pub fn compare_starts(seed: u64, count: usize) -> usize {
    let rng = &mut Rng(seed ^ 0x57a8);
    let (mut differences, mut refused) = (0, 0);
    for i in 0..count {
        let lambda = start_input(rng, i);
        let rust = rust_start(lambda);
        let number = if rust.is_some() { 0 } else { 4 };
        // what stood there before, which a refusal leaves
        let old = Path { lambda: start_input(rng, i), power: Color([0.25, -0.0, f64::NAN, f64::from_bits(rng.next())]) };
        let mut path = Guarded::new(c8(&old));
        let n = rulvimba::start(&mut path.held, c4(lambda));
        let expected = rust.unwrap_or(old).words();
        refused += (number != 0) as usize;
        if n != number || !path.is_kept(&c8(&old), number != 0) || eight(&path.held).map(bits) != expected {
            differences += 1;
            if differences <= 3 {
                println!("  rulvimba_start\n    in  {}\n    here {n} rust {number}", hex_floats(&lambda.0));
            }
        }
    }
    println!("{:<44} {count:>9} inputs {differences:>6} differences, {refused} refused", "rulvimba_start");
    differences
}

// ---- all of it

/// `bounces` bounces in air through both calls on 95 entries, as many with outer spectra, half of them on 471 entries, and
/// as many calls on lists of candidates; a tenth as many in air on 471 entries, books that are read, lists of surfaces that
/// are written, and inputs for each of the other calls. Answers the number of differences.
pub fn compare(seed: u64, bounces: usize) -> usize {
    let each = bounces / 10;
    let mut others = each;
    let mut differences = 0;
    for f in super::families().iter().filter(|f| f.name.starts_with("rulvimba_")) {
        differences += f.compare(seed, each);
        others += each;
    }
    differences += compare_starts(seed, each);
    differences += lengths::compare();
    let (listed, of_lists) = candidates::compare(seed, bounces, each);
    differences += of_lists;
    let (books, of_books) = book::compare(seed, each);
    differences += of_books;
    let mut run = |tables, count| {
        let (run, of_bounces) = compare_bounces(seed, tables, count);
        differences += of_bounces;
        run
    };
    let in_air = [run(Tables::in_air(SAMPLES), bounces), run(Tables::in_air(FINE_SAMPLES), each)];
    let outer = [run(Tables::any_outer(SAMPLES), bounces / 2), run(Tables::any_outer(FINE_SAMPLES), bounces / 2)];
    println!(
        "compare: librulvimba: {} bounces on 95 entries, {} on 471, {} and {} with outer spectra, {listed} calls on lists of candidates, {books} on material books, {others} other calls, {differences} differences, seed {seed}",
        in_air[0],
        in_air[1],
        outer[0],
        outer[1]
    );
    differences
}

// ---- for the benchmark

/// A path and a bounce as the C library takes them, so that the benchmark lays nothing out while it times.
#[derive(Clone, Copy)]
pub struct Lent {
    path: rulvimba::Path,
    args: BounceArgs,
}

impl Lent {
    pub fn new(p: &Path, b: &Bounce) -> Self {
        Self { path: c8(p), args: arguments(b) }
    }

    /// A checked bounce on a path of its own: the sum of what it changes.
    pub fn bounce(&self, s: &Surface) -> f64 {
        let mut path = self.path;
        let r = rulvimba::bounce(&mut path, surface(s.glass as u64, s.a), spectra(s), self.args);
        path.power.s0 + r.wi.x + r.density.value
    }

    /// The bounces of a list, on surfaces by turns from the `i`th on, each on the path as the last left it: its leading power.
    pub fn bounces<'a>(list: impl Iterator<Item = &'a Self>, s: &[Surface], i: usize) -> f64 {
        let mut list = list.peekable();
        let mut path = list.peek().expect("a list of bounces").path;
        for (j, one) in list.enumerate() {
            let s = &s[(i + j) % s.len()];
            rulvimba::bounce(&mut path, surface(s.glass as u64, s.a), spectra(s), one.args);
        }
        path.power.s0
    }
}
