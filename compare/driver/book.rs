//! Material books through librulvimba, beside document 02 (vi) read once more and plainly: a book is taken apart into lists,
//! and put together from lists, from nothing at every call. What was read is written again, and what was written is read.
use super::harness::{bytes_of, GuardedRow};
use super::inputs::{beside, Rng};
use super::optics::other_kind;
use super::rulvimba::{self, BookSurface, CountResult, Vec2, FINE_SAMPLES, GLASS, METAL, SAMPLES};
use super::surfaces::{air, is_air, spectra_refused, within, Surface};
use std::iter::once;
use std::sync::LazyLock;

pub const BOOK_MAX: usize = 65536;

// ---- document 02 (vi), once more

/// A surface of a book, or one to be written: the roughness as it was given, and x and y, which are to be it raised.
#[derive(Clone)]
pub struct Plain {
    pub kind: u64,
    pub two_sided: bool,
    given: f64,
    pub roughness: [f64; 2],
    pub eta: Vec<f64>,
    pub k: Vec<f64>,
    pub outer: Vec<f64>,
}

fn raised(given: f64) -> f64 {
    given.max(1e-5)
}

fn double(eight: &[u8]) -> f64 {
    f64::from_le_bytes(eight.try_into().unwrap())
}

impl Plain {
    /// Of a part that is one: after three bytes come the roughness, eta and k. Air lies outside.
    fn of_part(part: &[u8]) -> Self {
        let numbers: Vec<f64> = part[3..].chunks(8).map(double).collect();
        let (given, spectra) = (numbers[0], &numbers[1..]);
        let (eta, k) = spectra.split_at(spectra.len() / 2);
        Self {
            kind: part[0] as u64,
            two_sided: part[2] == 1,
            given,
            roughness: [raised(given); 2],
            eta: eta.to_vec(),
            k: k.to_vec(),
            outer: air(eta.len()).to_vec(),
        }
    }

    /// Of C's record: as many entries as it says, and none where it says more than there is room for.
    fn of_record(r: &BookSurface) -> Self {
        let entries = |places: &[f64]| places.get(..r.entries).unwrap_or(&[]).to_vec();
        Self {
            kind: r.kind,
            two_sided: r.two_sided != 0,
            given: r.given,
            roughness: [r.roughness.x, r.roughness.y],
            eta: entries(&r.eta),
            k: entries(&r.k),
            outer: entries(&r.outer),
        }
    }

    /// The record of one that was read: air lies outside, and 0.0 stands past the entries.
    fn record(&self) -> BookSurface {
        let [x, y] = self.roughness;
        BookSurface { two_sided: self.two_sided as u64, roughness: Vec2 { x, y }, ..surface(self.kind, self.given, &self.eta, &self.k) }
    }

    fn part(&self) -> Vec<u8> {
        let step = if self.eta.len() == FINE_SAMPLES { 1 } else { 5 };
        let mut part = vec![self.kind as u8, step, self.two_sided as u8];
        for x in once(&self.given).chain(&self.eta).chain(&self.k) {
            part.extend(x.to_le_bytes());
        }
        part
    }

    /// In every call that takes it: 1, 2, 3, 13, or 0 where it is accepted.
    fn refused_anywhere(&self) -> u64 {
        let is_raised = self.roughness.iter().all(|a| *a == raised(self.given));
        if self.kind > 1 || !within(0.0, 1.0, self.given) || !is_raised {
            return 1;
        }
        spectra_refused(self.kind == GLASS, &self.eta, &self.k, &self.outer)
    }

    /// As one to be written, on glass with air outside; one that was read is never 13.
    fn refused(&self) -> u64 {
        match self.refused_anywhere() {
            0 if self.kind == GLASS && !is_air(&self.outer) => 13,
            number => number,
        }
    }

    /// By kind, raised roughness and spectra, numbers by value.
    fn equals(&self, other: &Self) -> bool {
        self.kind == other.kind && raised(self.given) == raised(other.given) && self.eta == other.eta && self.k == other.k
    }
}

/// 0 where each is accepted, else the number of the first that isn't.
fn first_refused(surfaces: &[Plain]) -> u64 {
    surfaces.iter().map(Plain::refused).find(|number| *number != 0).unwrap_or(0)
}

fn is_part(part: &[u8]) -> bool {
    matches!((part, part.len()), ([0 | 1, 5, 0 | 1, ..], 1531) | ([0 | 1, 1, 0 | 1, ..], 7547))
}

fn number_at(book: &[u8], at: usize) -> Option<u64> {
    let four = book.get(at..at + 4)?;
    Some(u32::from_le_bytes(four.try_into().unwrap()) as u64)
}

/// The parts of a book, if it is laid out as one.
fn parts_of(book: &[u8]) -> Option<Vec<&[u8]>> {
    if book.len() > BOOK_MAX {
        return None;
    }
    let count = number_at(book, 0)?;
    let pairs: Vec<(u64, u64)> =
        (0..count as usize).map(|i| Some((number_at(book, 4 + 8 * i)?, number_at(book, 8 + 8 * i)?))).collect::<Option<_>>()?;
    // without gaps: each offset is where the pairs or the part before it end, and the last part ends with the book
    let mut end = 4 + 8 * count;
    for (offset, length) in &pairs {
        if *offset != end {
            return None;
        }
        end += length;
    }
    if end != book.len() as u64 {
        return None;
    }
    let parts: Vec<&[u8]> = pairs.iter().map(|(offset, length)| &book[*offset as usize..][..*length as usize]).collect();
    parts.iter().all(|p| is_part(p)).then_some(parts)
}

/// The surfaces of a book, or the number that it is refused with.
pub fn read(book: &[u8]) -> Result<Vec<Plain>, u64> {
    let Some(parts) = parts_of(book) else {
        return Err(14);
    };
    let surfaces: Vec<Plain> = parts.into_iter().map(Plain::of_part).collect();
    if less_equal_ones(&surfaces).len() < surfaces.len() {
        return Err(14);
    }
    match first_refused(&surfaces) {
        0 => Ok(surfaces),
        number => Err(number),
    }
}

/// Less each that is equal to an earlier one.
fn less_equal_ones(surfaces: &[Plain]) -> Vec<&Plain> {
    let is_new = |i: &usize| !surfaces[..*i].iter().any(|earlier| earlier.equals(&surfaces[*i]));
    (0..surfaces.len()).filter(is_new).map(|i| &surfaces[i]).collect()
}

fn book_of(parts: &[Vec<u8>]) -> Vec<u8> {
    let mut book = (parts.len() as u32).to_le_bytes().to_vec();
    let mut offset = 4 + 8 * parts.len();
    for part in parts {
        book.extend((offset as u32).to_le_bytes());
        book.extend((part.len() as u32).to_le_bytes());
        offset += part.len();
    }
    book.extend(parts.concat());
    book
}

fn write(surfaces: &[Plain], room: usize) -> Result<Vec<u8>, u64> {
    let number = first_refused(surfaces);
    if number != 0 {
        return Err(number);
    }
    let parts: Vec<Vec<u8>> = less_equal_ones(surfaces).into_iter().map(Plain::part).collect();
    let book = book_of(&parts);
    if book.len() > BOOK_MAX || book.len() > room { Err(14) } else { Ok(book) }
}

fn offered(list: &[BookSurface]) -> Vec<Plain> {
    list.iter().map(Plain::of_record).collect()
}

// ---- the comparison

/// Words of any bits, for memory as it was before a call.
struct Noise(Vec<u64>);

impl Noise {
    fn new(rng: &mut Rng) -> Self {
        Self((0..90_000).map(|_| rng.next()).collect())
    }

    fn of<T: Copy>(&self, rng: &mut Rng, n: usize) -> Vec<T> {
        let words = (size_of::<T>() * n).div_ceil(8);
        let at = rng.below(self.0.len() - words);
        unsafe { std::slice::from_raw_parts(self.0[at..at + words].as_ptr().cast(), n) }.to_vec()
    }
}

#[derive(Default)]
struct Tally {
    calls: usize,
    differences: usize,
    /// How many calls were to answer each number.
    numbers: [usize; 15],
    /// How many of those that were to be 14 have another layout, or are longer than a book may be; of those accepted, how many
    /// have surfaces that are left out.
    unfit: usize,
    less: usize,
    /// How many accepted ones went back: written again, or read.
    back: usize,
}

struct Comparison {
    noise: Noise,
    reads: Tally,
    writes: Tally,
    checks: Tally,
}

fn judged<T>(answer: &Result<Vec<T>, u64>) -> CountResult {
    match answer {
        Ok(of) => CountResult { number: 0, count: of.len() },
        Err(number) => CountResult { number: *number, count: 0 },
    }
}

/// Whether the library reads the book so, from the surface at `first` on into so many places, and leaves all else as it was;
/// what it answered, and memory after it.
fn is_read_so(
    rng: &mut Rng, noise: &Noise, book: &[u8], must: &Result<Vec<Plain>, u64>, first: usize, places: usize,
) -> (bool, CountResult, GuardedRow<BookSurface>) {
    let mut after: Vec<BookSurface> = noise.of(rng, places);
    let (mut input, mut memory) = (GuardedRow::new(book), GuardedRow::new(&after));
    let surfaces = must.as_deref().unwrap_or(&[]);
    for (place, s) in after.iter_mut().zip(surfaces.iter().skip(first)) {
        *place = s.record();
    }
    let here = rulvimba::read_book(input.held(), first, memory.held());
    (here == judged(must) && memory.is(&after) && input.is(book), here, memory)
}

/// Whether the library writes the list so into a buffer of so many bytes, and leaves all else as it was; what it answered, and
/// the buffer after it.
fn is_written_so(
    rng: &mut Rng, noise: &Noise, list: &[BookSurface], must: &Result<Vec<u8>, u64>, room: usize,
) -> (bool, CountResult, GuardedRow<u8>) {
    let mut after: Vec<u8> = noise.of(rng, room);
    let (mut input, mut memory) = (GuardedRow::new(list), GuardedRow::new(&after));
    if let Ok(book) = must {
        after[..book.len()].copy_from_slice(book);
    }
    let here = rulvimba::write_book(input.held(), memory.held());
    (here == judged(must) && memory.is(&after) && input.is(list), here, memory)
}

impl Comparison {
    /// A book read into so many places; where all of it is stored, that is written again, and gives its bytes.
    fn read(&mut self, rng: &mut Rng, book: &[u8], must: &Result<Vec<Plain>, u64>, first: usize, places: usize) {
        let t = &mut self.reads;
        t.calls += 1;
        t.numbers[judged(must).number as usize] += 1;
        t.unfit += (judged(must).number == 14 && parts_of(book).is_none()) as usize;
        let (mut same, here, mut stored) = is_read_so(rng, &self.noise, book, must, first, places);
        let all = judged(must).count;
        if same && must.is_ok() && first == 0 && places >= all {
            t.back += 1;
            let room = book.len() + rng.below(3);
            same = is_written_so(rng, &self.noise, &stored.held()[..all], &Ok(book.to_vec()), room).0;
        }
        if !same {
            t.differences += 1;
            if t.differences <= 3 {
                println!("  rulvimba_read_book, from {first} on into {places} places\n    in  {}", hex(book));
                println!("    here  {here:?}\n    judge {:?}", judged(must));
            }
        }
    }

    /// The check by itself of each surface of a list.
    fn check(&mut self, list: &[BookSurface], plain: &[Plain]) {
        let t = &mut self.checks;
        for (s, must) in list.iter().zip(plain) {
            let (here, must) = (rulvimba::check_book_surface(s), must.refused_anywhere());
            t.calls += 1;
            t.numbers[must as usize] += 1;
            if here != must {
                t.differences += 1;
                if t.differences <= 3 {
                    println!("  rulvimba_check_book_surface\n    in  {}\n    here  {here}\n    judge {must}", text(s));
                }
            }
        }
    }

    /// A list written; where it is, the book is read, and gives its surfaces less those left out.
    fn write(&mut self, rng: &mut Rng, list: &[BookSurface], plain: &[Plain], room: usize) {
        self.check(list, plain);
        let must = &write(plain, room);
        let t = &mut self.writes;
        t.calls += 1;
        t.numbers[judged(must).number as usize] += 1;
        t.unfit += (*must == Err(14) && write(plain, usize::MAX) == Err(14)) as usize;
        let (mut same, here, mut written) = is_written_so(rng, &self.noise, list, must, room);
        if let (true, Ok(book)) = (same, must) {
            let left: Vec<Plain> = less_equal_ones(plain).into_iter().cloned().collect();
            t.less += (left.len() < plain.len()) as usize;
            t.back += 1;
            let places = left.len() + rng.below(2);
            same = is_read_so(rng, &self.noise, &written.held()[..book.len()], &Ok(left), 0, places).0;
        }
        if !same {
            t.differences += 1;
            if t.differences <= 3 {
                println!("  rulvimba_write_book, {} surfaces into {room} bytes", list.len());
                for s in list {
                    println!("    in  {}", text(s));
                }
                println!("    here  {here:?}\n    judge {:?}", judged(must));
            }
        }
    }

    /// A book read from every surface that is an edge on, into every number of places that is one.
    fn read_everywhere(&mut self, rng: &mut Rng, book: &[u8]) {
        let must = read(book);
        let all = judged(&must).count;
        for first in distinct([0, 1, all.wrapping_sub(1), all, all + 1, usize::MAX]) {
            for places in distinct([0, 1, 2, all, all + 1]) {
                self.read(rng, book, &must, first, places);
            }
        }
    }

    /// A book read whole, and once more as at random.
    fn read_twice(&mut self, rng: &mut Rng, book: &[u8]) {
        let must = read(book);
        let all = judged(&must).count;
        self.read(rng, book, &must, 0, all);
        let (first, places) = from_anywhere(rng, all);
        self.read(rng, book, &must, first, places);
    }

    /// A list written into its very room, and into one less or more; a refused one into all that a book may take.
    fn write_all(&mut self, rng: &mut Rng, list: &[BookSurface]) {
        let plain = offered(list);
        let rooms = match write(&plain, usize::MAX) {
            Ok(book) => vec![book.len(), book.len() - 1, [book.len() + 1, 0, 3, 4, BOOK_MAX, BOOK_MAX + 100][rng.below(6)]],
            Err(14) => vec![BOOK_MAX, BOOK_MAX + 100, 1 << 17],
            Err(_) => vec![BOOK_MAX],
        };
        for room in rooms {
            self.write(rng, list, &plain, room);
        }
    }

    fn print(&self) {
        let (r, w) = (&self.reads, &self.writes);
        println!("{:<44} {:>9} books {:>7} differences from the second reading", "rulvimba_read_book", r.calls, r.differences);
        let n = &r.numbers;
        println!(
            "  accepted {} (of them {} written again), refused {} by 14 ({} by the layout, {} by an equal pair), {} by 1, {} by 2, {} by 3",
            n[0], r.back, n[14], r.unfit, n[14] - r.unfit, n[1], n[2], n[3]
        );
        println!("{:<44} {:>9} lists {:>7} differences from the second reading", "rulvimba_write_book", w.calls, w.differences);
        let n = &w.numbers;
        println!(
            "  accepted {} (all of them read again, {} with surfaces left out), refused {} by 1, {} by 2, {} by 3, {} by 13, {} by 14 ({} above 65,536 bytes)",
            n[0], w.less, n[1], n[2], n[3], n[13], n[14], w.unfit
        );
        let (c, n) = (&self.checks, &self.checks.numbers);
        println!("{:<44} {:>9} inputs {:>6} differences from the second reading", "rulvimba_check_book_surface", c.calls, c.differences);
        println!("  accepted {}, refused {} by 1, {} by 2, {} by 3, {} by 13", n[0], n[1], n[2], n[3], n[13]);
    }
}

fn distinct<const N: usize>(numbers: [usize; N]) -> Vec<usize> {
    let mut all = numbers.to_vec();
    all.sort_unstable();
    all.dedup();
    all
}

fn hex(bytes: &[u8]) -> String {
    bytes.iter().map(|b| format!("{b:02x}")).collect()
}

fn text(s: &BookSurface) -> String {
    let doubles = |xs: &[f64]| xs[..s.entries.min(FINE_SAMPLES)].iter().map(|x| format!("{:016x}", x.to_bits())).collect::<Vec<_>>().join(" ");
    let (x, y) = (s.roughness.x.to_bits(), s.roughness.y.to_bits());
    format!(
        "kind {} two_sided {} given {:016x} roughness {x:016x} {y:016x} entries {}\n        eta {}\n        k {}\n        outer {}",
        s.kind, s.two_sided, s.given.to_bits(), s.entries, doubles(&s.eta), doubles(&s.k), doubles(&s.outer)
    )
}

// ---- surfaces

const NANS: [f64; 6] = [
    f64::NAN,
    f64::from_bits(0x7ff0000000000001),
    f64::from_bits(0x7fffffffffffffff),
    f64::from_bits(0xfff8000000000000),
    f64::from_bits(0xfff0000000000001),
    f64::from_bits(0xffffffffffffffff),
];

/// What is raised to 1e-5.
const LOW: [f64; 6] = [0.0, -0.0, f64::from_bits(1), 1e-6, 9.999999999999999e-6, 1e-5];

/// Both sides of the limits, and what is far from them.
static GIVENS: LazyLock<Vec<f64>> = LazyLock::new(|| {
    let mut all = [LOW.to_vec(), beside(1e-5).to_vec(), beside(1.0).to_vec(), NANS.to_vec()].concat();
    all.extend([0.5, 2.0, -f64::from_bits(1), -1e-9, -1e-5, -1.0, f64::MAX, f64::INFINITY, f64::NEG_INFINITY]);
    all
});

/// Entries at the limits of eta and k, the doubles beside them, and others that none has.
static ENTRIES: LazyLock<Vec<f64>> = LazyLock::new(|| {
    let mut all = [beside(0.01).to_vec(), beside(100.0).to_vec(), beside(1e-6).to_vec(), NANS.to_vec()].concat();
    all.extend([1.0, 2.0, 0.0, -0.0, f64::from_bits(1), -f64::from_bits(1), -1.5, f64::MAX, f64::INFINITY, f64::NEG_INFINITY]);
    all
});

/// Numbers of entries that no spectrum has, and both that one has.
const NUMBERS: [usize; 14] = [
    0, 1, 94, SAMPLES, 96, 470, FINE_SAMPLES, 472, 1_000_000_000_000_000_000, usize::MAX, 1 << 32, (1 << 32) + 95, (1 << 32) + 471, 1 << 61,
];

fn surface(kind: u64, given: f64, eta: &[f64], k: &[f64]) -> BookSurface {
    let none = [0.0; FINE_SAMPLES];
    let roughness = Vec2 { x: raised(given), y: raised(given) };
    let mut s = BookSurface { kind, two_sided: 0, given, roughness, entries: eta.len(), eta: none, k: none, outer: none };
    s.eta[..eta.len()].copy_from_slice(eta);
    s.k[..k.len()].copy_from_slice(k);
    s.outer[..eta.len()].fill(1.0);
    s
}

/// As a book has it.
fn give(s: &mut BookSurface, given: f64) {
    s.given = given;
    s.roughness = Vec2 { x: raised(given), y: raised(given) };
}

/// Spectra of one spacing that are accepted, few of them, some alike by value or but for the last entry.
struct Pool {
    etas: [Vec<f64>; 4],
    absorbing: [Vec<f64>; 4],
    zeros: [Vec<f64>; 3],
}

impl Pool {
    fn new(n: usize) -> Self {
        let turns = |x: f64, y: f64| -> Vec<f64> { (0..n).map(|i| if i % 2 == 0 { x } else { y }).collect() };
        let rising = |from: f64, by: f64| -> Vec<f64> { (0..n).map(|i| from + by * i as f64).collect() };
        let next_at_last = |mut xs: Vec<f64>| {
            xs[n - 1] = xs[n - 1].next_up();
            xs
        };
        Self {
            etas: [turns(1.5, 1.5), rising(1.2, 0.002), next_at_last(rising(1.2, 0.002)), turns(0.01, 100.0)],
            absorbing: [turns(2.0, 2.0), rising(2.0, 0.01), next_at_last(rising(2.0, 0.01)), turns(1e-6, 100.0)],
            zeros: [turns(0.0, 0.0), turns(-0.0, -0.0), turns(0.0, -0.0)],
        }
    }
}

static POOLS: LazyLock<[Pool; 2]> = LazyLock::new(|| [SAMPLES, FINE_SAMPLES].map(Pool::new));

/// What the surfaces of a list are drawn from: few of each, so that equal ones meet.
struct Mix {
    givens: Vec<f64>,
    etas: usize,
    ks: usize,
    /// Of 16 surfaces so many have 471 entries.
    fine: usize,
}

impl Mix {
    fn new(rng: &mut Rng) -> Self {
        let given = |rng: &mut Rng| match rng.below(3) {
            0 => LOW[rng.below(LOW.len())],
            1 => [1e-5f64.next_up(), 0.5, 1f64.next_down(), 1.0][rng.below(4)],
            _ => rng.unit(),
        };
        let n = 1 + rng.below(4);
        let givens = (0..n).map(|_| given(rng)).collect();
        Self { givens, etas: 1 + rng.below(4), ks: 1 + rng.below(4), fine: [0, 0, 1, 8][rng.below(4)] }
    }

    fn surface(&self, rng: &mut Rng) -> BookSurface {
        let pool = &POOLS[(rng.below(16) < self.fine) as usize];
        let kind = [METAL, GLASS][rng.below(2)];
        let k = if kind == METAL && rng.below(4) > 0 { &pool.absorbing[rng.below(self.ks)] } else { &pool.zeros[rng.below(self.ks.min(3))] };
        let mut s = surface(kind, self.givens[rng.below(self.givens.len())], &pool.etas[rng.below(self.etas)], k);
        s.two_sided = (rng.below(3) == 0) as u64;
        s
    }
}

/// A place among the entries: the ends, the middle, or any.
fn place(rng: &mut Rng, s: &BookSurface) -> usize {
    let n = s.entries.clamp(1, FINE_SAMPLES);
    [0, n / 2, n - 1, rng.below(n)][rng.below(4)]
}

/// Changes a field that a book has.
fn damage(rng: &mut Rng, s: &mut BookSurface) {
    let at = place(rng, s);
    match rng.below(8) {
        0 | 1 => give(s, GIVENS[rng.below(GIVENS.len())]),
        2 => s.eta[at] = ENTRIES[rng.below(ENTRIES.len())],
        3 => s.k[at] = ENTRIES[rng.below(ENTRIES.len())],
        4 => {
            let n = s.entries.min(FINE_SAMPLES);
            s.k[..n].iter_mut().for_each(|x| *x = 0.0 * rng.sign());
        }
        5 => s.kind = 1 - s.kind.min(1),
        6 => s.kind = other_kind(rng),
        _ => s.two_sided = [0, 1, 2, 255, 256, 1 << 32, 1 << 63, rng.next()][rng.below(8)],
    }
}

/// Changes a field that a book hasn't: x and y, what lies outside, the number of entries, what stands past them.
fn damage_beside(rng: &mut Rng, s: &mut BookSurface) {
    let at = place(rng, s);
    match rng.below(7) {
        0 => s.given = GIVENS[rng.below(GIVENS.len())],
        1 | 2 => {
            let part = if rng.below(2) == 0 { &mut s.roughness.x } else { &mut s.roughness.y };
            *part = [part.next_up(), part.next_down(), s.given, -*part, 2.0 * *part, f64::NAN, GIVENS[rng.below(GIVENS.len())]][rng.below(7)];
        }
        3 => s.entries = NUMBERS[rng.below(NUMBERS.len())],
        4 => s.outer[at] = if rng.below(2) == 0 { beside(1.0)[2 * rng.below(2)] } else { ENTRIES[rng.below(ENTRIES.len())] },
        5 => s.outer.fill(ENTRIES[rng.below(ENTRIES.len())]),
        _ => {
            let past = s.entries.min(FINE_SAMPLES);
            for places in [&mut s.eta, &mut s.k, &mut s.outer] {
                places[past..].iter_mut().for_each(|x| *x = f64::from_bits(rng.next()));
            }
        }
    }
}

/// How many ways there are in which a surface is like another.
const ALIKE: usize = 14;

/// A surface like another but for one thing, or for none. What both are to have, as a NaN, the other gets too.
fn twin(rng: &mut Rng, s: &mut BookSurface, how: usize) -> BookSurface {
    let n = s.entries.clamp(1, FINE_SAMPLES);
    // the same at every wavelength
    let constant = |s: &BookSurface, fine: bool| {
        let pool = &POOLS[fine as usize];
        surface(s.kind, s.given, &pool.etas[0], if s.kind == METAL { &pool.absorbing[0] } else { &pool.zeros[0] })
    };
    let mut t = *s;
    match how {
        0 => (),
        1 => t.two_sided = 1 - t.two_sided.min(1),
        2 => {
            give(s, LOW[rng.below(LOW.len())]);
            t = *s;
            give(&mut t, LOW[rng.below(LOW.len())]);
        }
        3 => t.k[..n].iter_mut().filter(|x| **x == 0.0).for_each(|x| *x = -*x),
        4 => t.k[n - 1] = t.k[n - 1].next_up(),
        5 => t.k[0] = -t.k[0],
        6 => t.eta[n - 1] = t.eta[n - 1].next_down(),
        7 => t.eta[0] = t.eta[0].next_up(),
        8 => t.kind = 1 - t.kind.min(1),
        9 => give(&mut t, s.given.next_up()),
        10 => {
            t = constant(s, false);
            *s = constant(s, true);
        }
        11 => {
            s.eta[n - 1] = NANS[rng.below(6)];
            t = *s;
        }
        12 => {
            s.k[0] = NANS[rng.below(6)];
            t = *s;
        }
        _ => {
            // raised alike, whichever NaN
            give(s, NANS[rng.below(6)]);
            t = *s;
            give(&mut t, [NANS[rng.below(6)], LOW[rng.below(LOW.len())]][rng.below(2)]);
        }
    }
    t
}

/// The book's surface that stands for another, if there is one: of a single roughness, which may be what was raised, and of
/// spectra alike in length. Beside metal stands any outer spectrum.
pub fn of_surface(rng: &mut Rng, of: &Surface) -> Option<BookSurface> {
    let n = of.eta.len();
    if of.a.x != of.a.y || of.k.len() != n || of.glass && of.outer.len() != n || n > FINE_SAMPLES {
        return None;
    }
    let mut s = surface(of.glass as u64, of.a.x, &of.eta, &of.k);
    s.roughness = Vec2 { x: of.a.x, y: of.a.y };
    if s.given == 1e-5 {
        s.given = LOW[rng.below(LOW.len())];
    }
    let most = of.outer.len().min(FINE_SAMPLES);
    s.outer[..most].copy_from_slice(&of.outer[..most]);
    s.two_sided = [0, 0, 1, 1, 2, 1 << 32, 1 << 63, rng.next()][rng.below(8)];
    Some(s)
}

/// A list none of whose surfaces are equal, of so many of either spacing.
fn unlike(fine: usize, coarse: usize) -> Vec<BookSurface> {
    let one = |i: usize| {
        let pool = &POOLS[(i < fine) as usize];
        let (kind, k) = if i % 3 == 0 { (GLASS, &pool.zeros[i % 2]) } else { (METAL, &pool.absorbing[i % 4]) };
        surface(kind, (i + 1) as f64 / 128.0, &pool.etas[i % 4], k)
    };
    (0..fine + coarse).map(one).collect()
}

// ---- edges

/// Surfaces of either kind and spacing that are accepted.
fn bases() -> [BookSurface; 4] {
    let [coarse, fine] = &*POOLS;
    [
        surface(METAL, 0.5, &coarse.etas[1], &coarse.absorbing[1]),
        surface(GLASS, 0.5, &coarse.etas[1], &coarse.zeros[0]),
        surface(METAL, 0.5, &fine.etas[1], &fine.absorbing[1]),
        surface(GLASS, 0.5, &fine.etas[1], &fine.zeros[2]),
    ]
}

/// A surface with each field at each edge.
fn edge_surfaces(base: &BookSurface) -> Vec<BookSurface> {
    let mut all = vec![];
    let mut with = |change: &dyn Fn(&mut BookSurface)| {
        let mut s = *base;
        change(&mut s);
        all.push(s);
    };
    for given in GIVENS.iter() {
        with(&|s| give(s, *given));
        with(&|s| s.given = *given);
        with(&|s| s.roughness.x = *given);
        with(&|s| s.roughness.y = *given);
    }
    for i in [0, 1] {
        let aside = |x: f64| beside(x)[2 * i];
        with(&|s| s.roughness.x = aside(s.roughness.x));
        with(&|s| s.roughness.y = aside(s.roughness.y));
        with(&|s| s.roughness = Vec2 { x: aside(s.roughness.x), y: aside(s.roughness.y) });
    }
    for kind in [0, 1, 2, 3, 5, 255, 256, 257, 1 << 32, (1 << 32) + 1, u64::MAX] {
        with(&|s| s.kind = kind);
    }
    for flag in [0, 1, 2, 255, 256, 1 << 32, u64::MAX] {
        with(&|s| s.two_sided = flag);
    }
    for entries in NUMBERS {
        with(&|s| s.entries = entries);
    }
    let n = base.entries;
    for x in ENTRIES.iter() {
        for at in [0, n / 2, n - 1] {
            with(&|s| s.eta[at] = *x);
            with(&|s| s.k[at] = *x);
            with(&|s| s.outer[at] = *x);
        }
        with(&|s| s.eta[..n].fill(*x));
        with(&|s| s.k[..n].fill(*x));
        with(&|s| s.outer[..n].fill(*x));
        // the first place past the entries, and the last
        if n < FINE_SAMPLES {
            with(&|s| {
                for places in [&mut s.eta, &mut s.k, &mut s.outer] {
                    (places[n], places[FINE_SAMPLES - 1]) = (*x, *x);
                }
            });
        }
    }
    for x in [beside(1.0)[0], beside(1.0)[2]] {
        with(&|s| s.outer[n - 1] = x);
    }
    // 2 before 3 before 13, 1 before all
    for bad in 1..16 {
        with(&|s| {
            if bad & 1 != 0 {
                give(s, 1.5);
            }
            if bad & 2 != 0 {
                s.eta[n - 1] = 0.0;
            }
            if bad & 4 != 0 {
                s.k[0] = -1.0;
            }
            if bad & 8 != 0 {
                s.outer[1] = 1.333;
            }
        });
    }
    all
}

/// Lists of surfaces, edges all of them, each of which is written and, as a book, read.
fn edge_lists(rng: &mut Rng, mut each: impl FnMut(&mut Rng, &[BookSurface])) {
    let bases = bases();
    each(rng, &[]);
    for base in &bases {
        // one by itself, behind a good one and before one
        let good = surface(METAL, 0.25, &POOLS[0].etas[0], &POOLS[0].absorbing[0]);
        for s in edge_surfaces(base) {
            each(rng, &[s]);
            each(rng, &[good, s]);
            each(rng, &[s, good]);
        }
        // two that are refused
        let refused: Vec<BookSurface> = edge_surfaces(base).into_iter().rev().take(15).collect();
        for s in &refused {
            for t in &refused {
                each(rng, &[*s, *t]);
            }
        }
        // alike but for one thing, next to each other and apart, and a third behind them or before that is refused
        for how in 0..ALIKE {
            for _ in 0..8 {
                let mut s = *base;
                let t = twin(rng, &mut s, how);
                let bad = refused[rng.below(15)];
                for list in [&[s, t][..], &[t, s], &[s, good, t], &[bad, s, t], &[s, t, bad], &[s, bad, t], &[s, t, s, t]] {
                    each(rng, list);
                }
            }
        }
    }
    // the longest book, the next longer, and others at the limit
    for (fine, coarse) in [(5, 18), (4, 23), (0, 42), (0, 43), (8, 3), (8, 4), (9, 0), (1, 37), (1, 38)] {
        let list = unlike(fine, coarse);
        each(rng, &list);
        // the last once more, which is left out
        each(rng, &[&list[..], &list[list.len() - 1..]].concat());
        // the first in the place of the last
        let mut apart = list.clone();
        *apart.last_mut().unwrap() = list[0];
        each(rng, &apart);
        // too long, or an equal pair, and one refused besides
        for bad in [0, list.len() - 1] {
            let mut list = list.clone();
            list[bad].k[0] = -1.0;
            each(rng, &list);
            each(rng, &[&list[..], &list[1..2]].concat());
        }
    }
    // many that are one
    each(rng, &vec![bases[0]; 60]);
}

fn put(book: &mut [u8], at: usize, number: u32) {
    if let Some(four) = book.get_mut(at..at + 4) {
        four.copy_from_slice(&number.to_le_bytes());
    }
}

fn book_with(list: &[BookSurface]) -> Vec<u8> {
    book_of(&parts_with(list))
}

fn parts_with(list: &[BookSurface]) -> Vec<Vec<u8>> {
    offered(list).iter().map(Plain::part).collect()
}

/// Books with a number of theirs changed: the count, each offset and each length.
fn other_numbers(book: &[u8], parts: usize) -> Vec<Vec<u8>> {
    let mut all = vec![];
    for at in (0..1 + 2 * parts).map(|i| 4 * i) {
        let was = number_at(book, at).unwrap() as u32;
        let by = [1, 2, 4, 8, 12, 1539, 1531, 7547, 6016, 1 << 8, 1 << 16, 1 << 24, 1 << 29, 1 << 31, 3 << 30];
        let others = by.into_iter().flat_map(|by| [was.wrapping_add(by), was.wrapping_sub(by), was ^ by]);
        for number in others.chain([0, 1, 2, 3, 4, u32::MAX, u32::MAX - was, book.len() as u32]) {
            let mut book = book.to_vec();
            put(&mut book, at, number);
            all.push(book);
        }
    }
    all
}

/// The same parts behind so many bytes that are no part's, before the part at `before`.
fn with_gap(parts: &[Vec<u8>], before: usize, gap: &[u8]) -> Vec<u8> {
    let mut book = book_of(parts);
    let start = 4 + 8 * parts.len();
    for i in before..parts.len() {
        let at = 4 + 8 * i;
        let offset = number_at(&book, at).unwrap() as usize + gap.len();
        put(&mut book, at, offset as u32);
    }
    let at = start + parts[..before].iter().map(Vec::len).sum::<usize>();
    book.splice(at..at, gap.iter().copied());
    book
}

fn edge_books(rng: &mut Rng, mut each: impl FnMut(&mut Rng, &[u8])) {
    for length in 0..6 {
        each(rng, &vec![0; length]);
        each(rng, &vec![1; length]);
        each(rng, &vec![255; length]);
    }
    // more pairs than there are bytes, also where the count of bytes agrees modulo 2^32
    for count in [1, 2, 1 << 29, (1 << 29) + 1, 1 << 30, 1 << 31, u32::MAX] {
        for length in [4, 11, 12, 20, 1543, BOOK_MAX] {
            let mut book = vec![0; length];
            put(&mut book, 0, count);
            each(rng, &book);
        }
    }
    let [metal, glass, fine, _] = bases();
    for list in [&[metal][..], &[fine], &[glass, metal], &[metal, fine, glass]] {
        let parts = parts_with(list);
        let book = book_of(&parts);
        let n = parts.len();
        for other in other_numbers(&book, n) {
            each(rng, &other);
        }
        // cut off, and longer
        for length in (0..(4 + 8 * n + 16)).chain(book.len() - 9..book.len()) {
            each(rng, &book[..length]);
        }
        for more in [1, 2, 3, 4, 8, 1531, 1539, BOOK_MAX - book.len(), BOOK_MAX + 1 - book.len(), BOOK_MAX] {
            each(rng, &[&book[..], &vec![0; more]].concat());
        }
        // a part's first bytes, and parts of other lengths
        for i in 0..n {
            for at in 0..3 {
                for byte in [0, 1, 2, 3, 4, 5, 6, 128, 255] {
                    let mut parts = parts.clone();
                    parts[i][at] = byte;
                    each(rng, &book_of(&parts));
                }
            }
            for length in [0, 1, 2, 3, 10, 11, 1530, 1532, 1523, 1539, 7546, 7548, 7547, 1531] {
                let mut parts = parts.clone();
                parts[i].resize(length, 0);
                each(rng, &book_of(&parts));
                parts[i][..3.min(length)].copy_from_slice(&[0, 1, 0][..3.min(length)]);
                each(rng, &book_of(&parts));
            }
        }
        // holes
        for before in 0..=n {
            for length in [1, 2, 4, 8] {
                each(rng, &with_gap(&parts, before, &vec![0; length]));
            }
        }
        // pairs in another order, and a pair twice
        for i in 0..n {
            for j in 0..n {
                let (a, b) = (4 + 8 * i, 4 + 8 * j);
                let mut turned = book.clone();
                turned[a..a + 8].copy_from_slice(&book[b..b + 8]);
                each(rng, &turned);
                turned[b..b + 8].copy_from_slice(&book[a..a + 8]);
                each(rng, &turned);
            }
        }
        // a pair more, of a part without a length, and a part that no pair has
        let empty = [&parts[..], &[vec![]]].concat();
        each(rng, &book_of(&empty));
        let mut fewer = with_gap(&parts, 0, &parts[0]);
        each(rng, &fewer);
        put(&mut fewer, 0, n as u32 + 1);
        each(rng, &fewer);
    }
}

// ---- what is written out

/// Books, with the number of each or how many surfaces it has.
fn known_books() -> Vec<(Vec<u8>, Result<usize, u64>)> {
    let [metal, glass, fine, _] = bases();
    let with = |s: BookSurface, given: f64| {
        let mut s = s;
        give(&mut s, given);
        s
    };
    let book = |list: &[BookSurface]| book_with(list);
    let flagged = BookSurface { two_sided: 1, ..metal };
    let mut bad_k = glass;
    bad_k.k[94] = 1.0;
    let mut not_a_number = metal;
    not_a_number.eta[7] = f64::NAN;
    let long = |fine, coarse| book_with(&unlike(fine, coarse));
    let mut apart = unlike(0, 42);
    apart[41] = apart[0];
    vec![
        (vec![0; 4], Ok(0)),
        (vec![], Err(14)),
        (vec![0; 3], Err(14)),
        (vec![0; 5], Err(14)),
        (by_hand(), Ok(1)),
        ([by_hand(), vec![0]].concat(), Err(14)),
        (by_hand()[..1542].to_vec(), Err(14)),
        (book(&[metal, glass, fine]), Ok(3)),
        (book(&[with(metal, 0.0)]), Ok(1)),
        (book(&[with(metal, -0.0)]), Ok(1)),
        (book(&[with(metal, -1e-9)]), Err(1)),
        (book(&[with(metal, f64::NAN)]), Err(1)),
        (book(&[glass, bad_k, with(metal, 1.5)]), Err(3)),
        (book(&[glass, with(metal, 1.5), bad_k]), Err(1)),
        (book(&[not_a_number]), Err(2)),
        // an equal pair comes before all that: not by the flag, by the raised roughness; a NaN is equal to none
        (book(&[with(metal, 1.5), glass, glass]), Err(14)),
        (book(&[metal, flagged]), Err(14)),
        (book(&[with(metal, 0.0), with(metal, 1e-5)]), Err(14)),
        (book(&[with(metal, 1e-5), with(metal, 1e-5f64.next_up())]), Ok(2)),
        (book(&[with(metal, 2.0), with(metal, 2.0)]), Err(14)),
        (book(&[not_a_number, not_a_number]), Err(2)),
        (book(&apart), Err(14)),
        (long(5, 18), Ok(23)),
        (long(4, 23), Err(14)),
        (long(0, 42), Ok(42)),
    ]
}

/// One metal at 5 nm, byte by byte.
fn by_hand() -> Vec<u8> {
    let mut book = vec![1, 0, 0, 0, 12, 0, 0, 0, 0xfb, 5, 0, 0, 0, 5, 0];
    book.extend(0x3fe0000000000000u64.to_le_bytes());
    let metal = &bases()[0];
    for x in metal.eta[..95].iter().chain(&metal.k[..95]) {
        book.extend(x.to_bits().to_le_bytes());
    }
    book
}

/// Lists, with the room for each, and its number or how long the book is.
fn known_lists() -> Vec<(Vec<BookSurface>, usize, Result<usize, u64>)> {
    let [metal, glass, fine, _] = bases();
    let mut water = glass;
    water.outer[94] = 1.333;
    let mut beside_metal = metal;
    beside_metal.outer[3] = f64::NAN;
    let mut not_raised = metal;
    not_raised.roughness.y = 0.5f64.next_up();
    let mut bad = unlike(4, 23);
    bad[26].eta[0] = 0.0;
    vec![
        (vec![], 4, Ok(4)),
        (vec![], 3, Err(14)),
        (vec![metal], 1543, Ok(1543)),
        (vec![metal], 1542, Err(14)),
        (vec![metal, metal, BookSurface { two_sided: 1, ..metal }], 1543, Ok(1543)),
        (vec![fine], 7559, Ok(7559)),
        (vec![metal, glass, fine], 65536, Ok(10637)),
        (vec![water], 65536, Err(13)),
        (vec![beside_metal], 65536, Ok(1543)),
        (vec![metal, not_raised, water], 65536, Err(1)),
        (vec![BookSurface { kind: 2, ..metal }], 65536, Err(1)),
        (vec![BookSurface { entries: 472, ..metal }], 65536, Err(2)),
        (unlike(5, 18), 65536, Ok(65481)),
        (unlike(4, 23), 1 << 17, Err(14)),
        (bad, 0, Err(2)),
    ]
}

/// Holds the second reading to what is written out.
fn hold_reading() {
    let metal = &bases()[..1];
    assert_eq!(write(&offered(metal), BOOK_MAX), Ok(by_hand()), "one metal, by the second reading");
    assert_eq!(by_hand().len(), 1543);
    for (i, (book, must)) in known_books().iter().enumerate() {
        assert_eq!(read(book).map(|all| all.len()), *must, "the book {i}, by the second reading");
    }
    for (i, (list, room, must)) in known_lists().iter().enumerate() {
        assert_eq!(write(&offered(list), *room).map(|book| book.len()), *must, "the list {i}, by the second reading");
    }
}

// ---- at random

/// A list near the longest book, with one twice in half of them.
fn long_list(rng: &mut Rng) -> Vec<BookSurface> {
    let fine = rng.below(9);
    let coarse = (BOOK_MAX - 4 - 7555 * fine) / 1539;
    let mut list = unlike(fine, coarse - 1 + rng.below(3));
    let n = list.len();
    for i in (1..n).rev() {
        list.swap(i, rng.below(i + 1));
    }
    match rng.below(4) {
        0 => list[rng.below(n)] = list[rng.below(n)],
        1 => list.push(list[rng.below(n)]),
        _ => (),
    }
    list
}

/// Mostly a few surfaces, in three of four lists none of them equal. `beside` has them changed in fields that no book has.
fn list_at_random(rng: &mut Rng, damages: usize, beside: bool) -> Vec<BookSurface> {
    let n = match rng.below(256) {
        0 => return long_list(rng),
        1..4 => 0,
        4..8 => 5 + rng.below(12),
        _ => 1 + rng.below(4),
    };
    let mix = Mix::new(rng);
    let mut list: Vec<BookSurface> = (0..n).map(|_| mix.surface(rng)).collect();
    if rng.below(4) > 0 {
        let plain = offered(&list);
        let equal = |i: usize| plain[..i].iter().any(|earlier| earlier.equals(&plain[i]));
        let kept: Vec<BookSurface> = (0..n).filter(|i| !equal(*i)).map(|i| list[i]).collect();
        list = kept;
    }
    for _ in 0..damages {
        if list.is_empty() {
            break;
        }
        let i = rng.below(list.len());
        match rng.below(8) {
            0 | 1 => {
                let how = rng.below(ALIKE);
                let t = twin(rng, &mut list[i], how);
                let at = rng.below(list.len() + 1);
                list.insert(at, t);
            }
            2..5 if beside => damage_beside(rng, &mut list[i]),
            _ => damage(rng, &mut list[i]),
        }
    }
    list
}

fn other_number(rng: &mut Rng, was: u32) -> u32 {
    match rng.below(8) {
        0 => was.wrapping_add(1),
        1 => was.wrapping_sub(1),
        2 => was ^ 1 << rng.below(32),
        3 => [0, 1, u32::MAX, u32::MAX - was, 1 << 29][rng.below(5)],
        4 => was.wrapping_add([8, 12, 1531, 1539, 6016, 7547][rng.below(6)]),
        5 => was.wrapping_sub([8, 12, 1531, 1539, 6016, 7547][rng.below(6)]),
        6 => (was as u8 as u32) << 8 | was >> 8,
        _ => rng.next() as u32,
    }
}

/// Changes parts, which then follow one another as the pairs have it.
fn damage_parts(rng: &mut Rng, parts: &mut Vec<Vec<u8>>) {
    let n = parts.len();
    if n == 0 || rng.below(8) == 0 {
        let length = [0, 1, 3, 11, 1531, 7547][rng.below(6)];
        parts.insert(rng.below(n + 1), vec![0; length]);
        return;
    }
    let part = &mut parts[rng.below(n)];
    let length = part.len();
    match rng.below(4) {
        0 => part.resize([1531, 7547, length + 1, length.saturating_sub(1), length + 8, length.saturating_sub(8)][rng.below(6)], 0),
        _ => {
            let byte = [0, 1, 2, 3, 5, 255, rng.next() as u8][rng.below(7)];
            if let Some(b) = part.get_mut(rng.below(3)) {
                *b = byte;
            }
        }
    }
}

fn damage_bytes(rng: &mut Rng, book: &mut Vec<u8>) {
    let pairs = book.get(..4).map_or(0, |b| b[0] as usize);
    let pair = |rng: &mut Rng| 4 + 8 * rng.below(pairs.max(1));
    match rng.below(10) {
        0 => {
            let was = number_at(book, 0).unwrap_or(0) as u32;
            put(book, 0, other_number(rng, was));
        }
        1..4 => {
            let at = pair(rng) + 4 * rng.below(2);
            let was = number_at(book, at).unwrap_or(0) as u32;
            put(book, at, other_number(rng, was));
        }
        4 => {
            let (a, b) = (pair(rng), pair(rng));
            if a.max(b) + 8 <= book.len() {
                let was = book.clone();
                book[a..a + 8].copy_from_slice(&was[b..b + 8]);
                if rng.below(2) == 0 {
                    book[b..b + 8].copy_from_slice(&was[a..a + 8]);
                }
            }
        }
        5 => book.truncate([book.len().saturating_sub(1 + rng.below(16)), rng.below(book.len() + 1)][rng.below(2)]),
        6 => book.extend((0..1 + rng.below(9)).map(|_| rng.below(2) as u8)),
        7 => {
            let at = rng.below(book.len() + 1);
            let more = vec![rng.next() as u8; [1, 1, 2, 8][rng.below(4)]];
            book.splice(at..at, more);
        }
        8 if !book.is_empty() => {
            book.remove(rng.below(book.len()));
        }
        _ => {
            let at = rng.below(book.len().max(1));
            let byte = [0, 1, 2, 5, 255, rng.next() as u8][rng.below(6)];
            if let Some(b) = book.get_mut(at) {
                *b = byte;
            }
        }
    }
}

/// A book with up to three damages, most of them to its surfaces.
fn book_at_random(rng: &mut Rng) -> Vec<u8> {
    // how many there are of each kind
    let mut damages = [0; 4];
    for _ in 0..rng.below(4) {
        damages[[0, 0, 0, 0, 0, 0, 1, 2, 3][rng.below(9)]] += 1;
    }
    let [to_surfaces, to_parts, gaps, to_bytes] = damages;
    let mut parts = parts_with(&list_at_random(rng, to_surfaces, false));
    for _ in 0..to_parts {
        damage_parts(rng, &mut parts);
    }
    let mut book = match gaps {
        0 => book_of(&parts),
        _ => with_gap(&parts, rng.below(parts.len() + 1), &vec![0; gaps * [1, 4, 8][rng.below(3)]]),
    };
    for _ in 0..to_bytes {
        damage_bytes(rng, &mut book);
    }
    book
}

/// From which surface on, and into how many places, a book of so many is read.
fn from_anywhere(rng: &mut Rng, all: usize) -> (usize, usize) {
    let first = [0, 1, all.wrapping_sub(1), all, all + 1, usize::MAX, rng.below(all + 1)][rng.below(7)];
    (first, [0, 1, 2, all, all + 1][rng.below(5)])
}

fn read_at_random(c: &mut Comparison, rng: &mut Rng) {
    let book = book_at_random(rng);
    let must = read(&book);
    let all = judged(&must).count;
    // half of them from the first on, with room for all
    let (first, places) = if rng.below(2) == 0 { (0, all) } else { from_anywhere(rng, all) };
    c.read(rng, &book, &must, first, places);
}

fn write_at_random(c: &mut Comparison, rng: &mut Rng) {
    let damages = rng.below(4);
    let list = list_at_random(rng, damages, true);
    let plain = offered(&list);
    // more than any book takes where the list is too long for one
    let exact = match write(&plain, usize::MAX) {
        Ok(book) => book.len(),
        Err(14) => BOOK_MAX + 100,
        Err(_) => 1543,
    };
    let room = match rng.below(8) {
        0 => [0, 1, 3, 4, 1543, exact / 2, BOOK_MAX, BOOK_MAX + rng.below(100)][rng.below(8)],
        1 => exact.saturating_sub(1),
        2 | 3 => exact + 1 + rng.below(100),
        _ => exact,
    };
    c.write(rng, &list, &plain, room);
}

/// `count` books and as many lists at random, behind the edges of either: how many were read and written, and the differences.
pub fn compare(seed: u64, count: usize) -> (usize, usize) {
    hold_reading();
    let rng = &mut Rng(seed ^ 0xb00c);
    let mut c = Comparison { noise: Noise::new(rng), reads: Tally::default(), writes: Tally::default(), checks: Tally::default() };
    for (book, _) in known_books() {
        c.read_everywhere(rng, &book);
    }
    for (list, room, _) in known_lists() {
        for room in [room, 0, 3, 4, BOOK_MAX, BOOK_MAX + 100] {
            c.write(rng, &list, &offered(&list), room);
        }
    }
    edge_books(rng, |rng, book| c.read_twice(rng, book));
    edge_lists(rng, |rng, list| {
        c.write_all(rng, list);
        c.read_twice(rng, &book_with(list));
    });
    for _ in 0..count {
        read_at_random(&mut c, rng);
        write_at_random(&mut c, rng);
    }
    c.print();
    let all = [c.reads, c.writes, c.checks];
    (all[..2].iter().map(|t| t.calls).sum(), all.iter().map(|t| t.differences).sum())
}

// ---- the sample: books in files, and an index of what is to be done with them

/// Files by their names, the index, and the list of surfaces that its lines speak of.
#[derive(Default)]
struct Sample {
    files: Vec<(String, Vec<u8>)>,
    index: String,
    list: Vec<BookSurface>,
}

impl Sample {
    fn line(&mut self, line: String) {
        self.index.push_str(&line);
        self.index.push('\n');
    }

    fn named(&self, name: &str) -> &[u8] {
        &self.files.iter().find(|f| f.0 == name).expect("a file of the sample").1
    }

    /// Answers the name of the file that has these bytes: this one, if none had them before.
    fn keep(&mut self, name: &str, book: &[u8]) -> String {
        if let Some(f) = self.files.iter().find(|f| f.1 == book) {
            return f.0.clone();
        }
        assert!(self.files.iter().all(|f| f.0 != name), "two files {name}");
        self.files.push((name.into(), book.into()));
        name.into()
    }

    /// A book to be read, and where it is accepted to be written again.
    fn read(&mut self, name: &str, book: &[u8]) {
        let name = self.keep(name, book);
        let CountResult { number, count } = judged(&read(book));
        self.line(format!("read {name}.book {number} {count}"));
        if number == 0 {
            self.line(format!("again {name}.book"));
        }
    }

    /// The book of surfaces, which may be ones that are refused.
    fn read_of(&mut self, name: &str, list: &[BookSurface]) {
        self.read(name, &book_with(list));
    }

    /// A new list, of the surfaces that these books have.
    fn list(&mut self, names: &[&str]) {
        self.list = names.iter().flat_map(|name| read(self.named(name)).expect("an accepted book")).map(|s| s.record()).collect();
        let files: String = names.iter().map(|name| format!(" {name}.book")).collect();
        self.line(format!("list{files}"));
    }

    /// One number of the list's surfaces changed.
    fn set(&mut self, at: usize, field: &str, place: usize, bits: u64) {
        let s = &mut self.list[at];
        let x = f64::from_bits(bits);
        match field {
            "kind" => s.kind = bits,
            "two_sided" => s.two_sided = bits,
            "given" => s.given = x,
            "x" => s.roughness.x = x,
            "y" => s.roughness.y = x,
            "entries" => s.entries = bits as usize,
            "eta" => s.eta[place] = x,
            "k" => s.k[place] = x,
            _ => s.outer[place] = x,
        }
        self.line(format!("set {at} {field} {place} {bits:016x}"));
    }

    /// The list written; a book that is to come out is a file of this name, if it is none that is there already.
    fn write(&mut self, room: usize, name: &str) {
        let book = write(&offered(&self.list), room);
        let CountResult { number, count } = judged(&book);
        match book {
            Ok(book) => {
                let name = self.keep(name, &book);
                self.line(format!("write {room} {number} {count} {name}.book"));
            }
            Err(_) => self.line(format!("write {room} {number} {count} none")),
        }
    }
}

fn accepted_books(s: &mut Sample) {
    let [metal, glass, fine, fine_glass] = bases();
    let with = |s: BookSurface, given: f64| {
        let mut s = s;
        give(&mut s, given);
        s
    };
    let two_sided = |s: BookSurface| BookSurface { two_sided: 1, ..s };
    let [coarse, finer] = &*POOLS;
    let (constant, rising, limits) = (&coarse.etas[0], &coarse.etas[1], &coarse.etas[3]);
    s.read("empty", &[0; 4]);
    s.read("metal", &by_hand());
    s.read_of("glass", &[glass]);
    s.read_of("fine-metal", &[fine]);
    s.read_of("two-sided", &[two_sided(metal)]);
    s.read_of("mixed", &[metal, fine_glass, two_sided(glass)]);
    // k of either sign on both kinds, which are told apart by nothing else
    s.read_of("zeros", &[surface(METAL, 0.0, constant, &coarse.zeros[2]), surface(GLASS, -0.0, constant, &coarse.zeros[1])]);
    s.read_of("roughness", &[-0.0, 1e-5f64.next_up(), 0.5, 1.0].map(|given| with(metal, given)));
    s.read_of("low", &[with(metal, f64::from_bits(1))]);
    s.read_of("last-entry", &[1, 2].map(|i| surface(METAL, 0.5, rising, &coarse.absorbing[i])));
    s.read_of("spacings", &[surface(METAL, 0.5, constant, &coarse.absorbing[0]), surface(METAL, 0.5, &finer.etas[0], &finer.absorbing[0])]);
    s.read_of("limits", &[surface(METAL, 0.5, limits, &coarse.absorbing[3]), surface(GLASS, 0.5, limits, &coarse.zeros[0])]);
    s.read_of("longest", &unlike(5, 18));
    s.read_of("most-parts", &unlike(0, 42));
}

fn refused_books(s: &mut Sample) {
    let [metal, glass, fine, _] = bases();
    let with = |s: BookSurface, given: f64| {
        let mut s = s;
        give(&mut s, given);
        s
    };
    let eta = |s: BookSurface, at: usize, x: f64| {
        let mut s = s;
        s.eta[at] = x;
        s
    };
    let k = |s: BookSurface, at: usize, x: f64| {
        let mut s = s;
        s.k[at] = x;
        s
    };
    // the layout
    let two = book_with(&[metal, glass]);
    let parts = parts_with(&[metal, glass]);
    let number = |at: usize, to: u32| {
        let mut book = two.clone();
        put(&mut book, at, to);
        book
    };
    let byte = |at: usize, to: u8| {
        let mut book = by_hand();
        book[at] = to;
        book
    };
    s.read("nothing", &[]);
    s.read("three-bytes", &[0; 3]);
    s.read("five-bytes", &[0; 5]);
    s.read("byte-behind", &[by_hand(), vec![0]].concat());
    s.read("byte-missing", &by_hand()[..1542]);
    s.read("one-more", &number(0, 3));
    s.read("one-fewer", &number(0, 1));
    // as many pairs where numbers of 32 bits wrap
    s.read("many-more", &number(0, 2 + (1 << 29)));
    s.read("most", &[255; 12]);
    s.read("offset-above", &number(12, 20 + 1531 + 1));
    s.read("offset-below", &number(4, 19));
    s.read("length-above", &number(8, 1532));
    s.read("hole", &with_gap(&parts, 1, &[0; 8]));
    s.read("hole-in-front", &with_gap(&parts, 0, &[0]));
    let mut turned = two.clone();
    turned[4..12].copy_from_slice(&two[12..20]);
    s.read("same-part", &turned);
    turned[12..20].copy_from_slice(&two[4..12]);
    s.read("turned", &turned);
    s.read("kind-2", &byte(12, 2));
    s.read("step-1", &byte(13, 1));
    s.read("step-2", &byte(13, 2));
    s.read("flag-2", &byte(14, 2));
    s.read("long-part", &book_of(&[[&parts[0][..], &[0]].concat()]));
    s.read_of("next-longer", &unlike(4, 23));
    // an equal pair, which comes before what is wrong with a surface
    s.read_of("equal", &[metal, glass, metal]);
    s.read_of("equal-but-flag", &[metal, BookSurface { two_sided: 1, ..metal }]);
    s.read_of("equal-when-raised", &[with(glass, 0.0), with(glass, 1e-6)]);
    s.read_of("equal-zeros", &[glass, surface(GLASS, 0.5, &POOLS[0].etas[1], &POOLS[0].zeros[2])]);
    s.read_of("equal-and-rough", &[with(metal, 1.5), glass, glass]);
    // surfaces
    s.read_of("rough-above", &[with(metal, 1f64.next_up())]);
    s.read_of("rough-below", &[with(metal, -f64::from_bits(1))]);
    s.read_of("rough-nan", &[with(glass, f64::NAN)]);
    s.read_of("eta-below", &[eta(metal, 94, 0.01f64.next_down())]);
    s.read_of("eta-above", &[eta(glass, 0, 100f64.next_up())]);
    s.read_of("eta-nan-twice", &[eta(glass, 7, f64::NAN), eta(glass, 7, f64::NAN)]);
    s.read_of("k-below", &[k(metal, 94, 1e-6f64.next_down())]);
    s.read_of("k-one-zero", &[k(metal, 0, 0.0)]);
    s.read_of("k-on-glass", &[k(glass, 94, 1.0)]);
    s.read_of("fine-k-above", &[k(fine, 470, 100f64.next_up())]);
    s.read_of("third-then-first", &[glass, k(metal, 3, -1.0), with(glass, 2.0)]);
    s.read_of("first-then-third", &[glass, with(glass, 2.0), k(metal, 3, -1.0)]);
}

fn written_books(s: &mut Sample) {
    s.list(&[]);
    s.write(4, "empty");
    s.write(3, "");
    s.write(100, "empty");
    // rooms
    s.list(&["metal", "fine-metal", "glass"]);
    let exact = 10637;
    for room in [exact, exact - 1, exact + 1, 65536, 65636, 0, 3, 4] {
        s.write(room, "three");
    }
    // what is left out
    s.list(&["metal", "two-sided", "metal", "glass", "metal"]);
    s.write(3082, "two");
    s.write(3081, "");
    s.list(&["two-sided", "metal"]);
    s.write(1543, "two-sided");
    s.list(&["low", "low"]);
    s.set(1, "given", 0, 1e-6f64.to_bits());
    s.write(1543, "low");
    s.list(&["low", "low"]);
    s.set(0, "given", 0, 0x8000000000000000);
    s.write(2000, "low-by-zero");
    s.set(1, "k", 94, 2.5f64.to_bits());
    s.write(4000, "low-and-another");
    // as long as a book may be, and longer
    s.list(&["longest", "longest", "empty"]);
    s.write(65536, "longest");
    s.write(65480, "");
    s.list(&["longest", "glass"]);
    s.write(100000, "");
    s.list(&["most-parts", "fine-metal"]);
    s.write(100000, "");
    s.set(42, "k", 470, (-1f64).to_bits());
    s.write(100000, "");
    // fields, each of a list anew
    let one = 1f64.to_bits();
    let water = 1.333f64.to_bits();
    for (at, field, place, bits) in [
        (0, "kind", 0, 2),
        (0, "kind", 0, 1),
        (1, "kind", 0, 1 << 32),
        (0, "given", 0, 0.25f64.to_bits()),
        (0, "given", 0, 1.5f64.to_bits()),
        (0, "x", 0, 0.5f64.next_up().to_bits()),
        (1, "y", 0, 0.5f64.next_down().to_bits()),
        (0, "x", 0, f64::NAN.to_bits()),
        (0, "entries", 0, 0),
        (0, "entries", 0, 94),
        (0, "entries", 0, 471),
        (1, "entries", 0, 1_000_000_000_000_000_000),
        (1, "eta", 94, 0),
        (1, "eta", 95, 0),
        (1, "k", 0, one),
        (1, "k", 0, 0x8000000000000000),
        (0, "outer", 0, water),
        (1, "outer", 0, water),
        (1, "outer", 94, 1f64.next_down().to_bits()),
        (1, "outer", 95, water),
        (1, "two_sided", 0, 256),
    ] {
        s.list(&["metal", "glass"]);
        s.set(at, field, place, bits);
        let name = format!("{field}-{at}-{place}");
        s.write(4000, &name);
    }
    // 3 before 13, and the first surface before the second; a refusal before a room that is too small
    s.list(&["glass", "metal"]);
    s.set(0, "outer", 94, water);
    s.set(1, "given", 0, 2f64.to_bits());
    s.write(4000, "");
    s.set(0, "k", 0, one);
    s.write(0, "");
}

/// The files, the index last, and how many of its lines read or write.
pub fn sample() -> (Vec<(String, Vec<u8>)>, usize) {
    let mut s = Sample::default();
    accepted_books(&mut s);
    refused_books(&mut s);
    written_books(&mut s);
    let calls = s.index.lines().filter(|line| !line.starts_with("list") && !line.starts_with("set")).count();
    let index = s.index.into_bytes();
    let mut files: Vec<(String, Vec<u8>)> = s.files.into_iter().map(|(name, book)| (format!("{name}.book"), book)).collect();
    files.push(("index".into(), index));
    (files, calls)
}

// ---- for the benchmark: a book read and written in place, as one does it in Rust

/// As many parts as a book may have.
const MOST: usize = 42;

fn doubles(bytes: &[u8]) -> impl Iterator<Item = f64> + Clone + '_ {
    bytes.chunks_exact(8).map(double)
}

/// A part's spectra.
fn spectra(part: &[u8]) -> (&[u8], &[u8]) {
    part[11..].split_at((part.len() - 11) / 2)
}

fn is_equal_part(p: &[u8], q: &[u8]) -> bool {
    p[..2] == q[..2]
        && raised(double(&p[3..11])) == raised(double(&q[3..11]))
        && doubles(&p[11..]).zip(doubles(&q[11..])).all(|(x, y)| x == y)
}

fn is_equal_record(r: &BookSurface, s: &BookSurface) -> bool {
    let n = r.entries;
    r.kind == s.kind && n == s.entries && raised(r.given) == raised(s.given) && r.eta[..n] == s.eta[..n] && r.k[..n] == s.k[..n]
}

/// 2, 3 or 0, of spectra of as many entries as one has.
fn entries_refused(kind: u64, mut eta: impl Iterator<Item = f64>, mut k: impl Iterator<Item = f64> + Clone) -> u64 {
    if !eta.all(|x| within(0.01, 100.0, x)) {
        return 2;
    }
    let is_zero = k.clone().all(|x| x == 0.0);
    if is_zero || kind == METAL && k.all(|x| within(1e-6, 100.0, x)) { 0 } else { 3 }
}

fn part_refused(part: &[u8]) -> u64 {
    let (eta, k) = spectra(part);
    if !within(0.0, 1.0, double(&part[3..11])) {
        return 1;
    }
    entries_refused(part[0] as u64, doubles(eta), doubles(k))
}

fn record_refused(s: &BookSurface) -> u64 {
    let (n, to) = (s.entries, raised(s.given));
    if s.kind > 1 || !within(0.0, 1.0, s.given) || s.roughness.x != to || s.roughness.y != to {
        return 1;
    }
    if n != SAMPLES && n != FINE_SAMPLES {
        return 2;
    }
    match entries_refused(s.kind, s.eta[..n].iter().copied(), s.k[..n].iter().copied()) {
        0 if s.kind == GLASS && !s.outer[..n].iter().all(|x| *x == 1.0) => 13,
        number => number,
    }
}

/// The parts, in the first places, and how many there are.
fn find_parts(book: &[u8]) -> Option<([&[u8]; MOST], usize)> {
    if book.len() > BOOK_MAX {
        return None;
    }
    let number = |at: usize| Some(u32::from_le_bytes(*book.get(at..)?.first_chunk()?) as usize);
    let n = number(0)?;
    let mut parts: [&[u8]; MOST] = [&[]; MOST];
    let mut end = 4 + 8 * n;
    for (i, part) in parts.get_mut(..n)?.iter_mut().enumerate() {
        if number(4 + 8 * i)? != end {
            return None;
        }
        let from = end;
        end += number(8 + 8 * i)?;
        *part = book.get(from..end)?;
        if !is_part(part) {
            return None;
        }
    }
    (end == book.len()).then_some((parts, n))
}

fn store(part: &[u8], s: &mut BookSurface) {
    let (eta, k) = spectra(part);
    let n = eta.len() / 8;
    let given = double(&part[3..11]);
    (s.kind, s.two_sided, s.entries) = (part[0] as u64, part[2] as u64, n);
    give(s, given);
    for (places, bytes) in [(&mut s.eta, eta), (&mut s.k, k)] {
        places.iter_mut().zip(doubles(bytes)).for_each(|(place, x)| *place = x);
        places[n..].fill(0.0);
    }
    s.outer[..n].fill(1.0);
    s.outer[n..].fill(0.0);
}

#[inline(never)]
pub fn plain_read(book: &[u8], first: usize, surfaces: &mut [BookSurface]) -> CountResult {
    let refused = |number| CountResult { number, count: 0 };
    let Some((parts, n)) = find_parts(book) else {
        return refused(14);
    };
    let parts = &parts[..n];
    for (i, part) in parts.iter().enumerate() {
        if parts[..i].iter().any(|earlier| is_equal_part(earlier, part)) {
            return refused(14);
        }
    }
    if let Some(number) = parts.iter().map(|p| part_refused(p)).find(|number| *number != 0) {
        return refused(number);
    }
    for (part, s) in parts.iter().skip(first).zip(surfaces) {
        store(part, s);
    }
    CountResult { number: 0, count: n }
}

#[inline(never)]
pub fn plain_write(surfaces: &[BookSurface], buffer: &mut [u8]) -> CountResult {
    let refused = |number| CountResult { number, count: 0 };
    if let Some(number) = surfaces.iter().map(record_refused).find(|number| *number != 0) {
        return refused(number);
    }
    // which ones are written, and how long the book is
    let mut kept = [0; MOST];
    let (mut parts, mut length) = (0, 4);
    for (i, s) in surfaces.iter().enumerate() {
        if !kept[..parts].iter().any(|earlier| is_equal_record(&surfaces[*earlier], s)) {
            length += 8 + 11 + 16 * s.entries;
            if length > BOOK_MAX {
                return refused(14);
            }
            kept[parts] = i;
            parts += 1;
        }
    }
    if length > buffer.len() {
        return refused(14);
    }
    let (head, mut rest) = buffer[..length].split_at_mut(4 + 8 * parts);
    head[..4].copy_from_slice(&(parts as u32).to_le_bytes());
    let mut at = head.len();
    for (pair, i) in head[4..].chunks_exact_mut(8).zip(kept) {
        let s = &surfaces[i];
        let n = s.entries;
        let (part, behind) = rest.split_at_mut(11 + 16 * n);
        pair[..4].copy_from_slice(&(at as u32).to_le_bytes());
        pair[4..].copy_from_slice(&(part.len() as u32).to_le_bytes());
        part[..3].copy_from_slice(&[s.kind as u8, if n == FINE_SAMPLES { 1 } else { 5 }, (s.two_sided != 0) as u8]);
        part[3..11].copy_from_slice(&s.given.to_le_bytes());
        let (eta, k) = part[11..].split_at_mut(8 * n);
        for (bytes, entries) in [(eta, &s.eta), (k, &s.k)] {
            bytes.chunks_exact_mut(8).zip(entries).for_each(|(eight, x)| eight.copy_from_slice(&x.to_le_bytes()));
        }
        at += part.len();
        rest = behind;
    }
    CountResult { number: 0, count: length }
}

/// Surfaces whose book is as long as one may be, and it: told apart by their roughness, or by the last entry of k alone.
pub fn longest(by_last_entry: bool) -> (Vec<BookSurface>, Vec<u8>) {
    let mut list = unlike(5, 18);
    if by_last_entry {
        for (i, s) in list.iter_mut().enumerate() {
            let pool = &POOLS[(i < 5) as usize];
            *s = surface(METAL, 0.5, &pool.etas[1], &pool.absorbing[1]);
            s.k[s.entries - 1] += i as f64;
        }
    }
    let book = write(&offered(&list), BOOK_MAX).expect("the longest book");
    (list, book)
}

/// What is timed answers as the second reading does.
pub fn assert_plain(seed: u64, count: usize) {
    let rng = &mut Rng(seed ^ 0xb00b);
    let noise = Noise::new(rng);
    for _ in 0..count {
        let book = book_at_random(rng);
        let must = read(&book);
        let mut memory: Vec<BookSurface> = noise.of(rng, 3);
        let mut after = memory.clone();
        for (place, s) in after.iter_mut().zip(must.as_deref().unwrap_or(&[]).iter().skip(1)) {
            *place = s.record();
        }
        assert!(plain_read(&book, 1, &mut memory) == judged(&must) && bytes_of(&memory) == bytes_of(&after), "the plain reader differs");
        let damages = rng.below(4);
        let list = list_at_random(rng, damages, true);
        let mut buffer: Vec<u8> = noise.of(rng, 5000);
        let must = write(&offered(&list), buffer.len());
        let mut after = buffer.clone();
        if let Ok(book) = &must {
            after[..book.len()].copy_from_slice(book);
        }
        assert!(plain_write(&list, &mut buffer) == judged(&must) && buffer == after, "the plain writer differs");
    }
}
