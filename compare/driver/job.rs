//! `rays` in Rust: a job in, figures out (docs/RAYS.md has the format). It streams as `rays` does, and holds
//! nothing but the surfaces, the paths and the candidates. The bounce is a parameter: the driver's own answer, or the plain one.
use super::book;
use super::harness::bits;
use super::optics::{density, make_surface, Color, Fields};
use super::path::{plain, rust, rust_start, Bounce, Bounced, Lumo, Path, LOST, REFLECTED, REFUSED};
use super::rulvimba::GLASS;
use super::spectra::SAMPLES;
use super::surfaces::{is_length, Surface};
use crate::{Vec2, Vec3};
use std::fs::File;
use std::io::{self, BufRead, BufReader, BufWriter, Read, Write};

/// What answers a bounce.
pub type Answer = fn(&Path, &Lumo, &Bounce) -> Bounced;

/// lumo's functions and document 01, as the comparison has them: the sampler runs twice.
pub const OWN: Answer = rust;
/// The bounce that the benchmark times.
pub const PLAIN: Answer = |p, of, b| plain(*p, &of.surface, *b);

const SURFACES: usize = 64;
const PATHS: usize = 1024;
const CANDIDATES: usize = 64;
const LINE_MAX: usize = 32768;
const OUTER: &[u8] = b"outer";
const TWO_SIDED: &[u8] = b"two-sided";

/// What is wrong with a number.
const NUMBER: &str =
    "a number is the 16 hexadecimal digits of its bits; a decimal is turned into them by rays-csv to-job";

// ---- the words of a line

/// What is wrong with a line, and the number of the word.
pub struct Fault {
    word: usize,
    what: &'static str,
}

type Reading<T> = Result<T, Fault>;

struct Line<'a> {
    rest: &'a [u8],
    words: usize,
}

fn is_blank(b: u8) -> bool {
    matches!(b, b' ' | b'\t' | b'\r')
}

/// The value of each hexadecimal digit, and 16 for any other byte.
const DIGITS: [u8; 256] = {
    let mut all = [16; 256];
    let mut d = 0;
    while d < 16 {
        all[b"0123456789abcdef"[d] as usize] = d as u8;
        all[b"0123456789ABCDEF"[d] as usize] = d as u8;
        d += 1;
    }
    all
};

fn hex(word: &[u8]) -> Option<u64> {
    let mut value = 0;
    for b in <&[u8; 16]>::try_from(word).ok()? {
        let digit = DIGITS[*b as usize];
        if digit > 15 {
            return None;
        }
        value = value << 4 | digit as u64;
    }
    Some(value)
}

/// At most so many decimal digits.
fn decimal(word: &[u8], most: usize) -> Option<usize> {
    if word.len() > most || !word.iter().all(u8::is_ascii_digit) {
        return None;
    }
    Some(word.iter().fold(0, |n, d| n * 10 + (d - b'0') as usize))
}

impl<'a> Line<'a> {
    /// The next word, which isn't passed; none at the line's end or a comment.
    fn peek(&mut self) -> Option<&'a [u8]> {
        let from = self.rest.iter().position(|b| !is_blank(*b)).unwrap_or(self.rest.len());
        self.rest = &self.rest[from..];
        if matches!(self.rest.first(), None | Some(b'#')) {
            return None;
        }
        let end = self.rest.iter().position(|b| is_blank(*b)).unwrap_or(self.rest.len());
        Some(&self.rest[..end])
    }

    fn next(&mut self) -> Option<&'a [u8]> {
        let word = self.peek();
        self.words += 1;
        self.rest = &self.rest[word.map_or(0, <[u8]>::len)..];
        word
    }

    fn wrong<T>(&self, what: &'static str) -> Reading<T> {
        Err(Fault { word: self.words, what })
    }

    fn word(&mut self) -> Reading<&'a [u8]> {
        match self.next() {
            Some(word) => Ok(word),
            None => self.wrong("the line ends too soon"),
        }
    }

    fn keyword(&mut self, name: &[u8], what: &'static str) -> Reading<()> {
        if self.word()? == name { Ok(()) } else { self.wrong(what) }
    }

    fn index(&mut self, limit: usize, what: &'static str) -> Reading<usize> {
        match decimal(self.word()?, 4) {
            Some(i) if i < limit => Ok(i),
            _ => self.wrong(what),
        }
    }

    fn id(&mut self) -> Reading<u16> {
        match decimal(self.word()?, 5).and_then(|id| id.try_into().ok()) {
            Some(id) => Ok(id),
            None => self.wrong("an id is from 0 to 65535"),
        }
    }

    fn surface(&mut self) -> Reading<usize> {
        self.index(SURFACES, "a surface's index is from 0 to 63")
    }

    fn path(&mut self) -> Reading<usize> {
        self.index(PATHS, "a path's index is from 0 to 1023")
    }

    fn flag(&mut self) -> Reading<bool> {
        Ok(self.index(2, "a flag is 0 or 1")? == 1)
    }

    fn is_glass(&mut self) -> Reading<bool> {
        match self.word()? {
            b"metal" => Ok(false),
            b"glass" => Ok(true),
            _ => self.wrong("a kind is metal or glass"),
        }
    }

    /// Whether the next word is the name, which is then passed.
    fn optional(&mut self, name: &[u8]) -> bool {
        self.peek() == Some(name) && self.next().is_some()
    }

    fn number(&mut self) -> Reading<f64> {
        match hex(self.word()?) {
            Some(bits) => Ok(f64::from_bits(bits)),
            None => self.wrong(NUMBER),
        }
    }

    fn numbers<const N: usize>(&mut self) -> Reading<[f64; N]> {
        let mut all = [0.0; N];
        for x in &mut all {
            *x = self.number()?;
        }
        Ok(all)
    }

    fn vec3(&mut self) -> Reading<Vec3> {
        let [x, y, z] = self.numbers()?;
        Ok(Vec3::new(x, y, z))
    }

    /// The entries of a spectrum, which ends before a word of one letter and before the word `outer`.
    fn entries(&mut self) -> Reading<Vec<f64>> {
        let mut all = vec![];
        while self.peek().is_some_and(|word| word.len() > 1 && word != OUTER) {
            all.push(self.number()?);
        }
        Ok(all)
    }

    /// Those of the outer spectrum, which is air's where the line has none.
    fn outer(&mut self) -> Reading<Vec<f64>> {
        if self.optional(OUTER) { self.entries() } else { Ok(vec![1.0]) }
    }

    fn end(&mut self) -> Reading<()> {
        if self.next().is_none() { Ok(()) } else { self.wrong("the line goes on") }
    }
}

// ---- figures

/// A blank and the number.
pub fn number(out: &mut impl Write, x: f64) -> io::Result<()> {
    let bits = bits(x);
    let mut text = [b' '; 17];
    for (i, digit) in text[1..].iter_mut().enumerate() {
        *digit = b"0123456789abcdef"[(bits >> (60 - 4 * i)) as usize & 15];
    }
    out.write_all(&text)
}

/// A label and its numbers.
fn labelled(out: &mut impl Write, label: &[u8], values: &[f64]) -> io::Result<()> {
    out.write_all(label)?;
    values.iter().try_for_each(|x| number(out, *x))
}

/// What a line was answered by, of which there is a count at the figures' end.
pub enum Outcome {
    Nothing,
    Answer,
    Refusal,
    Error,
}

type Written = io::Result<Outcome>;

fn refused(out: &mut impl Write, number: u64) -> Written {
    writeln!(out, " refused {number}")?;
    Ok(Outcome::Refusal)
}

fn answered(out: &mut impl Write, text: &[u8]) -> Written {
    out.write_all(text)?;
    Ok(Outcome::Answer)
}

/// What a density at the leading wavelength is, as `rays` marks it: light that is scattered into one
/// direction has a probability.
fn measure(of: &Surface, leading: f64) -> &'static [u8] {
    if of.judged(|judge| judge.one_direction(leading)) { b" probability" } else { b" per-sr" }
}

fn figures(out: &mut impl Write, a: &Bounced, of: &Surface) -> Written {
    match a.case {
        REFUSED => return refused(out, a.number),
        LOST => out.write_all(b" lost")?,
        case => {
            out.write_all(if case == REFLECTED { b" reflected" } else { b" passed" })?;
            labelled(out, b" wi", &[a.wi.x, a.wi.y, a.wi.z])?;
            if a.density.finite {
                labelled(out, b" density", &[a.density.value])?;
                out.write_all(measure(of, a.path.lambda.0[0]))?;
            } else {
                out.write_all(b" density not finite")?;
            }
        }
    }
    if a.shares.there {
        labelled(out, b" shares", &[a.shares.reflected, a.shares.passed])?;
    } else {
        out.write_all(b" shares none")?;
    }
    labelled(out, b" lambda", &a.path.lambda.0)?;
    labelled(out, b" power", &a.path.power.0)?;
    answered(out, b"\n")
}

// ---- candidates, from document 02, (ii)

/// A candidate direction.
#[derive(Clone, Copy)]
struct Candidate {
    id: u16,
    density: f64,
}

/// The candidates that are present, in the order in which they arrived.
struct Present(Vec<Candidate>);

impl Present {
    fn has(&self, id: u16) -> bool {
        self.0.iter().any(|c| c.id == id)
    }

    /// The number that an arrival is refused with, or 0.
    fn arrive(&mut self, c: Candidate) -> u64 {
        if !c.density.is_finite() || c.density < 0.0 {
            return 9;
        }
        if self.0.len() == CANDIDATES {
            return 11;
        }
        if self.has(c.id) {
            return 12;
        }
        self.0.push(c);
        0
    }

    /// The number that a departure is refused with, or 0.
    fn depart(&mut self, id: u16) -> u64 {
        if !self.has(id) {
            return 12;
        }
        self.0.retain(|c| c.id != id);
        0
    }

    /// Greatest density first. The sort is stable, so that equal densities stand in the order of arrival.
    fn listed(&self) -> Vec<Candidate> {
        let mut all = self.0.clone();
        all.sort_by(|a, b| b.density.partial_cmp(&a.density).unwrap());
        all
    }
}

// ---- surfaces, and books of them, from document 02, (vi)

/// A surface that was made. Two-sided metal ignores a bounce's backface flag, and nothing else asks.
pub struct Made {
    pub of: Lumo,
    two_sided: bool,
}

impl Made {
    fn of_book(s: &book::Plain) -> Self {
        let [x, y] = s.roughness;
        let of = Lumo::new(s.kind == GLASS, Vec2 { x, y }, &s.eta, &s.k, &s.outer);
        Self { of, two_sided: s.two_sided }
    }

    fn backface(&self, flag: bool) -> bool {
        flag && !(self.two_sided && !self.of.surface.glass)
    }
}

/// A file's bytes, the first of one that is too long for a book. None where it can't be read.
fn file(name: &[u8]) -> Option<Vec<u8>> {
    let file = File::open(std::str::from_utf8(name).ok()?).ok()?;
    let mut bytes = vec![];
    file.take(book::BOOK_MAX as u64 + 1).read_to_end(&mut bytes).ok()?;
    Some(bytes)
}

// ---- commands

/// What a job holds.
pub struct Held {
    answer: Answer,
    pub surfaces: Vec<Option<Made>>,
    paths: Vec<Option<Path>>,
    present: Present,
}

impl Held {
    pub fn new(answer: Answer) -> Self {
        let surfaces = (0..SURFACES).map(|_| None).collect();
        Self { answer, surfaces, paths: vec![None; PATHS], present: Present(vec![]) }
    }

    fn surface(&mut self, line: &mut Line, out: &mut impl Write) -> Reading<Written> {
        let i = line.surface()?;
        let glass = line.is_glass()?;
        let two_sided = line.optional(TWO_SIDED);
        let roughness = line.number()?;
        line.keyword(b"eta", "the word eta is missing")?;
        let eta = line.entries()?;
        line.keyword(b"k", "the word k is missing")?;
        let k = line.entries()?;
        let outer = line.outer()?;
        line.end()?;
        // metal has none, whatever its line says
        let outer = if glass { outer } else { vec![] };
        let n = spacing(&[&eta, &k, &outer]);
        let [eta, k, outer] = [eta, k, outer].map(|entries| spread(entries, n));
        let made = make_surface(&Fields { kind: glass as u64, a: Vec2::splat(roughness), eta: &eta, k: &k, outer: &outer });
        if made.number == 0 {
            self.surfaces[i] = Some(Made { of: Lumo::new(glass, made.value, &eta, &k, &outer), two_sided });
        }
        Ok(write!(out, " surface {i}").and_then(|_| ok_or_refused(out, made.number)))
    }

    fn book(&mut self, line: &mut Line, out: &mut impl Write) -> Reading<Written> {
        let i = line.surface()?;
        let name = line.word()?;
        line.end()?;
        let Some(bytes) = file(name) else { return Err(Fault { word: 3, what: "the file cannot be read" }) };
        let surfaces = match book::read(&bytes) {
            Ok(surfaces) => surfaces,
            Err(number) => return Ok(write!(out, " book {i}").and_then(|_| refused(out, number))),
        };
        let Some(places) = self.surfaces.get_mut(i..i + surfaces.len()) else {
            return Err(Fault { word: 2, what: "the book's surfaces go past the last place" });
        };
        for (place, s) in places.iter_mut().zip(&surfaces) {
            *place = Some(Made::of_book(s));
        }
        Ok(answered(out, format!(" book {i} ok {}\n", surfaces.len()).as_bytes()))
    }

    fn start(&mut self, line: &mut Line, out: &mut impl Write) -> Reading<Written> {
        let i = line.path()?;
        let lambda = Color(line.numbers()?);
        line.end()?;
        let started = rust_start(lambda);
        if started.is_some() {
            self.paths[i] = started;
        }
        Ok(write!(out, " start {i}").and_then(|_| ok_or_refused(out, if started.is_some() { 0 } else { 4 })))
    }

    fn bounce(&mut self, line: &mut Line, out: &mut impl Write) -> Reading<Written> {
        let (i, which) = (line.path()?, line.surface()?);
        let backface = line.flag()?;
        let (wo, normal) = (line.vec3()?, line.vec3()?);
        let [u, disk, c, s] = line.numbers()?;
        let (ks, tf) = (Color(line.numbers()?), Color(line.numbers()?));
        line.end()?;
        let Some(path) = &mut self.paths[i] else { return Err(Fault { word: 2, what: "the path is not started" }) };
        let Some(made) = &self.surfaces[which] else { return Err(Fault { word: 3, what: "the surface is not made" }) };
        let b = Bounce { wo, normal, backface: made.backface(backface), u, disk, c, s, ks, tf };
        let a = (self.answer)(path, &made.of, &b);
        *path = a.path;
        Ok(write!(out, " bounce {i}").and_then(|_| figures(out, &a, &made.of.surface)))
    }

    fn density(&mut self, line: &mut Line, out: &mut impl Write) -> Reading<Written> {
        let i = line.surface()?;
        let reflection = line.flag()?;
        let (wo, wi) = (line.vec3()?, line.vec3()?);
        let lambda = line.number()?;
        line.end()?;
        let Some(made) = &self.surfaces[i] else { return Err(Fault { word: 2, what: "the surface is not made" }) };
        let of = &made.of.surface;
        let a = of.judged(|judge| density(judge, wo, wi, reflection, lambda));
        Ok(match a.number {
            0 => labelled(out, format!(" density {i}").as_bytes(), &[a.value])
                .and_then(|_| out.write_all(measure(of, lambda)))
                .and_then(|_| answered(out, b"\n")),
            n => write!(out, " density {i}").and_then(|_| refused(out, n)),
        })
    }

    fn arrive(&mut self, line: &mut Line, out: &mut impl Write) -> Reading<Written> {
        let c = Candidate { id: line.id()?, density: line.number()? };
        line.end()?;
        let number = self.present.arrive(c);
        Ok(write!(out, " arrive {}", c.id).and_then(|_| ok_or_refused(out, number)))
    }

    fn depart(&mut self, line: &mut Line, out: &mut impl Write) -> Reading<Written> {
        let id = line.id()?;
        line.end()?;
        let number = self.present.depart(id);
        Ok(write!(out, " depart {id}").and_then(|_| ok_or_refused(out, number)))
    }

    fn list(&self, line: &mut Line, out: &mut impl Write) -> Reading<Written> {
        line.end()?;
        let all = self.present.listed();
        Ok(write!(out, " list {}", all.len())
            .and_then(|_| all.iter().try_for_each(|c| labelled(out, format!(" {}", c.id).as_bytes(), &[c.density])))
            .and_then(|_| answered(out, b"\n")))
    }

    /// Answers a line, without its line feed.
    pub fn answer(&mut self, text: &[u8], at: usize, out: &mut impl Write) -> Written {
        let mut line = Line { rest: text, words: 0 };
        let Some(command) = line.next() else { return Ok(Outcome::Nothing) };
        write!(out, "{at}")?;
        let answered = match command {
            b"bounce" => self.bounce(&mut line, out),
            b"density" => self.density(&mut line, out),
            b"start" => self.start(&mut line, out),
            b"surface" => self.surface(&mut line, out),
            b"book" => self.book(&mut line, out),
            b"arrive" => self.arrive(&mut line, out),
            b"depart" => self.depart(&mut line, out),
            b"list" => self.list(&mut line, out),
            _ => line.wrong("unknown command"),
        };
        answered.unwrap_or_else(|fault| {
            writeln!(out, " error word {}: {}", fault.word, fault.what)?;
            Ok(Outcome::Error)
        })
    }
}

/// How many entries a lone one counts as: as many as the first of the spectra that is a table, and else 95.
fn spacing(spectra: &[&[f64]]) -> usize {
    spectra.iter().map(|s| s.len()).find(|n| is_length(*n)).unwrap_or(SAMPLES)
}

/// A spectrum's entries, where a lone one counts as `n`.
fn spread(entries: Vec<f64>, n: usize) -> Vec<f64> {
    match entries[..] {
        [lone] => vec![lone; n],
        _ => entries,
    }
}

fn ok_or_refused(out: &mut impl Write, number: u64) -> Written {
    if number == 0 { answered(out, b" ok\n") } else { refused(out, number) }
}

/// Reads a job to its end and writes its figures, what is read before more is waited for.
pub fn run(job: impl Read, figures: impl Write, answer: Answer) -> io::Result<()> {
    let mut job = BufReader::with_capacity(1 << 16, job);
    let mut out = BufWriter::with_capacity(1 << 16, figures);
    let mut held = Held::new(answer);
    let mut text = vec![];
    let (mut answers, mut refusals, mut errors) = (0, 0, 0);
    for at in 1.. {
        if !job.buffer().contains(&b'\n') {
            out.flush()?;
        }
        text.clear();
        if job.by_ref().take(LINE_MAX as u64 + 1).read_until(b'\n', &mut text)? == 0 {
            break;
        }
        if text.last() == Some(&b'\n') {
            text.pop();
        }
        let outcome = if text.len() > LINE_MAX {
            writeln!(out, "{at} error line: a line is at most {LINE_MAX} bytes")?;
            job.skip_until(b'\n')?;
            Outcome::Error
        } else {
            held.answer(&text, at, &mut out)?
        };
        match outcome {
            Outcome::Nothing => {}
            Outcome::Answer => answers += 1,
            Outcome::Refusal => refusals += 1,
            Outcome::Error => errors += 1,
        }
    }
    writeln!(out, "end {answers} answers {refusals} refusals {errors} errors")?;
    out.flush()
}

/// The Rust's program beside `rays`: a job from a file or from standard input.
pub fn program(file: Option<String>, answer: Answer) {
    let out = io::stdout().lock();
    let done = match file {
        Some(file) => File::open(file).and_then(|job| run(job, out, answer)),
        None => run(io::stdin().lock(), out, answer),
    };
    if let Err(why) = done {
        eprintln!("driver: {why}");
        std::process::exit(1);
    }
}

// ---- the example's figures

const JOB: &str = "examples/syringe.job";
const FIGURES: &str = "examples/syringe.figures";

/// The example's figures in the Rust, byte by byte beside those in the repository; answers the number of
/// lines that differ.
pub fn compare_example() -> usize {
    let job = std::fs::read(JOB).unwrap();
    let expected = std::fs::read(FIGURES).unwrap();
    let mut differences = 0;
    for (name, answer) in [("the driver's own bounce", OWN), ("the plain bounce", PLAIN)] {
        let mut figures = vec![];
        run(&job[..], &mut figures, answer).unwrap();
        let wrong = lines_apart(&expected, &figures);
        println!("{FIGURES}, {name}: {} bytes, {wrong} lines differ", figures.len());
        differences += wrong;
    }
    differences
}

/// How many lines of two texts differ; the first is printed.
pub fn lines_apart(ours: &[u8], rust: &[u8]) -> usize {
    if ours == rust {
        return 0;
    }
    let (ours, rust): (Vec<_>, Vec<_>) = (ours.split(|b| *b == b'\n').collect(), rust.split(|b| *b == b'\n').collect());
    let none: &[u8] = b"";
    let at = |lines: &[&[u8]], i: usize| String::from_utf8_lossy(lines.get(i).copied().unwrap_or(none)).into_owned();
    let apart: Vec<usize> = (0..ours.len().max(rust.len())).filter(|i| ours.get(*i) != rust.get(*i)).collect();
    println!("  line {}\n    here {}\n    rust {}", apart[0] + 1, at(&ours, apart[0]), at(&rust, apart[0]));
    apart.len()
}
