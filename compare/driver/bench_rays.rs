//! Times and memory of the program `rays` beside its Rust on the same jobs, from file to figures; then of
//! `rulvimba_bounces` beside the plain bounce, from array to array.
use super::harness::{bits, timed};
use super::inputs::Rng;
use super::job::{lines_apart, number, Held, PLAIN};
use super::library;
use super::optics::Color;
use super::path::{plain, usual_bounce, usual_path, words_in, Bounce, Path, INS, OUTS, REFLECTED};
use super::surfaces::Surface;
use crate::Vec3;
use std::fs::{self, File};
use std::io::{self, BufRead, BufReader, BufWriter, Write};
use std::os::unix::process::CommandExt;
use std::process::Command;
use std::time::Instant;

const EXAMPLE: &str = "examples/syringe.job";
const FOLDER: &str = "target/compare";
const RAYS: &str = "target/bin/rays";

/// A job's bounces, and how often both programs run on it.
const SIZES: [(usize, usize); 3] = [(1_000, 101), (100_000, 15), (10_000_000, 3)];
/// The surfaces of the example that a job's light meets: rim, needle and inner wall.
const MET: usize = 3;
/// The most bounces of a path.
const LONGEST: usize = 10;

// ---- jobs

/// Light among the example's surfaces: paths of a few bounces, each from where the one before led.
struct Light {
    rng: Rng,
    held: Held,
    started: usize,
    path: Option<(Path, Option<Vec3>, usize)>,
}

enum Step {
    Start(usize, Path),
    Bounce(usize, usize, Path, Bounce),
}

impl Light {
    /// The example's surfaces are made by its own lines, which are handed on.
    fn new(seed: u64, mut line: impl FnMut(&str)) -> Self {
        let mut held = Held::new(PLAIN);
        for text in fs::read_to_string(EXAMPLE).unwrap().lines().filter(|l| l.starts_with("surface")) {
            held.answer(text.as_bytes(), 1, &mut io::sink()).unwrap();
            line(text);
        }
        Self { rng: Rng(seed), held, started: 0, path: None }
    }

    fn surface(&self, which: usize) -> &Surface {
        &self.held.surfaces[which].as_ref().unwrap().of.surface
    }

    /// A bounce about any normal; light that comes from a bounce keeps its direction.
    fn bounce(&mut self, from: Option<Vec3>) -> Bounce {
        let mut b = usual_bounce(&mut self.rng);
        let filter = self.rng.between(0.8, 1.0);
        b.ks = Color([filter; 4]);
        b.tf = Color([1.0 - (1.0 - filter) / 2.0; 4]);
        if let Some(wo) = from {
            b.wo = wo;
            b.normal = if wo.dot(b.normal) < 0.0 { -b.normal } else { b.normal };
        }
        b
    }

    fn next(&mut self) -> Step {
        let i = self.started % 1024;
        let Some((p, from, n)) = self.path.take() else {
            let p = usual_path(&mut self.rng);
            self.path = Some((p, None, 0));
            return Step::Start(i, p);
        };
        let which = self.rng.below(MET);
        let b = self.bounce(from);
        let a = plain(p, self.surface(which), b);
        if a.case >= REFLECTED && n + 1 < LONGEST {
            self.path = Some((a.path, Some(-a.wi), n + 1));
        } else {
            self.started += 1;
        }
        Step::Bounce(i, which, p, b)
    }
}

/// Writes a job of so many bounces.
fn write_job(file: &str, seed: u64, bounces: usize) -> io::Result<()> {
    let mut out = BufWriter::with_capacity(1 << 16, File::create(file)?);
    let mut light = Light::new(seed, |line| writeln!(out, "{line}").unwrap());
    let mut written = 0;
    while written < bounces {
        match light.next() {
            Step::Start(i, p) => {
                write!(out, "start {i}")?;
                p.lambda.0.iter().try_for_each(|l| number(&mut out, *l))?;
            }
            Step::Bounce(i, which, p, b) => {
                let words = words_in(&p, &b);
                write!(out, "bounce {i} {which} {}", b.backface as u8)?;
                words[8..14].iter().chain(&words[15..]).try_for_each(|x| number(&mut out, *x))?;
                written += 1;
            }
        }
        out.write_all(b"\n")?;
    }
    out.flush()
}

// ---- a program's run

/// What `wait4` tells of a process: times as seconds and millionths, then the most memory in KB, then what isn't
/// read here.
#[repr(C)]
#[derive(Default)]
struct Usage {
    user: [i64; 2],
    system: [i64; 2],
    memory: i64,
    rest: [i64; 13],
}

extern "C" {
    fn wait4(pid: i32, status: *mut i32, options: i32, usage: *mut Usage) -> i32;
}

/// Seconds by the clock, of the processor, and the most memory in KB.
#[derive(Clone, Copy)]
struct Ran {
    clock: f64,
    processor: f64,
    memory: i64,
}

impl Ran {
    const NEVER: Ran = Ran { clock: f64::INFINITY, processor: f64::INFINITY, memory: 0 };

    /// The least times of two runs, and the most memory.
    fn with(self, other: Ran) -> Ran {
        Ran {
            clock: self.clock.min(other.clock),
            processor: self.processor.min(other.processor),
            memory: self.memory.max(other.memory),
        }
    }
}

/// Runs a program to its end, with its figures in a file.
fn ran(program: &str, words: &[&str], figures: &str) -> io::Result<Ran> {
    let mut command = Command::new(program);
    command.args(words).stdout(File::create(figures)?);
    // With a step before the program the child is a fork: else it would begin in this process's memory, and
    // that would count as its own.
    unsafe { command.pre_exec(|| Ok(())) };
    let start = Instant::now();
    let child = command.spawn()?;
    let (mut status, mut usage) = (0, Usage::default());
    let pid = unsafe { wait4(child.id() as i32, &mut status, 0, &mut usage) };
    let clock = start.elapsed().as_secs_f64();
    if pid < 0 || status != 0 {
        return Err(io::Error::other(format!("{program} ended with status {status}")));
    }
    let seconds = |t: [i64; 2]| t[0] as f64 + t[1] as f64 / 1e6;
    Ok(Ran { clock, processor: seconds(usage.user) + seconds(usage.system), memory: usage.memory })
}

/// Whether two files have the same bytes; where they are apart, the first line of that part is printed.
fn same_bytes(ours: &str, rust: &str) -> io::Result<bool> {
    let (mut a, mut b) = (BufReader::with_capacity(1 << 20, File::open(ours)?), BufReader::with_capacity(1 << 20, File::open(rust)?));
    loop {
        let (x, y) = (a.fill_buf()?, b.fill_buf()?);
        let n = x.len().min(y.len());
        if n == 0 {
            return Ok(x.len() == y.len());
        }
        if x[..n] != y[..n] {
            lines_apart(&x[..n], &y[..n]);
            return Ok(false);
        }
        a.consume(n);
        b.consume(n);
    }
}

/// Both programs on one job; whether their figures are the same.
fn bench_job(seed: u64, bounces: usize, runs: usize) -> io::Result<bool> {
    let [job, ours, rust] = ["job", "figures", "rust.figures"].map(|end| format!("{FOLDER}/bench.{end}"));
    write_job(&job, seed, bounces)?;
    let driver = std::env::current_exe()?;
    let driver = driver.to_str().unwrap();
    let mut least = [Ran::NEVER; 2];
    for run in 0..runs {
        for turn in 0..2 {
            // each is the first in every other run
            let which = (run + turn) % 2;
            let one = if which == 0 { ran(RAYS, &[&job], &ours)? } else { ran(driver, &["--rays", &job], &rust)? };
            least[which] = least[which].with(one);
        }
    }
    let same = same_bytes(&ours, &rust)?;
    print_job(bounces, runs, least, [fs::metadata(&job)?.len(), fs::metadata(&ours)?.len()], same);
    for file in [job, ours, rust] {
        fs::remove_file(file)?;
    }
    Ok(same)
}

fn print_job(bounces: usize, runs: usize, [ours, rust]: [Ran; 2], bytes: [u64; 2], same: bool) {
    let each = |seconds: f64| bounces as f64 / seconds;
    let size = |n: u64| if n < 10_000_000 { format!("{:.0} KB", n as f64 / 1e3) } else { format!("{:.0} MB", n as f64 / 1e6) };
    println!("a job of {bounces} bounces, {} in and {} out, the least of {runs} runs", size(bytes[0]), size(bytes[1]));
    let line = |name: &str, a: f64, b: f64, ratio: f64| println!("  {name:<34} {a:>12.0} {b:>12.0} {ratio:>6.2}");
    line("bounces a second, by the clock", each(ours.clock), each(rust.clock), ours.clock / rust.clock);
    line("bounces a second of processor time", each(ours.processor), each(rust.processor), ours.processor / rust.processor);
    line("memory, KB", ours.memory as f64, rust.memory as f64, ours.memory as f64 / rust.memory as f64);
    println!("  figures: {}", if same { "the same bytes" } else { "they differ" });
}

// ---- in memory

const PASSES: usize = 61;
const ROWS: usize = 4096;

/// The path and the bounce of a row.
fn row(w: &[f64]) -> (Path, Bounce) {
    let four = |i: usize| Color([w[i], w[i + 1], w[i + 2], w[i + 3]]);
    let three = |i: usize| Vec3::new(w[i], w[i + 1], w[i + 2]);
    let b = Bounce {
        wo: three(8),
        normal: three(11),
        backface: w[14] != 0.0,
        u: w[15],
        disk: w[16],
        c: w[17],
        s: w[18],
        ks: four(19),
        tf: four(23),
    };
    (Path { lambda: four(0), power: four(4) }, b)
}

/// `rulvimba_bounces` as one writes it in Rust.
#[inline(never)]
fn plain_bounces(s: &Surface, input: &[f64], output: &mut [f64]) {
    for (w, out) in input.chunks_exact(INS).zip(output.chunks_exact_mut(OUTS)) {
        let (p, b) = row(w);
        out.copy_from_slice(&library::output_of(&plain(p, s, b)));
    }
}

/// Rows of the light's bounces on each surface.
fn rows(light: &mut Light) -> [Vec<f64>; MET] {
    let mut all: [Vec<f64>; MET] = Default::default();
    while all.iter().any(|rows| rows.len() < ROWS * INS) {
        if let Step::Bounce(_, which, p, b) = light.next() {
            if all[which].len() < ROWS * INS {
                all[which].extend(words_in(&p, &b));
            }
        }
    }
    all
}

/// ns for each bounce of arrays, the least of several passes over fresh ones; whether the answers are the same.
fn bench_memory(seed: u64) -> bool {
    println!("in memory, {ROWS} bounces to an array, the least of {PASSES} passes");
    let mut light = Light::new(seed, |_| ());
    let mut least = [[f64::INFINITY; 2]; MET];
    let mut same = true;
    for pass in 0..PASSES {
        for (which, input) in rows(&mut light).iter().enumerate() {
            let s = light.surface(which);
            let mut outputs = [vec![0.5; ROWS * OUTS], vec![0.5; ROWS * OUTS]];
            for turn in 0..2 {
                let who = (pass + turn) % 2;
                let output = &mut outputs[who];
                let ns = timed(ROWS, || if who == 0 { library::run_bounces(s, input, output) } else { plain_bounces(s, input, output) });
                least[which][who] = least[which][who].min(ns);
            }
            same &= outputs[0].iter().zip(&outputs[1]).all(|(x, y)| bits(*x) == bits(*y));
        }
    }
    let names = ["rim, rough glass, varying eta", "needle, rough metal", "inner wall, delta glass against water"];
    let line = |name: &str, [a, b]: [f64; 2]| println!("  {name:<34} {:>12.0} {:>12.0} {:>6.2}", 1e9 / a, 1e9 / b, a / b);
    for (name, times) in names.iter().zip(least) {
        line(name, times);
    }
    let mean = |who: usize| least.iter().map(|times| times[who]).sum::<f64>() / MET as f64;
    line("the three in equal parts", [mean(0), mean(1)]);
    println!("  answers: {}", if same { "the same bits" } else { "they differ" });
    same
}

/// The whole benchmark; answers whether both sides gave the same.
pub fn bench(seed: u64) -> bool {
    println!("{:<36} {:>12} {:>12} {:>6}", "", "rays", "Rust", "ratio");
    let mut same = true;
    for (bounces, runs) in SIZES {
        same &= bench_job(seed, bounces, runs).unwrap();
    }
    println!("{:<36} {:>12} {:>12} {:>6}", "bounces a second", "rulvimba", "Rust", "ratio");
    bench_memory(seed) && same
}
