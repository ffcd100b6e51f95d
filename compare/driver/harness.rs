//! A function of ours beside the Rust's: words in, words out, compared in bits.
use super::inputs::{Inputs, Rng, Slot};
use super::judge::{self, Tables};
pub use super::rulvimba::Answer;
use crate::{Vec2, Vec3};
use std::cell::Cell;
pub use std::hint::black_box;
use std::marker::PhantomData;
use std::panic::{self, catch_unwind, take_hook, AssertUnwindSafe};
use std::slice::from_ref;
use std::time::Instant;

/// The one NaN that a word out may be.
pub const NAN: u64 = 0x7ff8000000000000;

/// A type as words.
pub trait Words: Copy {
    const SHAPE: &'static [Slot];
    fn get(w: &[f64]) -> Self;
    fn put(self, out: &mut [u64]);
}

/// The value of the first words.
pub fn get<T: Words>(w: &[f64]) -> T {
    T::get(w)
}

pub fn bits(x: f64) -> u64 {
    if x.is_nan() { NAN } else { x.to_bits() }
}

/// A value in memory, with words about it that no call may touch.
#[repr(C)]
pub struct Guarded<T> {
    before: [u64; 4],
    pub held: T,
    after: [u64; 4],
}

/// No byte of it is 0, so that a zero of any width that is written over it shows.
pub const GUARD: u64 = 0xfff4_5a5a_a5a5_c33c;

impl<T: Copy> Guarded<T> {
    pub fn new(held: T) -> Self {
        Self { before: [GUARD; 4], held, after: [GUARD; 4] }
    }

    /// Whether the words about it are as they were, and it too, bit by bit, if it must be.
    pub fn is_kept(&self, was: &T, it_too: bool) -> bool {
        let about = self.before == [GUARD; 4] && self.after == [GUARD; 4];
        about && (!it_too || same_bytes(&self.held, was))
    }
}

/// Values in a row, with words about them that no call may touch.
pub struct GuardedRow<T> {
    words: Vec<u64>,
    len: usize,
    of: PhantomData<T>,
}

impl<T: Copy> GuardedRow<T> {
    /// How many words stand before them, and how many bytes at least behind.
    const ABOUT: usize = 4;

    pub fn new(held: &[T]) -> Self {
        const { assert!(align_of::<T>() <= align_of::<u64>()) };
        let words = vec![GUARD; 2 * Self::ABOUT + size_of_val(held).div_ceil(8)];
        let mut row = Self { words, len: held.len(), of: PhantomData };
        row.held().copy_from_slice(held);
        row
    }

    pub fn held(&mut self) -> &mut [T] {
        unsafe { std::slice::from_raw_parts_mut(self.words[Self::ABOUT..].as_mut_ptr().cast(), self.len) }
    }

    /// Whether the words about them are as they were, and they are these, byte by byte.
    pub fn is(&self, must: &[T]) -> bool {
        let (before, rest) = bytes_of(&self.words).split_at(8 * Self::ABOUT);
        let (held, after) = rest.split_at(size_of::<T>() * self.len);
        let guard = |at: usize| GUARD.to_ne_bytes()[at % 8];
        let is_guard = |bytes: &[u8], from: usize| bytes.iter().enumerate().all(|(i, b)| *b == guard(from + i));
        held == bytes_of(must) && is_guard(before, 0) && is_guard(after, held.len())
    }
}

/// Of values without padding.
pub fn bytes_of<T: Copy>(values: &[T]) -> &[u8] {
    unsafe { std::slice::from_raw_parts(values.as_ptr().cast(), size_of_val(values)) }
}

/// Of values without padding.
pub fn same_bytes<T: Copy>(a: &T, b: &T) -> bool {
    bytes_of(from_ref(a)) == bytes_of(from_ref(b))
}

impl Words for f64 {
    const SHAPE: &'static [Slot] = &[Slot::Float];
    fn get(w: &[f64]) -> Self {
        w[0]
    }
    fn put(self, out: &mut [u64]) {
        out[0] = bits(self);
    }
}

impl Words for bool {
    const SHAPE: &'static [Slot] = &[Slot::Float];
    fn get(w: &[f64]) -> Self {
        w[0] != 0.0
    }
    fn put(self, out: &mut [u64]) {
        out[0] = self as u64;
    }
}

impl Words for u64 {
    const SHAPE: &'static [Slot] = &[Slot::Float];
    fn get(w: &[f64]) -> Self {
        w[0] as u64
    }
    fn put(self, out: &mut [u64]) {
        out[0] = self;
    }
}

impl Words for Vec2 {
    const SHAPE: &'static [Slot] = &[Slot::Float, Slot::Float];
    fn get(w: &[f64]) -> Self {
        Vec2::new(w[0], w[1])
    }
    fn put(self, out: &mut [u64]) {
        out.copy_from_slice(&[bits(self.x), bits(self.y)]);
    }
}

impl Words for Vec3 {
    const SHAPE: &'static [Slot] = &[Slot::Vector, Slot::Rest, Slot::Rest];
    fn get(w: &[f64]) -> Self {
        Vec3::new(w[0], w[1], w[2])
    }
    fn put(self, out: &mut [u64]) {
        out.copy_from_slice(&[bits(self.x), bits(self.y), bits(self.z)]);
    }
}

impl<T: Words> Words for Answer<T> {
    const SHAPE: &'static [Slot] = match T::SHAPE.len() {
        1 => &[Slot::Float; 2],
        3 => &[Slot::Float; 4],
        4 => &[Slot::Float; 5],
        _ => &[Slot::Float; 10],
    };
    fn get(_: &[f64]) -> Self {
        unreachable!()
    }
    fn put(self, out: &mut [u64]) {
        out[0] = self.number;
        self.value.put(&mut out[1..]);
    }
}

/// How a function is called: words in, words out. The Rust's may panic.
pub type Call = Box<dyn Fn(&[f64], &mut [u64])>;
/// ns for a call, over an array of inputs.
pub type Time = Box<dyn Fn(&[f64]) -> f64>;

pub struct Function {
    pub name: &'static str,
    /// The record's number in the sample.
    pub number: u32,
    /// The spectra of its inputs, where it takes any: they settle who judges.
    pub tables: Option<Tables>,
    pub shape: Vec<Slot>,
    pub outs: usize,
    pub here: Call,
    pub rust: Call,
    pub time_here: Option<Time>,
    pub time_rust: Option<Time>,
    /// Makes an input one that both sides take.
    pub fit: Option<fn(&mut [f64])>,
    /// A zero of one sign where the Rust has one of the other is no difference: Rust leaves it open.
    pub open_zero: bool,
    /// On which inputs that is so.
    pub open_at: fn(&[f64]) -> bool,
    /// Fills the input instead of `Inputs`.
    pub source: Option<fn(&mut Rng, usize, &mut [f64])>,
    /// What the benchmark calls it on.
    pub bench: fn(&mut Rng, &[Slot], &mut [f64]),
}

/// Well-scaled values, and near-unit vectors.
pub fn usual(rng: &mut Rng, shape: &[Slot], words: &mut [f64]) {
    let mut k = 0;
    while k < words.len() {
        if shape[k] == Slot::Vector {
            let v = [rng.between(-1.0, 1.0), rng.between(-1.0, 1.0), rng.between(-1.0, 1.0)];
            let l = (v[0] * v[0] + v[1] * v[1] + v[2] * v[2]).sqrt();
            words[k..k + 3].copy_from_slice(&[v[0] / l, v[1] / l, v[2] / l]);
            k += 3;
        } else {
            words[k] = rng.between(0.01, 2.0) * rng.sign();
            k += 1;
        }
    }
}

impl Function {
    /// With the usual inputs, and no benchmark.
    pub fn new(name: &'static str, number: u32, outs: usize, here: Call, rust: Call) -> Self {
        Self {
            name,
            number,
            tables: None,
            shape: vec![],
            outs,
            here,
            rust,
            time_here: None,
            time_rust: None,
            fit: None,
            open_zero: false,
            open_at: |_| true,
            source: None,
            bench: usual,
        }
    }

    pub fn ins(&self) -> usize {
        self.shape.len()
    }

    /// Otherwise the second reading judges.
    pub fn is_judged_by_rust(&self) -> bool {
        self.tables.is_none_or(Tables::are_judged_by_rust)
    }

    fn inputs(&self, seed: u64, count: usize) -> Inputs {
        // each function has its own
        let own = self.name.bytes().fold(seed, |h, b| (h ^ b as u64).wrapping_mul(0x100000001b3));
        Inputs::new(own, &self.shape, count)
    }

    fn fill(&self, inputs: &mut Inputs, i: usize, words: &mut [f64]) {
        match self.source {
            Some(source) => source(inputs.rng(), i, words),
            None => inputs.fill(words),
        }
        if let Some(fit) = self.fit {
            fit(words);
        }
    }

    /// Compares `count` inputs and prints a line; answers the number of differences.
    pub fn compare(&self, seed: u64, count: usize) -> usize {
        let mut inputs = self.inputs(seed, count);
        let mut words = vec![0.0; self.ins()];
        let (mut a, mut b) = (vec![0; self.outs], vec![0; self.outs]);
        let (mut differences, mut open) = (0, 0);
        let count = if self.ins() == 0 { 1 } else { count };
        for i in 0..count {
            self.fill(&mut inputs, i, &mut words);
            (self.here)(&words, &mut a);
            (self.rust)(&words, &mut b);
            if a == b {
                continue;
            }
            let zeros = |x: u64, y: u64| x == y || (x << 1 == 0 && y << 1 == 0);
            if self.open_zero && (self.open_at)(&words) && a.iter().zip(&b).all(|(x, y)| zeros(*x, *y)) {
                open += 1;
                continue;
            }
            differences += 1;
            if differences <= 3 {
                println!("  {}\n    in  {}\n    here  {}\n    judge {}", self.name, hex_floats(&words), hex(&a), hex(&b));
            }
        }
        let left_open = if open > 0 { format!(", {open} zeros whose sign Rust leaves open") } else { String::new() };
        println!("{:<44} {count:>9} inputs {differences:>6} differences from {}{left_open}", self.name, judge::name(self.tables));
        differences
    }

    /// Records for the replay: the number, the counts of words, the words in, the Rust's words out.
    pub fn sample(&self, seed: u64, count: usize, out: &mut String) {
        let mut inputs = self.inputs(seed, count);
        let mut words = vec![0.0; self.ins()];
        let mut answer = vec![0; self.outs];
        let count = if self.ins() == 0 { 1 } else { count };
        let mut kept = 0;
        let mut i = 0;
        while kept < count {
            self.fill(&mut inputs, i, &mut words);
            i += 1;
            (self.rust)(&words, &mut answer);
            if self.open_zero && (self.open_at)(&words) && answer.iter().any(|w| w << 1 == 0) {
                continue;
            }
            kept += 1;
            out.push_str(&format!("{:03} {:02} {:x}", self.number, self.ins(), self.outs));
            for w in &words {
                out.push_str(&format!(" {:016x}", bits(*w)));
            }
            for w in &answer {
                out.push_str(&format!(" {w:016x}"));
            }
            out.push('\n');
        }
    }

    /// The least ns of several passes, each over fresh data: here, then the Rust.
    pub fn times(&self, seed: u64, passes: usize, size: usize) -> Option<(f64, f64)> {
        let (here, rust) = (self.time_here.as_ref()?, self.time_rust.as_ref()?);
        if self.ins() == 0 {
            return None;
        }
        let mut rng = Rng(seed);
        let n = self.ins();
        let mut least = (f64::INFINITY, f64::INFINITY);
        for pass in 0..passes {
            let mut data = vec![0.0; n * size];
            for i in 0..size {
                let words = &mut data[i * n..(i + 1) * n];
                (self.bench)(&mut rng, &self.shape, words);
                if let Some(fit) = self.fit {
                    fit(words);
                }
            }
            if pass % 2 == 0 {
                least.0 = least.0.min(here(&data));
                least.1 = least.1.min(rust(&data));
            } else {
                least.1 = least.1.min(rust(&data));
                least.0 = least.0.min(here(&data));
            }
        }
        Some(least)
    }
}

thread_local! {
    static QUIET: Cell<bool> = const { Cell::new(false) };
}

/// Whether a call of the Rust's panics, which prints nothing.
pub fn panics<R>(call: impl FnOnce() -> R) -> bool {
    QUIET.set(true);
    let result = catch_unwind(AssertUnwindSafe(call));
    QUIET.set(false);
    result.is_err()
}

/// A call whose panics are caught within it and print nothing.
pub fn quiet<R>(call: impl FnOnce() -> R) -> R {
    QUIET.set(true);
    let result = call();
    QUIET.set(false);
    result
}

/// Has a panic that `panics` asks about print nothing.
pub fn set_hook() {
    let usual = take_hook();
    panic::set_hook(Box::new(move |info| {
        if !QUIET.get() {
            usual(info);
        }
    }));
}

pub fn hex(words: &[u64]) -> String {
    words.iter().map(|w| format!("{w:016x}")).collect::<Vec<_>>().join(" ")
}

pub fn hex_floats(words: &[f64]) -> String {
    words.iter().map(|w| format!("{:016x}", w.to_bits())).collect::<Vec<_>>().join(" ")
}

/// ns for each of `n`.
pub fn timed<R>(n: usize, run: impl FnOnce() -> R) -> f64 {
    let start = Instant::now();
    black_box(run());
    start.elapsed().as_nanos() as f64 / n as f64
}

/// Declares functions of the static library, and beside each the Rust's answer to the same
/// arguments: `NUMBER NAME(ARGUMENTS) -> RESULT = EXPRESSION;`. Both are called in the same way, by
/// C's calling convention through a pointer.
#[macro_export]
macro_rules! functions {
    ( $( $number:literal $name:ident ( $( $arg:ident : $ty:ty ),* ) -> $ret:ty = $body:expr ; )* ) => {
        mod here {
            use super::*;
            extern "C" {
                $( pub fn $name( $( $arg: $ty ),* ) -> $ret; )*
            }
        }

        mod rust {
            use super::*;
            $(
                #[inline(never)]
                pub extern "C-unwind" fn $name( $( $arg: $ty ),* ) -> $ret {
                    $body
                }
            )*
        }

        pub fn functions() -> Vec<Function> {
            vec![
                $( {
                    #[allow(unused_mut, unused_variables, unused_assignments)]
                    fn arguments(w: &[f64]) -> ( $( $ty, )* ) {
                        let mut at = 0;
                        ( $( {
                            let n = <$ty as Words>::SHAPE.len();
                            at += n;
                            <$ty as Words>::get(&w[at - n..at])
                        }, )* )
                    }
                    fn shape() -> Vec<Slot> {
                        let all: Vec<&[Slot]> = vec![ $( <$ty as Words>::SHAPE ),* ];
                        all.concat()
                    }
                    fn all(data: &[f64]) -> Vec<( $( $ty, )* )> {
                        match shape().len() {
                            0 => vec![],
                            n => data.chunks(n).map(arguments).collect(),
                        }
                    }
                    // the same loop for both, whose callee the compiler doesn't know
                    #[inline(never)]
                    fn time(data: &[f64], f: extern "C-unwind" fn( $( $ty ),* ) -> $ret) -> f64 {
                        let data = all(data);
                        let mut out: Vec<$ret> = Vec::with_capacity(data.len());
                        // the memory is at hand before the clock starts
                        unsafe { std::ptr::write_bytes(out.as_mut_ptr(), 0, data.len()) };
                        let f = black_box(f);
                        timed(data.len(), || {
                            for &( $( $arg, )* ) in &data {
                                out.push(f( $( $arg ),* ));
                            }
                            out
                        })
                    }
                    let here: Call = Box::new(|w, out| {
                        let ( $( $arg, )* ) = arguments(w);
                        unsafe { here::$name( $( $arg ),* ) }.put(out)
                    });
                    let rust: Call = Box::new(|w, out| {
                        let ( $( $arg, )* ) = arguments(w);
                        rust::$name( $( $arg ),* ).put(out)
                    });
                    Function {
                        shape: shape(),
                        time_here: Some(Box::new(|data| {
                            let f: unsafe extern "C" fn( $( $ty ),* ) -> $ret = here::$name;
                            time(data, unsafe { std::mem::transmute(f) })
                        })),
                        time_rust: Some(Box::new(|data| time(data, rust::$name))),
                        ..Function::new(stringify!($name), $number, <$ret as Words>::SHAPE.len(), here, rust)
                    }
                }, )*
            ]
        }
    };
}
