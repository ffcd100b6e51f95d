//! The square root against a second implementation: an exact test, in whole numbers, that a result is
//! the double nearest to the root. Its digits by themselves have the same inputs: through the root only
//! subnormals, zeros and what has no root reach them.
use super::harness::bits;
use super::inputs::{beside, edges, subnormal, Rng};

extern "C" {
    fn numbers_sqrt(x: f64) -> f64;
    pub fn numbers_sqrt_by_digits(x: f64) -> f64;
}

/// A finite value above 0 as m * 2^e.
fn digits(x: f64) -> (u128, i32) {
    let b = x.to_bits();
    let (f, t) = ((b >> 52) as i32, (b & 0x000fffffffffffff) as u128);
    if f == 0 { (t, -1074) } else { (t + (1 << 52), f - 1075) }
}

/// Whether r is the root of x, correctly rounded.
///
/// With r = q * 2^f and N = x / 4^f, a whole number, r is nearest where (2q - 1)^2 < 4N < (2q + 1)^2:
/// a root is never halfway between two doubles. Below a power of two, q = 2^52, the doubles lie twice
/// as close, and (4q - 1)^2 < 16N is asked.
pub fn is_root(x: f64, r: f64) -> bool {
    if x.is_nan() || x < 0.0 {
        return r.is_nan();
    }
    if x == 0.0 || x.is_infinite() {
        return r.to_bits() == x.to_bits();
    }
    if !(r > 0.0 && r.is_finite()) {
        return false;
    }
    let (m, e) = digits(x);
    let (q, f) = digits(r);
    let shift = e - 2 * f;
    // q has 53 digits, and so N at most 106
    if q >> 52 != 1 || !(0..=104).contains(&shift) || m >> (106 - shift).max(0) != 0 {
        return false;
    }
    let n = m << shift;
    let above = if q == 1 << 52 { (4 * q - 1) * (4 * q - 1) < 16 * n } else { (2 * q - 1) * (2 * q - 1) < 4 * n };
    above && 4 * n < (2 * q + 1) * (2 * q + 1)
}

/// A double near the square of a double, or of the middle between two: where rounding is hardest.
fn hard(rng: &mut Rng) -> f64 {
    let q = (rng.next() >> 11 | 1 << 52) as u128;
    let square = match rng.below(3) {
        0 => 4 * q * q,
        1 => (2 * q + 1) * (2 * q + 1),
        _ => 4 * q * q + 4 * q,
    };
    let cut = 128 - square.leading_zeros() - 53;
    let aside = rng.below(5) as i64 - 2;
    let digits = ((square >> cut) as i64 + aside) as f64;
    let exponent = rng.below(900) as i32 * 2 - 900 + (cut as i32 & 1);
    digits * 2f64.powi(exponent)
}

fn at_random(rng: &mut Rng, i: usize) -> f64 {
    match i % 4 {
        0 => hard(rng),
        1 => subnormal(rng),
        2 => f64::from_bits(rng.next() & !(1 << 63)),
        _ => rng.between(0.0, 4.0),
    }
}

// ---- values that every run has

/// Of the whole numbers with j + 1 binary digits the two least, one in the middle and the two largest;
/// with one digit there is only 1, and 0 and 2 come along.
fn of_length(j: u32) -> [u64; 5] {
    let least = 1 << j;
    [least, least + 1, least + least / 2, 2 * least - 2, 2 * least - 1]
}

/// The power of two of every exponent, odd and even, of subnormals first.
fn powers_of_two() -> impl Iterator<Item = f64> {
    let subnormals = (0..52).map(|j| 1 << j);
    let normal = (1..2047).map(|f| f << 52);
    subnormals.chain(normal).map(f64::from_bits)
}

/// Squares of values of every length and size, as far as the format has them, rounded if need be. Where the bits
/// taken so far are a square, a digit tested by `<` in the place of `<=` is wrong. The double above an exact square
/// shows it; behind the square itself only zeros follow, and the rounding mends it.
fn squares() -> impl Iterator<Item = f64> {
    let of_one = |q: u64| powers_of_two().map(move |p| q as f64 * p);
    let roots = (0..53).flat_map(of_length).flat_map(of_one);
    roots.map(|r| r * r).filter(|x| *x > 0.0 && x.is_finite())
}

/// The edges, subnormals of every length, and powers of two and squares with the doubles beside them.
fn fixed() -> Vec<f64> {
    let mut all = edges();
    all.extend((0..52).flat_map(of_length).map(f64::from_bits));
    all.extend(powers_of_two().chain(squares()).flat_map(beside));
    all
}

// ---- the comparison

/// A way to the root, and on how many inputs it was wrong.
struct Subject {
    name: &'static str,
    root: fn(f64) -> f64,
    differences: usize,
}

impl Subject {
    fn new(name: &'static str, root: fn(f64) -> f64) -> Self {
        Self { name, root, differences: 0 }
    }

    /// Its answer is to pass the exact test and to be the machine's.
    fn compare(&mut self, x: f64) {
        let r = (self.root)(x);
        if is_root(x, r) && bits(r) == bits(x.sqrt()) {
            return;
        }
        self.differences += 1;
        if self.differences <= 3 {
            println!("  {} of {:016x}: {:016x}, rust {:016x}", self.name, x.to_bits(), bits(r), bits(x.sqrt()));
        }
    }
}

/// Our root, its digits by themselves and the machine's root, on the fixed values and on `count` at random.
pub fn compare(seed: u64, count: usize) -> usize {
    let mut subjects = [
        Subject::new("numbers_sqrt", |x| unsafe { numbers_sqrt(x) }),
        Subject::new("numbers_sqrt_by_digits", |x| unsafe { numbers_sqrt_by_digits(x) }),
        Subject::new("the machine's root", f64::sqrt),
    ];
    let mut rng = Rng(seed);
    let fixed = fixed();
    let inputs = fixed.len() + count;
    let random = (0..count).map(|i| at_random(&mut rng, i));
    for x in fixed.into_iter().chain(random) {
        subjects.iter_mut().for_each(|s| s.compare(x));
    }
    for s in &subjects {
        println!("{:<44} {inputs:>9} inputs {:>6} differences", format!("{}, exact test", s.name), s.differences);
    }
    subjects.iter().map(|s| s.differences).sum()
}
