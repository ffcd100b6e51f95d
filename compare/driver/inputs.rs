//! Inputs: the edges of the format and of document 01's limits first, then values at random.

/// Vigna's splitmix64.
#[derive(Clone)]
pub struct Rng(pub u64);

impl Rng {
    pub fn next(&mut self) -> u64 {
        self.0 = self.0.wrapping_add(0x9e3779b97f4a7c15);
        let z = (self.0 ^ (self.0 >> 30)).wrapping_mul(0xbf58476d1ce4e5b9);
        let z = (z ^ (z >> 27)).wrapping_mul(0x94d049bb133111eb);
        z ^ (z >> 31)
    }

    pub fn below(&mut self, n: usize) -> usize {
        (((self.next() >> 32) * n as u64) >> 32) as usize
    }

    /// From 0 to below 1.
    pub fn unit(&mut self) -> f64 {
        (self.next() >> 11) as f64 / (1u64 << 53) as f64
    }

    pub fn between(&mut self, lo: f64, hi: f64) -> f64 {
        lo + (hi - lo) * self.unit()
    }

    pub fn sign(&mut self) -> f64 {
        if self.next() >> 63 == 0 { 1.0 } else { -1.0 }
    }
}

/// x and the doubles beside it.
pub fn beside(x: f64) -> [f64; 3] {
    [x.next_down(), x, x.next_up()]
}

/// A subnormal above 0, of any length.
pub fn subnormal(rng: &mut Rng) -> f64 {
    f64::from_bits((rng.next() >> (12 + rng.below(52))).max(1))
}

fn both_signs(values: Vec<f64>) -> Vec<f64> {
    let mut all: Vec<f64> = values.iter().flat_map(|v| [*v, -*v]).collect();
    all.push(f64::NAN);
    all
}

/// The edges: of the format, of squares and roots in it, and of every limit of document 01.
pub fn edges() -> Vec<f64> {
    let mut v = vec![0.0, f64::from_bits(1), f64::from_bits(2), f64::from_bits(3)];
    v.extend([f64::from_bits(0x0008000000000000), f64::from_bits(0x000fffffffffffff)]);
    v.extend(beside(f64::MIN_POSITIVE.next_up()));
    // whose squares are the least and the largest
    for e in [-538, -537, -512, -511, 511, 512] {
        v.push(2f64.powi(e));
    }
    v.extend([1e-200, 1e-150, 1e150, 1e154, 1e155, 1e300]);
    v.extend([2f64.powi(1023), f64::MAX.next_down(), f64::MAX, f64::INFINITY]);
    v.extend([2f64.powi(-54), 2f64.powi(-53), 2f64.powi(-52), 2f64.powi(52), 2f64.powi(53), 2f64.powi(63)]);
    for limit in [1e-20, 1e-10, 1e-6, 1e-5, 1e-3, 0.01, 0.5, 0.999999, 1.0, 1.000001, 100.0, 360.0, 365.0, 830.0] {
        v.extend(beside(limit));
    }
    for limit in [1e-12, 1e-10] {
        v.extend(beside(1.0 - limit));
        v.extend(beside(1.0 + limit));
    }
    v.extend([0.25, 0.75, 1.5, 2.0, 3.0, 4.0, 362.5, 825.0, 0.1, 0.6, 0.8]);
    both_signs(v)
}

/// Fewer of them, for the products of three.
pub fn main_edges() -> Vec<f64> {
    let v = vec![
        0.0,
        f64::from_bits(1),
        f64::from_bits(0x000fffffffffffff),
        f64::MIN_POSITIVE,
        1e-154,
        1e-10,
        0.5,
        0.6,
        0.999999,
        1f64.next_down(),
        1.0,
        1f64.next_up(),
        1.000001,
        3.0,
        1e154,
        f64::MAX,
        f64::INFINITY,
    ];
    both_signs(v)
}

/// What a word is: a float, or the first of a vector's three. Other words go with the one before.
#[derive(Clone, Copy, PartialEq)]
pub enum Slot {
    Float,
    Vector,
    Rest,
}

/// A vector whose square is near 1: at both ends of the limit, with a part near ±1, ±0, or none.
pub fn near_unit(rng: &mut Rng) -> [f64; 3] {
    let mut v = [rng.between(-1.0, 1.0), rng.between(-1.0, 1.0), rng.between(-1.0, 1.0)];
    match rng.below(8) {
        0 => v[rng.below(3)] *= 10f64.powi(-(rng.below(20) as i32)),
        1 => {
            let kept = rng.below(3);
            for (i, part) in v.iter_mut().enumerate() {
                if i != kept {
                    *part *= 10f64.powi(-(rng.below(20) as i32));
                }
            }
        }
        2 => v[rng.below(3)] = 0.0 * rng.sign(),
        3 => {
            let kept = rng.below(3);
            for (i, part) in v.iter_mut().enumerate() {
                if i != kept {
                    *part = 0.0 * rng.sign();
                }
            }
        }
        _ => (),
    }
    let length = (v[0] * v[0] + v[1] * v[1] + v[2] * v[2]).sqrt();
    let square = match rng.below(8) {
        0 => 0.999999,
        1 => 1.000001,
        2 => rng.between(0.9999985, 1.0000015),
        3 => 1.0 + rng.between(-2e-10, 2e-10),
        _ => 1.0,
    };
    let scale = square.sqrt() / length;
    for part in v.iter_mut() {
        *part *= scale;
        // a few doubles aside
        if rng.below(4) == 0 {
            for _ in 0..rng.below(3) {
                *part = if rng.sign() > 0.0 { part.next_up() } else { part.next_down() };
            }
        }
    }
    v
}

/// Of any size that the format has, but few at its ends.
pub fn scaled(rng: &mut Rng) -> f64 {
    let size = match rng.below(4) {
        0 => rng.between(-300.0, 300.0),
        1 => rng.between(-20.0, 20.0),
        _ => rng.between(-3.0, 3.0),
    };
    10f64.powf(size) * rng.sign()
}

pub struct Inputs {
    rng: Rng,
    shape: Vec<Slot>,
    edges: Vec<f64>,
    main: Vec<f64>,
    /// How many products of edges there are, and how many of the first inputs are such.
    product: usize,
    crossed: usize,
    at: usize,
}

impl Inputs {
    pub fn new(seed: u64, shape: &[Slot], count: usize) -> Self {
        let edges = edges();
        let main = main_edges();
        let product = match shape.len() {
            0 => 1,
            1 => edges.len(),
            2 => edges.len() * edges.len(),
            3 => main.len() * main.len() * main.len(),
            n => n * edges.len(),
        };
        Self { rng: Rng(seed), shape: shape.to_vec(), product, crossed: product.min(count / 2), edges, main, at: 0 }
    }

    pub fn fill(&mut self, words: &mut [f64]) {
        let i = self.at;
        self.at += 1;
        if i < self.crossed {
            self.cross(i, words);
        } else {
            self.random(i, words);
        }
    }

    /// The i-th product of edges; for many words, one edge among values near 1.
    fn cross(&mut self, i: usize, words: &mut [f64]) {
        // strewn, so that a shorter run has all kinds
        let mut i = if self.crossed < self.product { i * 7919 % self.product } else { i };
        let n = words.len();
        if n > 3 {
            for w in words.iter_mut() {
                *w = self.rng.between(-1.0, 1.0);
            }
            words[i % n] = self.edges[i / n];
            return;
        }
        let edges = if n == 3 { &self.main } else { &self.edges };
        for w in words {
            *w = edges[i % edges.len()];
            i /= edges.len();
        }
    }

    fn any(&mut self) -> f64 {
        match self.rng.below(4) {
            0 => self.edges[self.rng.below(self.edges.len())],
            1 => f64::from_bits(self.rng.next()),
            2 => scaled(&mut self.rng),
            _ => self.rng.between(-1.0, 1.0),
        }
    }

    fn random(&mut self, i: usize, words: &mut [f64]) {
        let kind = i % 8;
        let mut k = 0;
        while k < words.len() {
            let vector = self.shape[k] == Slot::Vector;
            match kind {
                0 => words[k] = self.edges[self.rng.below(self.edges.len())],
                1 => words[k] = f64::from_bits(self.rng.next()),
                2 => words[k] = self.rng.between(-2.0, 2.0),
                3 => words[k] = scaled(&mut self.rng),
                4 => words[k] = self.any(),
                // a word like the one before it
                5 if k > 0 => {
                    words[k] = match self.rng.below(6) {
                        0 => words[k - 1],
                        1 => -words[k - 1],
                        2 => words[k - 1].next_up(),
                        3 => 1.0 / words[k - 1],
                        _ => self.any(),
                    }
                }
                5 => words[k] = self.any(),
                _ if vector => {
                    words[k..k + 3].copy_from_slice(&near_unit(&mut self.rng));
                    k += 2;
                }
                _ => words[k] = self.rng.between(-1.0, 1.0),
            }
            k += 1;
        }
    }

    pub fn rng(&mut self) -> &mut Rng {
        &mut self.rng
    }
}
