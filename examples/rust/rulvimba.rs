//! The library in Rust: the declarations of include/rulvimba.h, each behind a safe function. A slice goes
//! over as its pointer and its length, a path as a `&mut Path`, a list of candidates as its three fields, a
//! book's surface as a `&BookSurface`; the library asks nothing else of its caller but the processor's default
//! float control.

#[repr(C)]
#[derive(Clone, Copy, Debug, Default, PartialEq)]
pub struct Vec3 {
    pub x: f64,
    pub y: f64,
    pub z: f64,
}

#[repr(C)]
#[derive(Clone, Copy, Debug, Default, PartialEq)]
pub struct Color {
    pub s0: f64,
    pub s1: f64,
    pub s2: f64,
    pub s3: f64,
}

#[repr(C)]
#[derive(Clone, Copy, Debug, Default, PartialEq)]
pub struct Vec2 {
    pub x: f64,
    pub y: f64,
}

pub const METAL: u64 = 0;
pub const GLASS: u64 = 1;

/// How many entries a spectrum has, 5 nm or 1 nm apart.
pub const SAMPLES: usize = 95;
pub const FINE_SAMPLES: usize = 471;

#[repr(C)]
#[derive(Clone, Copy, Debug, Default, PartialEq)]
pub struct Surface {
    pub kind: u64,
    pub roughness: Vec2,
}

#[repr(C)]
#[derive(Clone, Copy, Debug, Default, PartialEq)]
pub struct Path {
    pub lambda: Color,
    pub power: Color,
}

#[repr(C)]
#[derive(Clone, Copy, Debug, Default, PartialEq)]
pub struct BounceArgs {
    pub wo: Vec3,
    pub normal: Vec3,
    pub backface: bool,
    pub u: f64,
    pub disk: f64,
    pub c: f64,
    pub s: f64,
    pub ks: Color,
    pub tf: Color,
}

/// A result: document 01's number, 0 where the call is accepted, and the value.
#[repr(C)]
#[derive(Clone, Copy, Debug, PartialEq)]
pub struct Answer<T> {
    pub number: u64,
    pub value: T,
}

pub const DIRECTION: u64 = 1;
pub const NONE: u64 = 2;
pub const TOTAL: u64 = 3;

#[repr(C)]
#[derive(Clone, Copy, Debug, PartialEq)]
pub struct DirectionResult {
    pub number: u64,
    pub outcome: u64,
    pub direction: Vec3,
}

pub const REFUSED: u64 = 0;
pub const LOST: u64 = 1;
pub const REFLECTED: u64 = 2;
pub const PASSED: u64 = 3;

#[repr(C)]
#[derive(Clone, Copy, Debug, PartialEq)]
pub struct Density {
    pub finite: u64,
    pub value: f64,
}

#[repr(C)]
#[derive(Clone, Copy, Debug, PartialEq)]
pub struct Shares {
    pub given: u64,
    pub reflected: f64,
    pub passed: f64,
}

#[repr(C)]
#[derive(Clone, Copy, Debug, PartialEq)]
pub struct BounceResult {
    pub number: u64,
    pub outcome: u64,
    pub wi: Vec3,
    pub density: Density,
    pub shares: Shares,
}

/// Doubles for each bounce of `bounces`, in and out; include/rulvimba.h has their places.
pub const BOUNCE_IN: usize = 27;
pub const BOUNCE_OUT: usize = 18;

/// A candidate direction: the planner's id and its density.
#[repr(C)]
#[derive(Clone, Copy, Debug, Default, PartialEq)]
pub struct Candidate {
    pub id: u16,
    pub density: f64,
}

/// How many candidates a list has room for.
pub const CANDIDATES: usize = 64;

/// The present candidates, greatest density first and equal ones in order of arrival: the first `count` places. What
/// lies past them means nothing, and no call changes it but by an arrival that takes the place.
#[repr(C)]
#[derive(Clone, Copy, Debug)]
pub struct Candidates {
    pub count: usize,
    pub ids: [u16; CANDIDATES],
    pub densities: [f64; CANDIDATES],
}

/// How many bytes a material book has at most, and how many surfaces.
pub const BOOK_MAX: usize = 65536;
pub const BOOK_SURFACES: usize = 42;

/// A surface of a material book. The roughness stands as it was given and, as x and y, raised to 1e-5. The first `entries`
/// places of each spectrum are in use, 95 or 471.
#[repr(C)]
#[derive(Clone, Copy, Debug)]
pub struct BookSurface {
    pub kind: u64,
    pub two_sided: u64,
    pub given: f64,
    pub roughness: Vec2,
    pub entries: usize,
    pub eta: [f64; FINE_SAMPLES],
    pub k: [f64; FINE_SAMPLES],
    pub outer: [f64; FINE_SAMPLES],
}

/// A number, 0 where the call is accepted, and how many surfaces or bytes a book has.
#[repr(C)]
#[derive(Clone, Copy, Debug, PartialEq)]
pub struct CountResult {
    pub number: u64,
    pub count: usize,
}

mod c {
    use super::*;
    type P = *const f64;
    extern "C" {
        pub fn rulvimba_make_surface(
            kind: u64, roughness: f64, eta: P, n: usize, k: P, m: usize, outer: P, l: usize,
        ) -> Answer<Surface>;
        pub fn rulvimba_check_surface(surface: Surface, eta: P, n: usize, k: P, m: usize, outer: P, l: usize) -> u64;
        pub fn rulvimba_start(path: *mut Path, lambda: Color) -> u64;
        pub fn rulvimba_bounce(
            path: *mut Path, surface: Surface, eta: P, n: usize, k: P, m: usize, outer: P, l: usize, b: BounceArgs,
        ) -> BounceResult;
        pub fn rulvimba_bounces(
            surface: Surface, eta: P, n: usize, k: P, m: usize, outer: P, l: usize, input: P, input_len: usize,
            output: *mut f64, output_len: usize,
        ) -> usize;
        pub fn rulvimba_lookup(values: P, n: usize, lambda: f64) -> Answer<f64>;
        pub fn rulvimba_lambda(surface: Surface, eta: P, n: usize, k: P, m: usize, outer: P, l: usize, w: Vec3) -> Answer<f64>;
        pub fn rulvimba_g1(
            surface: Surface, eta: P, n: usize, k: P, m: usize, outer: P, l: usize, wo: Vec3, wh: Vec3,
        ) -> Answer<f64>;
        pub fn rulvimba_g(
            surface: Surface, eta: P, n: usize, k: P, m: usize, outer: P, l: usize, wo: Vec3, wi: Vec3, wh: Vec3,
        ) -> Answer<f64>;
        pub fn rulvimba_d(surface: Surface, eta: P, n: usize, k: P, m: usize, outer: P, l: usize, wh: Vec3) -> Answer<f64>;
        pub fn rulvimba_fresnel_at(
            surface: Surface, eta: P, n: usize, k: P, m: usize, outer: P, l: usize, wo: Vec3, wh: Vec3, lambda: f64,
        ) -> Answer<f64>;
        pub fn rulvimba_fresnel(
            surface: Surface, eta: P, n: usize, k: P, m: usize, outer: P, l: usize, wo: Vec3, wh: Vec3, lambda: Color,
        ) -> Answer<Color>;
        pub fn rulvimba_sample_normal(
            surface: Surface, eta: P, n: usize, k: P, m: usize, outer: P, l: usize, wo: Vec3, disk: f64, c: f64, s: f64,
        ) -> Answer<Vec3>;
        pub fn rulvimba_reflect(wo: Vec3, n: Vec3) -> DirectionResult;
        pub fn rulvimba_refract(eta: f64, wo: Vec3, n: Vec3) -> DirectionResult;
        pub fn rulvimba_density(
            surface: Surface, eta: P, n: usize, k: P, m: usize, outer: P, l: usize, wo: Vec3, wi: Vec3, reflection: bool,
            lambda: f64,
        ) -> Answer<f64>;
        pub fn rulvimba_arrive_in(count: *mut usize, ids: *mut u16, densities: *mut f64, c: Candidate) -> u64;
        pub fn rulvimba_depart_in(count: *mut usize, ids: *mut u16, densities: *mut f64, id: u16) -> u64;
        pub fn rulvimba_read_book(
            book: *const u8, book_len: usize, first: usize, surfaces: *mut BookSurface, surfaces_len: usize,
        ) -> CountResult;
        pub fn rulvimba_write_book(
            surfaces: *const BookSurface, surfaces_len: usize, buffer: *mut u8, buffer_len: usize,
        ) -> CountResult;
        pub fn rulvimba_surface_of_book(surface: *const BookSurface) -> Surface;
        pub fn rulvimba_check_book_surface(surface: *const BookSurface) -> u64;
        pub fn rulvimba_book_bounce(path: *mut Path, surface: *const BookSurface, b: BounceArgs) -> BounceResult;
    }
}

/// The spectra of a surface, which are lent with it in each call: as many entries of each. `outer` is the refraction
/// index of what lies outside glass, ones for air. Beside metal it isn't read, and may be empty.
#[derive(Clone, Copy)]
pub struct Spectra<'a> {
    pub eta: &'a [f64],
    pub k: &'a [f64],
    pub outer: &'a [f64],
}

/// A call that lends a surface's spectra, behind the arguments that stand before them.
macro_rules! with {
    ($f:ident, ($($before:expr),*), $s:expr $(, $rest:expr)*) => {
        unsafe {
            let (eta, k, outer) = ($s.eta, $s.k, $s.outer);
            c::$f($($before,)* eta.as_ptr(), eta.len(), k.as_ptr(), k.len(), outer.as_ptr(), outer.len() $(, $rest)*)
        }
    };
}

pub fn make_surface(kind: u64, roughness: f64, s: Spectra) -> Answer<Surface> {
    with!(rulvimba_make_surface, (kind, roughness), s)
}
pub fn check_surface(surface: Surface, s: Spectra) -> u64 {
    with!(rulvimba_check_surface, (surface), s)
}
pub fn start(path: &mut Path, lambda: Color) -> u64 {
    unsafe { c::rulvimba_start(path, lambda) }
}
pub fn bounce(path: &mut Path, surface: Surface, s: Spectra, b: BounceArgs) -> BounceResult {
    with!(rulvimba_bounce, (path, surface), s, b)
}
pub fn bounces(surface: Surface, s: Spectra, input: &[f64], output: &mut [f64]) -> usize {
    with!(rulvimba_bounces, (surface), s, input.as_ptr(), input.len(), output.as_mut_ptr(), output.len())
}
pub fn lookup(values: &[f64], lambda: f64) -> Answer<f64> {
    unsafe { c::rulvimba_lookup(values.as_ptr(), values.len(), lambda) }
}
pub fn lambda(surface: Surface, s: Spectra, w: Vec3) -> Answer<f64> {
    with!(rulvimba_lambda, (surface), s, w)
}
pub fn g1(surface: Surface, s: Spectra, wo: Vec3, wh: Vec3) -> Answer<f64> {
    with!(rulvimba_g1, (surface), s, wo, wh)
}
pub fn g(surface: Surface, s: Spectra, wo: Vec3, wi: Vec3, wh: Vec3) -> Answer<f64> {
    with!(rulvimba_g, (surface), s, wo, wi, wh)
}
pub fn d(surface: Surface, s: Spectra, wh: Vec3) -> Answer<f64> {
    with!(rulvimba_d, (surface), s, wh)
}
pub fn fresnel_at(surface: Surface, s: Spectra, wo: Vec3, wh: Vec3, lambda: f64) -> Answer<f64> {
    with!(rulvimba_fresnel_at, (surface), s, wo, wh, lambda)
}
pub fn fresnel(surface: Surface, s: Spectra, wo: Vec3, wh: Vec3, lambda: Color) -> Answer<Color> {
    with!(rulvimba_fresnel, (surface), s, wo, wh, lambda)
}
pub fn sample_normal(surface: Surface, s: Spectra, wo: Vec3, disk: f64, cos: f64, sin: f64) -> Answer<Vec3> {
    with!(rulvimba_sample_normal, (surface), s, wo, disk, cos, sin)
}
pub fn reflect(wo: Vec3, n: Vec3) -> DirectionResult {
    unsafe { c::rulvimba_reflect(wo, n) }
}
pub fn refract(eta: f64, wo: Vec3, n: Vec3) -> DirectionResult {
    unsafe { c::rulvimba_refract(eta, wo, n) }
}
pub fn density(surface: Surface, s: Spectra, wo: Vec3, wi: Vec3, reflection: bool, lambda: f64) -> Answer<f64> {
    with!(rulvimba_density, (surface), s, wo, wi, reflection, lambda)
}
/// An arrival in a list whose fields stand anywhere: 0, or the number that it is refused by.
pub fn arrive_in(count: &mut usize, ids: &mut [u16; CANDIDATES], densities: &mut [f64; CANDIDATES], c: Candidate) -> u64 {
    unsafe { c::rulvimba_arrive_in(count, ids.as_mut_ptr(), densities.as_mut_ptr(), c) }
}
/// A departure likewise.
pub fn depart_in(count: &mut usize, ids: &mut [u16; CANDIDATES], densities: &mut [f64; CANDIDATES], id: u16) -> u64 {
    unsafe { c::rulvimba_depart_in(count, ids.as_mut_ptr(), densities.as_mut_ptr(), id) }
}
/// How many surfaces a book has. Those from the one at `first` on are stored, as many as there are places; a refusal leaves
/// the places as they were.
pub fn read_book(book: &[u8], first: usize, surfaces: &mut [BookSurface]) -> CountResult {
    unsafe { c::rulvimba_read_book(book.as_ptr(), book.len(), first, surfaces.as_mut_ptr(), surfaces.len()) }
}
/// How many bytes the book of the surfaces has, which then stands at the front of the buffer; a refusal leaves the buffer as
/// it was.
pub fn write_book(surfaces: &[BookSurface], buffer: &mut [u8]) -> CountResult {
    unsafe { c::rulvimba_write_book(surfaces.as_ptr(), surfaces.len(), buffer.as_mut_ptr(), buffer.len()) }
}
/// The number that a book's surface is refused with, or 0.
pub fn check_book_surface(surface: &BookSurface) -> u64 {
    unsafe { c::rulvimba_check_book_surface(surface) }
}
/// The surface that every other call takes, with the spectra of its record; refused as 1 there where it is 1 here.
pub fn surface_of_book(surface: &BookSurface) -> Surface {
    unsafe { c::rulvimba_surface_of_book(surface) }
}
/// `bounce` on a book's surface, but that two-sided metal ignores the backface flag.
pub fn book_bounce(path: &mut Path, surface: &BookSurface, b: BounceArgs) -> BounceResult {
    unsafe { c::rulvimba_book_bounce(path, surface, b) }
}

impl BookSurface {
    /// A place that a surface can be read to.
    pub fn new() -> Self {
        let (roughness, none) = (Vec2::default(), [0.0; FINE_SAMPLES]);
        Self { kind: METAL, two_sided: 0, given: 0.0, roughness, entries: 0, eta: none, k: none, outer: none }
    }
    /// The surface and its spectra, as every other call takes them.
    pub fn lent(&self) -> (Surface, Spectra<'_>) {
        let entries = |places| <[f64; FINE_SAMPLES]>::as_slice(places).get(..self.entries).unwrap_or(&[]);
        let spectra = Spectra { eta: entries(&self.eta), k: entries(&self.k), outer: entries(&self.outer) };
        (surface_of_book(self), spectra)
    }
}

impl Candidates {
    /// Nobody is present.
    pub fn new() -> Self {
        Self { count: 0, ids: [0; CANDIDATES], densities: [0.0; CANDIDATES] }
    }
    pub fn arrive(&mut self, c: Candidate) -> u64 {
        arrive_in(&mut self.count, &mut self.ids, &mut self.densities, c)
    }
    pub fn depart(&mut self, id: u16) -> u64 {
        depart_in(&mut self.count, &mut self.ids, &mut self.densities, id)
    }
    /// The candidates, brightest first. A count above the room, which no call gives, counts as all places.
    pub fn iter(&self) -> impl Iterator<Item = Candidate> + '_ {
        self.ids.iter().zip(&self.densities).take(self.count).map(|(id, density)| Candidate { id: *id, density: *density })
    }
}
