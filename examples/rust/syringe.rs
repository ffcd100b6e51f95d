//! Light at a filled syringe, through the static library, and a material book of its surfaces: what examples/c/syringe.c
//! does, in Rust. The water's index is a published one; the other optical values are illustrative and are no data of a
//! material. It must print examples/expected.
mod rulvimba;
use rulvimba::*;

const MANY: usize = 1000;
const WAVELENGTHS: Color = Color { s0: 450.0, s1: 530.0, s2: 610.0, s3: 690.0 };

fn v(x: f64, y: f64, z: f64) -> Vec3 {
    Vec3 { x, y, z }
}

fn four(s0: f64, s1: f64, s2: f64, s3: f64) -> Color {
    Color { s0, s1, s2, s3 }
}

fn turned(w: Vec3) -> Vec3 {
    v(-w.x, -w.y, -w.z)
}

/// The refraction index of water at 20 degrees C, by the formula of Daimon and Masumura, Applied Optics 46 (2007),
/// p. 3811: wavelengths are in nm here and in micrometres there.
fn water_index(wavelength: f64) -> f64 {
    let l2 = wavelength * wavelength * 1e-6;
    (1.0 + 0.5684027565 * l2 / (l2 - 0.005101829712) + 0.1726177391 * l2 / (l2 - 0.01821153936)
        + 0.02086189578 * l2 / (l2 - 0.02620722293)
        + 0.1130748688 * l2 / (l2 - 10.69792721))
        .sqrt()
}

fn print_path(p: &Path) {
    let (l, w) = (p.lambda, p.power);
    println!("  wavelengths {:.1} {:.1} {:.1} {:.1}", l.s0, l.s1, l.s2, l.s3);
    println!("  powers      {:.6} {:.6} {:.6} {:.6}", w.s0, w.s1, w.s2, w.s3);
    println!("  in bits     {:016x} {:016x} {:016x} {:016x}", w.s0.to_bits(), w.s1.to_bits(), w.s2.to_bits(), w.s3.to_bits());
}

fn print_bounce(place: &str, r: BounceResult, p: &Path) {
    match r.outcome {
        REFUSED => println!("{place}: refused {}", r.number),
        LOST => println!("{place}: lost"),
        REFLECTED => println!("{place}: reflected"),
        _ => println!("{place}: passed"),
    }
    if r.outcome == REFLECTED || r.outcome == PASSED {
        println!("  direction   {:.6} {:.6} {:.6}", r.wi.x, r.wi.y, r.wi.z);
        if r.density.finite == 1 {
            println!("  density     {:.6}", r.density.value);
        } else {
            println!("  density     not finite");
        }
    }
    if r.shares.given == 1 {
        println!("  shares      {:.6} {:.6}", r.shares.reflected, r.shares.passed);
    }
    print_path(p);
}

fn make(kind: u64, roughness: f64, s: Spectra) -> Surface {
    let made = make_surface(kind, roughness, s);
    assert_eq!(made.number, 0, "a surface is refused");
    made.value
}

/// Bounce i of the array: a path of its own, and numbers that differ from bounce to bounce.
fn numbers(i: usize) -> [f64; BOUNCE_IN] {
    let t = i as f64 / MANY as f64;
    let z = 1.0 - 0.9 * t;
    let mut b = [0.9; BOUNCE_IN];
    b[..8].copy_from_slice(&[450.0, 530.0, 610.0, 690.0, 1.0, 1.0, 1.0, 1.0]);
    b[8..15].copy_from_slice(&[(1.0 - z * z).sqrt(), 0.0, z, 0.0, 0.0, 1.0, 0.0]);
    b[15] = t;
    b[16] = 1.0 - t - 1.0 / (2 * MANY) as f64;
    b[17] = if i % 2 == 1 { 0.6 } else { -0.8 };
    b[18] = if i % 2 == 1 { 0.8 } else { 0.6 };
    b
}

/// A bounce's answer and the path after it, at their places in the output of `bounces`.
fn answer_of(r: BounceResult, p: Path) -> [f64; BOUNCE_OUT] {
    let (l, w) = (p.lambda, p.power);
    [
        l.s0, l.s1, l.s2, l.s3, w.s0, w.s1, w.s2, w.s3, r.number as f64, r.outcome as f64, r.wi.x, r.wi.y, r.wi.z,
        r.density.finite as f64, r.density.value, r.shares.given as f64, r.shares.reflected, r.shares.passed,
    ]
}

fn same_bits(a: &[f64], b: &[f64]) -> bool {
    a.iter().zip(b).all(|(a, b)| a.to_bits() == b.to_bits())
}

fn yes_or_no(yes: bool) -> &'static str {
    if yes {
        "yes"
    } else {
        "no"
    }
}

fn many(surface: Surface, s: Spectra) {
    let mut input: Vec<f64> = (0..MANY).flat_map(numbers).collect();
    let mut output = vec![0.0; MANY * BOUNCE_OUT];
    input[7 * BOUNCE_IN + 15] = 1.0; // bounce 7 has a u that is refused
    let n = bounces(surface, s, &input, &mut output);
    let mut outcomes = [0; 4];
    let mut sum = 0u64;
    for o in output.chunks(BOUNCE_OUT).take(n) {
        outcomes[o[9] as usize] += 1;
        for x in o {
            sum = sum.wrapping_mul(31).wrapping_add(x.to_bits());
        }
    }
    println!(
        "many: {n} bounces, {} refused, {} lost, {} reflected, {} passed; sum of the bits {sum:016x}",
        outcomes[0], outcomes[1], outcomes[2], outcomes[3]
    );
    let seventh = &output[7 * BOUNCE_OUT..];
    println!("  the refused one has number {:.0} and powers {:.1}", seventh[8], seventh[4]);

    // one by one, on paths in memory: the same answers
    let mut differ = 0;
    for (b, o) in input.chunks(BOUNCE_IN).zip(output.chunks(BOUNCE_OUT)).take(n) {
        let mut p = Path { lambda: four(b[0], b[1], b[2], b[3]), power: four(b[4], b[5], b[6], b[7]) };
        let args = BounceArgs {
            wo: v(b[8], b[9], b[10]),
            normal: v(b[11], b[12], b[13]),
            backface: b[14] != 0.0,
            u: b[15],
            disk: b[16],
            c: b[17],
            s: b[18],
            ks: four(b[19], b[20], b[21], b[22]),
            tf: four(b[23], b[24], b[25], b[26]),
        };
        let r = bounce(&mut p, surface, s, args);
        differ += !same_bits(&answer_of(r, p), o) as usize;
    }
    println!("  one by one: {differ} differ");

    // an output with room for two: what lies past their answers is as it was
    let mut few = [-1.0; 2 * BOUNCE_OUT + 5];
    let n = bounces(surface, s, &input, &mut few);
    let same = yes_or_no(same_bits(&few[..2 * BOUNCE_OUT], &output));
    let kept = few[2 * BOUNCE_OUT..].iter().filter(|x| **x == -1.0).count();
    println!("  room for two: {n} bounces, the first two as before: {same}, {kept} of 5 doubles past them kept");
}

fn print_list(what: &str, list: &Candidates) {
    let entries: String = list.iter().map(|c| format!(" {} ({:.6})", c.id, c.density)).collect();
    println!("{what}:{entries}");
}

/// Five directions, by the density with which a surface sends light from wo there, brightest first; two lie as far to
/// either side, so that they are equal and stand as they arrived. A shutter covers the first: it is withdrawn.
fn brightest(surface: Surface, s: Spectra, wo: Vec3) {
    let directions = [
        (10, v(0.0, -0.28, 0.96)),
        (20, v(0.0, -0.6, 0.8)),
        (30, v(0.0, -0.8, 0.6)),
        (40, v(0.36, -0.48, 0.8)),
        (50, v(-0.36, -0.48, 0.8)),
    ];
    let mut list = Candidates::new();
    for (id, wi) in directions {
        let f = density(surface, s, wo, wi, true, 530.0);
        if f.number == 0 {
            list.arrive(Candidate { id, density: f.value });
        }
    }
    print_list("brightest", &list);
    print!("  20 again: {}", list.arrive(Candidate { id: 20, density: 1.0 }));
    print!(", a density below 0: {}", list.arrive(Candidate { id: 60, density: -1.0 }));
    println!(", 20 is withdrawn: {} and again: {}", list.depart(20), list.depart(20));
    print_list("without it", &list);
}

/// Snell's law at a wall whose normal is along z, for light that goes from the glass to the water: the index times the
/// sine of the angle is the same on both sides, but for rounding.
fn snell(glass: &[f64], water: &[f64], wo: Vec3, wi: Vec3, wavelength: f64) {
    let sine = |w: Vec3| (w.x * w.x + w.y * w.y).sqrt();
    let (in_glass, in_water) = (sine(wo), sine(wi));
    let (n_glass, n_water) = (lookup(glass, wavelength).value, lookup(water, wavelength).value);
    let (a, b) = (n_glass * in_glass, n_water * in_water);
    print!("Snell's law: in the glass {n_glass:.6} * {in_glass:.6} = {a:.6}, in the water {n_water:.6} * {in_water:.6} = {b:.6}");
    println!(", equal but for rounding: {}", yes_or_no((a - b).abs() < 1e-15));
}

/// A surface for a book: it has the roughness as it is given beside the raised one, and its spectra with it.
fn for_book(kind: u64, two_sided: bool, roughness: f64, s: Spectra) -> BookSurface {
    let made = make(kind, roughness, s);
    let (two_sided, entries) = (two_sided as u64, s.eta.len());
    let mut b = BookSurface { kind, two_sided, given: roughness, roughness: made.roughness, entries, ..BookSurface::new() };
    b.eta[..entries].copy_from_slice(s.eta);
    b.k[..entries].copy_from_slice(s.k);
    b.outer[..s.outer.len()].copy_from_slice(s.outer);
    b
}

/// A book of the surfaces, and what the call answers.
fn written(surfaces: &[BookSurface]) -> (Vec<u8>, CountResult) {
    let mut book = vec![0; BOOK_MAX];
    let r = write_book(surfaces, &mut book);
    book.truncate(r.count);
    (book, r)
}

/// The surfaces of a book, and what the call answers.
fn read(book: &[u8]) -> (Vec<BookSurface>, CountResult) {
    let mut surfaces = vec![BookSurface::new(); BOOK_SURFACES];
    let r = read_book(book, 0, &mut surfaces);
    surfaces.truncate(r.count);
    (surfaces, r)
}

/// The book of the materials.
fn write_materials(materials: &[BookSurface]) -> Vec<u8> {
    let (book, r) = written(materials);
    let sum = book.iter().fold(0u64, |sum, byte| sum.wrapping_mul(31).wrapping_add(*byte as u64));
    println!("a book of {} surfaces: {}, {} bytes; sum of the bytes {sum:016x}", materials.len(), r.number, r.count);
    book
}

/// Whether light has the same answer on a book's surface as on the surface itself, and the same path after it.
fn same_bounce(of_book: &BookSurface, surface: Surface, s: Spectra, args: BounceArgs) -> &'static str {
    let mut p = Path::default();
    start(&mut p, WAVELENGTHS);
    let mut q = p;
    let (a, b) = (book_bounce(&mut p, of_book, args), bounce(&mut q, surface, s, args));
    yes_or_no(same_bits(&answer_of(a, p), &answer_of(b, q)))
}

/// The book is read; light bounces on its surfaces, and any other call takes them with their own spectra.
fn read_materials(book: &[u8], steel: (Surface, Spectra), glass: (Surface, Spectra), args: BounceArgs) -> Vec<BookSurface> {
    let (surfaces, r) = read(book);
    print!("  read: {}, {} surfaces", r.number, r.count);
    let (again, r) = written(&surfaces);
    println!("; written again: {}, the same bytes: {}", r.number, yes_or_no(again == book));
    println!(
        "  a bounce as on the surface itself: steel {}, glass {}",
        same_bounce(&surfaces[0], steel.0, steel.1, args),
        same_bounce(&surfaces[1], glass.0, glass.1, args)
    );
    let b = &surfaces[1];
    let (surface, s) = b.lent();
    let f = fresnel_at(surface, s, args.wo, args.normal, 530.0);
    println!("  the glass: roughness {:.5} as given, {:.5} raised; fresnel: {} {:.6}", b.given, b.roughness.x, f.number, f.value);
    surfaces
}

/// Light that meets metal from behind, with the backface flag: the foil reflects it, and on the steel it is lost.
fn from_behind(foil: &BookSurface, steel: &BookSurface, front: BounceArgs) {
    let behind = BounceArgs { wo: v(front.wo.x, front.wo.y, -front.wo.z), backface: true, ..front };
    let mut path = Path::default();
    start(&mut path, WAVELENGTHS);
    let r = book_bounce(&mut path, foil, behind);
    print_bounce("foil from behind", r, &path);
    let r = book_bounce(&mut path, steel, behind);
    print_bounce("steel from behind", r, &path);
}

/// A book with a wrong byte; a buffer that is a byte too short; and glass that touches water, where a book has air.
fn refused_books(book: &[u8], materials: &[BookSurface], wet_glass: &BookSurface) {
    let mut damaged = book.to_vec();
    damaged[4 + 8 * 3] = 2; // behind the count and three pairs: the kind of the first surface
    print!("a damaged byte: {}", read(&damaged).1.number);
    let mut short = vec![0xff; book.len()];
    let r = write_book(materials, &mut short[..book.len() - 1]);
    let kept = short.iter().filter(|byte| **byte == 0xff).count();
    println!("; a byte too little room: {}, {kept} of {} bytes kept", r.number, book.len());
    let mut wet = materials.to_vec();
    wet[1] = *wet_glass;
    println!("glass that touches water: to bounce on {}, in a book {}", check_book_surface(wet_glass), written(&wet).1.number);
}

fn main() {
    let table_of = |entries: usize, f: fn(f64) -> f64| -> Vec<f64> { (0..entries).map(|i| f(i as f64)).collect() };
    let table = |f: fn(f64) -> f64| table_of(SAMPLES, f);
    let glass_eta = table(|i| 1.53 - 0.0002 * i); // disperses a little
    let glass_k = table(|_| 0.0);
    let air = table(|_| 1.0);
    let water = table(|i| water_index(360.0 + 5.0 * i));
    let steel_eta = table(|i| 2.0 + 0.01 * i);
    let steel_k = table(|i| 3.0 + 0.01 * i);
    let foil_eta = table(|i| 0.4 + 0.015 * i);
    let foil_k = table(|i| 4.4 + 0.04 * i);
    let fine_eta = table_of(FINE_SAMPLES, |i| 1.53 - 0.00004 * i); // the same glass, 1 nm apart
    let fine_k = table_of(FINE_SAMPLES, |_| 0.0);
    let fine_air = table_of(FINE_SAMPLES, |_| 1.0);
    // outside the barrel is air, and inside it water: both walls are glass, with a normal that points out of it
    let of_outer_wall = Spectra { eta: &glass_eta, k: &glass_k, outer: &air };
    let of_inner_wall = Spectra { outer: &water, ..of_outer_wall };
    let of_fine_wall = Spectra { eta: &fine_eta, k: &fine_k, outer: &fine_air };
    // metal has no outer spectrum, so that none is lent
    let of_steel = Spectra { eta: &steel_eta, k: &steel_k, outer: &[] };
    let of_foil = Spectra { eta: &foil_eta, k: &foil_k, outer: &[] };
    let glass = make(GLASS, 0.0, of_outer_wall);
    let rough_glass = make(GLASS, 0.2, of_outer_wall);
    let steel = make(METAL, 0.3, of_steel);

    let mut path = Path::default();
    println!("start: {}", start(&mut path, WAVELENGTHS));
    print_path(&path);

    // through the barrel: wo points back to the lamp
    let barrel = BounceArgs {
        wo: v(0.0, 0.6, 0.8),
        normal: v(0.0, 0.0, 1.0),
        backface: false,
        u: 0.5,
        disk: 0.25,
        c: 0.6,
        s: 0.8,
        ks: four(1.0, 1.0, 1.0, 1.0),
        tf: four(0.9, 0.9, 0.9, 0.9),
    };
    let r = bounce(&mut path, glass, of_outer_wall, barrel);
    print_bounce("glass barrel", r, &path);

    // from the glass into the water: wo is where the light came from, so the direction turned round. The surface is the
    // same, and the water's index is lent in place of the air's
    let inner_wall = BounceArgs { wo: turned(r.wi), normal: v(0.0, 0.0, -1.0), ..barrel };
    let r = bounce(&mut path, glass, of_inner_wall, inner_wall);
    print_bounce("inner wall, water", r, &path);
    snell(&glass_eta, &water, inner_wall.wo, r.wi, path.lambda.s0);

    // the needle
    let needle = BounceArgs { wo: turned(r.wi), ..barrel };
    let r = bounce(&mut path, steel, of_steel, needle);
    print_bounce("needle steel", r, &path);

    // a direction of length 2 is refused, and the path is kept
    let too_long = v(0.0, 0.6, 2.0);
    let r = bounce(&mut path, steel, of_steel, BounceArgs { wo: too_long, ..barrel });
    print_bounce("too long a direction", r, &path);
    println!("a start at 200 nm: {}", start(&mut path, four(200.0, 530.0, 610.0, 690.0)));
    print_path(&path);

    // the barrel's glass by a table at 1 nm: the surface is the same, the tables are lent
    start(&mut path, four(450.5, 530.5, 610.5, 690.5));
    let r = bounce(&mut path, glass, of_fine_wall, barrel);
    print_bounce("glass barrel, 1 nm", r, &path);
    print!("eta and k at 1 nm, water at 5 nm: {}", check_surface(glass, Spectra { outer: &water, ..of_fine_wall }));
    println!("; eta at 1 nm, k at 5 nm: {}", check_surface(glass, Spectra { k: &glass_k, ..of_fine_wall }));

    // glass is to have an outer spectrum, and 13 comes before the directions; metal has none
    let nothing_outside = Spectra { outer: &[], ..of_outer_wall };
    println!(
        "no outer spectrum: glass {}, with too long a direction {}, steel {}",
        check_surface(glass, nothing_outside),
        lambda(glass, nothing_outside, too_long).number,
        check_surface(steel, of_steel)
    );

    // terms
    let (z, w) = (v(0.0, 0.0, 1.0), v(0.0, 0.6, 0.8));
    let f = lookup(&glass_eta, 589.3);
    print!("lookup: {} {:.6}; ", f.number, f.value);
    let f = lookup(&fine_eta, 589.3);
    println!("at 1 nm: {} {:.6}; of 94 entries: {}", f.number, f.value, lookup(&glass_eta[..94], 589.3).number);
    let print = |name: &str, f: Answer<f64>| println!("{name}: {} {:.6}", f.number, f.value);
    print("lambda", lambda(steel, of_steel, w));
    print("g1", g1(steel, of_steel, w, z));
    print("g", g(steel, of_steel, w, w, z));
    print("d", d(steel, of_steel, z));
    print("fresnel at one wavelength", fresnel_at(steel, of_steel, w, z, 530.0));
    let fs = fresnel(steel, of_steel, w, z, WAVELENGTHS);
    println!("fresnel at four: {} {:.6} {:.6} {:.6} {:.6}", fs.number, fs.value.s0, fs.value.s1, fs.value.s2, fs.value.s3);
    let n = sample_normal(steel, of_steel, w, 0.25, 0.6, 0.8);
    println!("sampled normal: {} {:.6} {:.6} {:.6}", n.number, n.value.x, n.value.y, n.value.z);
    let m = reflect(w, z);
    println!("mirror: {} {} {:.6} {:.6} {:.6}", m.number, m.outcome, m.direction.x, m.direction.y, m.direction.z);
    let b = refract(1.5, w, z);
    println!("bend: {} {} {:.6} {:.6} {:.6}", b.number, b.outcome, b.direction.x, b.direction.y, b.direction.z);
    let b = refract(0.5, v(0.0, 0.8, 0.6), z);
    println!("bend: {} {}", b.number, b.outcome);
    print("density", density(steel, of_steel, w, v(0.0, -0.6, 0.8), true, 530.0));
    println!("a kind of 2: {}", check_surface(Surface { kind: 2, ..steel }, of_steel));
    println!("steel as glass: {}", make_surface(GLASS, 0.3, of_steel).number);

    brightest(steel, of_steel, w);
    many(rough_glass, of_outer_wall);
    many(rough_glass, of_inner_wall);
    many(steel, of_steel);

    // surfaces as bytes, for a file: the needle's steel, the outer wall's glass and the aluminium foil of the pouch that
    // the syringe comes in, metal with two sides. The glass is handed in once more with a roughness of 0.00001, to which
    // 0.0 is raised: the two are equal, and the second is left out
    let materials = [
        for_book(METAL, false, 0.3, of_steel),
        for_book(GLASS, false, 0.0, of_outer_wall),
        for_book(METAL, true, 0.1, of_foil),
        for_book(GLASS, false, 0.00001, of_outer_wall),
    ];
    let book = write_materials(&materials);
    let surfaces = read_materials(&book, (steel, of_steel), (glass, of_outer_wall), barrel);
    from_behind(&surfaces[2], &surfaces[0], barrel);
    refused_books(&book, &materials, &for_book(GLASS, false, 0.0, of_inner_wall));
}
