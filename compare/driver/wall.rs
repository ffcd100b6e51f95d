//! Light that leaves exactly along the wall (document 02, (v)): a list of bounces whose answers are written out, and bounces
//! that are looked for. Branches and powers of the list follow from the documents; the direction, density and shares of the
//! rough glass that leaves none are figures of lumo's, recorded beforehand.
use super::inputs::Rng;
use super::judge::Tables;
use super::optics::{g_over_g1, Color};
use super::path::*;
use super::rulvimba::{PASSED, REFLECTED};
use super::surfaces::*;
use crate::stand_in::Random;
use crate::tracer::onb::Onb;
use crate::Vec3;

/// A z at which tan² is infinite, and the index at which the facet of the list passes light along the wall.
const ALONG: f64 = 1e-160;
const INDEX: f64 = f64::from_bits(0x3fd11d774b3e27cb);

/// A bounce of the list, and its answer: the case, wi, the density, the shares, and the powers that are left.
fn one(b: Bounce, case: u64, wi: Vec3, density: u64, shares: Option<[u64; 2]>, power: [f64; 4]) -> (Bounce, Bounced) {
    let density = Density { finite: true, value: f64::from_bits(density) };
    let [reflected, passed] = shares.unwrap_or_default().map(f64::from_bits);
    let shares = Shares { there: shares.is_some(), reflected, passed };
    let path = Path { lambda: ON_GRID.lambda, power: Color(power) };
    (b, Bounced { number: 0, case, wi, density, shares, path })
}

/// A list from powers of 1, each bounce with its surface. Where q is fixed, light keeps its power along the wall: delta
/// metal, delta glass, and rough glass of index 1.0. Rough glass of another index leaves none, and what comes after is
/// accepted. A filter of -0 makes a power of -0 there.
pub fn written(tables: Tables) -> (Vec<Lumo>, Vec<(Bounce, Bounced)>) {
    let grazing = plain_bounce(Vec3::new(1.0, 0.0, ALONG), 0.5, 0.0, 1.0, 0.0);
    let mirrored = Vec3::new(-1.0, 0.0, ALONG);
    let certain = 0x3ff0000000000000;
    let whole = Some([certain, 0]);
    let aslant = plain_bounce(Vec3::new(0.8, 0.0, 0.6), 0.5, 0.0, 1.0, 0.0);
    let dark = |b, power| one(b, PASSED, v(0xbff0000000000006, 0, 0), 0x3f9398ea312c4536, Some([0x3fd56796b10b0f79, 0x3fe54c34a77a7844]), power);
    let minus = [-0.0, 0.0, -0.0, 0.0];
    let list = vec![
        (metal(tables, 1e-5), one(grazing, REFLECTED, mirrored, certain, None, [1.0; 4])),
        (glass(tables, 1e-5, 1.5), one(grazing, REFLECTED, mirrored, certain, whole, [1.0; 4])),
        (glass(tables, 0.5, 1.0), one(grazing, REFLECTED, mirrored, certain, whole, [1.0; 4])),
        (glass(tables, 1.0, INDEX), dark(aslant, [0.0; 4])),
        (glass(tables, 1.0, INDEX), dark(Bounce { tf: Color([-0.0, 1.0, -0.0, 0.5]), ..aslant }, minus)),
        (metal(tables, 1e-5), one(plain_bounce(Vec3::Z, 0.0, 0.0, 1.0, 0.0), REFLECTED, Vec3::Z, certain, None, minus)),
    ];
    list.into_iter().unzip()
}

/// Rough glass with a bounce whose light leaves it along the wall, where g over g1 isn't 0; and delta metal that meets the
/// light then. At some index the light of a sampled facet begins to pass: of the two neighbouring doubles there the upper
/// one often passes it with a z of 0. The normal is an axis, so that the local z is one of the world direction's parts, and
/// not always its z.
pub fn found(rng: &mut Rng, tables: Tables) -> (Vec<Lumo>, [Bounce; 2]) {
    loop {
        let a = rng.between(0.05, 1.0);
        let [c, s] = circle_pair(rng);
        let normal = [Vec3::Z, Vec3::X, Vec3::Y, -Vec3::Z][rng.below(4)];
        let onb = Onb::new(normal);
        let b = Bounce { normal, ..plain_bounce(onb.to_world(direction(rng)), 1f64.next_down(), rng.unit(), c, s) };
        if refused(&ON_GRID, &metal(tables, a).surface, &b) != 0 {
            continue;
        }
        let passes = |index: f64| rust(&ON_GRID, &glass(tables, a, index), &b).case == PASSED;
        let (mut low, mut high) = (0.02, 50.0);
        if passes(low) || !passes(high) {
            continue;
        }
        while low.next_up() < high {
            let middle = f64::from_bits(low.to_bits().midpoint(high.to_bits()));
            if passes(middle) { high = middle } else { low = middle }
        }
        let of = glass(tables, a, high);
        let answer = rust(&ON_GRID, &of, &b);
        let (wo, wi) = (onb.to_local(b.wo), onb.to_local(answer.wi));
        let facets = facets(of.surface.a);
        let wh = facets.sample_normal(wo, Random { x: b.disk, y: 0.0, c: b.c, s: b.s });
        if wi.z == 0.0 && g_over_g1(facets, wo, wi, wh) != 0.0 {
            assert_eq!(answer.path.power.0, [0.0; 4], "the driver's own weight along the wall");
            return (vec![of, metal(tables, 1e-5)], [b, plain_bounce(Vec3::Z, 0.0, 0.0, 1.0, 0.0)]);
        }
    }
}
