//! What is measured: rings of four shapes, outlines with holes, and the places that are asked about.

use cases::rings::{self, Ring};
use cases::Random;

pub const SIZES: [usize; 3] = [64, 512, 4096];

pub const SHAPES: [&str; 4] = ["circle", "star", "walk", "comb"];

const RADIUS: f64 = 1_000_000.0;

/// A ring of a shape with that many segments. Every tooth of the comb is as high as the ring.
pub fn ring(shape: &str, segments: usize) -> Ring {
    let mut random = Random::new(segments as u64, shape);
    match shape {
        "circle" => rings::circle([0.0, 0.0], RADIUS, segments),
        "star" => rings::star([0.0, 0.0], segments, |_| RADIUS * (0.3 + 0.7 * random.part())),
        "walk" => rings::walk(&mut random, [0, 0], 10_000, segments),
        "comb" => rings::comb([0, 0], 400, 1_000_000, segments),
        _ => unreachable!("{shape} is no shape"),
    }
}

/// A circle of 512 segments with holes of 64 segments each, side by side in it.
pub fn outline(holes: usize) -> Vec<Ring> {
    let mut all = vec![rings::circle([0.0, 0.0], RADIUS, 512)];
    let places = (0..100).map(|i| [f64::from(i % 10) - 4.5, f64::from(i / 10) - 4.5]);
    // those of a grid of ten by ten that lie well inside
    let inside = places.filter(|[x, y]| x * x + y * y < 4.6 * 4.6).map(|c| c.map(|z| z * 0.18 * RADIUS));
    all.extend(inside.take(holes).map(|centre| rings::circle(centre, 0.08 * RADIUS, 64)));
    assert_eq!(all.len(), holes + 1, "there is a place for every hole");
    all
}

/// Places all over the exterior's box, and a little beyond it.
pub fn queries(exterior: &Ring, n: usize) -> Vec<[f64; 2]> {
    let mut random = Random::new(n as u64, "queries");
    let range = |axis: usize| {
        let all = || exterior.iter().map(|c| f64::from(c[axis]));
        let (low, high) = (all().fold(f64::INFINITY, f64::min), all().fold(f64::NEG_INFINITY, f64::max));
        (low - 0.02 * (high - low), 1.04 * (high - low))
    };
    let (x, y) = (range(0), range(1));
    (0..n).map(|_| [x.0 + x.1 * random.part(), y.0 + y.1 * random.part()]).collect()
}

/// Places on the rings, where an edge rule or a lost segment shows: corners and the middles of sides.
pub fn on_edges(all: &[Ring]) -> Vec<[f64; 2]> {
    let middle = |s: &[[i32; 2]]| [0, 1].map(|c| (f64::from(s[0][c]) + f64::from(s[1][c])) / 2.0);
    let sides = || all.iter().flat_map(|ring| ring.windows(2));
    sides().map(|s| s[0].map(f64::from)).chain(sides().map(middle)).collect()
}
