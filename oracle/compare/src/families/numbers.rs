//! Next up, floor, rounding and root, on every edge and on random bit patterns. A NaN is one value,
//! whatever its bits.

use super::{bits, shown, Run};
use crate::ours;
use crate::report::{Family, Plan};
use cases::{floats, Random};

pub const FAMILIES: &[Run] = &[
    ("next_up", next_up),
    ("floor", |plan| {
        let mut family = Family::new("floor", &[]);
        each(plan, "floor", |x| family.same(ours::floor(x), x.floor() as i64, || shown(x)));
        family.end()
    }),
    ("floor_within", floor_within),
    ("round", |plan| {
        let mut family = Family::new("round", &[]);
        each(plan, "round", |x| family.same(ours::round(x), x.round() as i64, || shown(x)));
        family.end()
    }),
    ("sqrt", |plan| {
        let mut family = Family::new("sqrt", &[]);
        each(plan, "sqrt", |x| family.same(bits(ours::sqrt(x)), bits(x.sqrt()), || shown(x)));
        family.end()
    }),
    ("is_finite", |plan| {
        let mut family = Family::new("is_finite", &[]);
        each(plan, "is_finite", |x| family.same(ours::is_finite(x), x.is_finite(), || shown(x)));
        family.end()
    }),
    ("abs", |plan| {
        let mut family = Family::new("abs", &[]);
        each(plan, "abs", |x| family.same(bits(ours::abs(x)), bits(x.abs()), || shown(x)));
        family.end()
    }),
    ("lesser", |plan| pairs(plan, "lesser", ours::lesser, f64::min)),
    ("greater", |plan| pairs(plan, "greater", ours::greater, f64::max)),
];

const FROM_MINUS_INFINITY: &str = "next up from -infinity: IEEE 754 has the least finite value, geometry-rs stays";

/// Held against Rust's own `f64::next_up`, which is IEEE 754's, and against geometry-rs.
fn next_up(plan: Plan) -> bool {
    let mut family = Family::new("next_up", &[FROM_MINUS_INFINITY]);
    each(plan, "next_up", |x| {
        let ours = bits(ours::next_up(x));
        let theirs = bits(opened::open::next_up(x));
        family.same(ours, bits(x.next_up()), || shown(x));
        if x == f64::NEG_INFINITY {
            family.recorded(
                FROM_MINUS_INFINITY,
                [ours, theirs],
                [Some(0xffef_ffff_ffff_ffff), Some(0xfff0_0000_0000_0000)],
            );
        } else {
            family.same(ours, theirs, || shown(x));
        }
    });
    family.end()
}

/// The floor held from 0 to a top, as Rust's `as u64` and `min` hold it.
fn floor_within(plan: Plan) -> bool {
    let mut family = Family::new("floor_within", &[]);
    let mut tops = Random::new(plan.seed, "floor_within tops");
    each(plan, "floor_within", |x| {
        let near = (x.floor() as u64).wrapping_add(tops.between(-1, 1) as u64);
        for top in [near, tops.any_length(), 0, u64::MAX] {
            let theirs = (x.floor() as u64).min(top);
            family.same(ours::floor_within(x, top), theirs, || format!("{} to {top}", shown(x)));
        }
    });
    family.end()
}

/// Every edge, then random patterns, then damaged copies of edges.
fn each(plan: Plan, name: &str, mut ask: impl FnMut(f64)) {
    let mut random = Random::new(plan.seed, name);
    let edges = floats::edges();
    for &x in &edges {
        ask(f64::from_bits(x));
    }
    for _ in 0..plan.random {
        ask(f64::from_bits(floats::random(&mut random)));
    }
    for _ in 0..plan.random / 4 {
        let good = *random.pick(&edges);
        ask(f64::from_bits(floats::damaged(&mut random, good)));
    }
}

/// Two floats. Rust leaves open which of two zeros it gives, so zeros count as one here.
fn pairs(plan: Plan, name: &'static str, ours: fn(f64, f64) -> f64, theirs: fn(f64, f64) -> f64) -> bool {
    let mut family = Family::new(name, &[]);
    let mut ask = |x: u64, y: u64| {
        let (x, y) = (f64::from_bits(x), f64::from_bits(y));
        family.same(bits(ours(x, y) + 0.0), bits(theirs(x, y) + 0.0), || format!("{} and {}", shown(x), shown(y)));
    };
    let landmarks = floats::landmarks();
    for &x in &landmarks {
        landmarks.iter().for_each(|&y| ask(x, y));
    }
    let mut random = Random::new(plan.seed, name);
    for _ in 0..plan.random {
        let [x, y] = floats::random_pair(&mut random);
        ask(x, y);
    }
    family.end()
}
