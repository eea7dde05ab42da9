//! The families of questions, one file for each layer of the library.

mod boxes;
mod numbers;
mod outlines;
mod rings;
mod segments;
mod stripes;
mod trees;
mod varints;
mod wkb;

use crate::report::Plan;
use cases::rings::Corner;
use opened::{I32Point, Point};

/// A family's name and what runs it; true where nothing is amiss.
pub type Run = (&'static str, fn(Plan) -> bool);

pub const ALL: &[&[Run]] = &[
    numbers::FAMILIES,
    varints::FAMILIES,
    boxes::FAMILIES,
    segments::FAMILIES,
    rings::FAMILIES,
    stripes::FAMILIES,
    trees::FAMILIES,
    outlines::FAMILIES,
    wkb::FAMILIES,
];

/// The bits; no bits for a NaN, which is one value whatever its bits.
fn bits(x: f64) -> Option<u64> {
    (!x.is_nan()).then(|| x.to_bits())
}

fn all_bits<const N: usize>(row: [f64; N]) -> [Option<u64>; N] {
    row.map(bits)
}

fn shown(x: f64) -> String {
    format!("{x:e} (bits {:016x})", x.to_bits())
}

fn all_shown(row: &[f64]) -> String {
    row.iter().map(|&x| shown(x)).collect::<Vec<_>>().join(", ")
}

/// A ring as the Rust takes it.
fn rust_ring(ring: &[Corner]) -> Vec<I32Point> {
    ring.iter().map(|&[x, y]| Point { x, y }).collect()
}
