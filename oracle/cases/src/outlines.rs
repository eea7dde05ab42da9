//! Outlines: rings, scale and mode as a caller hands them over, good and bad.

use crate::rings::{self, Corner, Ring};
use crate::{damage, floats, limits, points, Random};

#[derive(Copy, Clone, Debug, PartialEq, Eq)]
pub enum Mode {
    Float,
    Integer,
}

/// Which index an outline's rings are given.
#[derive(Copy, Clone, Debug, PartialEq, Eq)]
pub enum Index {
    Scan,
    Stripes,
    Tree,
    Both,
}

pub const INDEXES: [Index; 4] = [Index::Scan, Index::Stripes, Index::Tree, Index::Both];

#[derive(Clone, Debug)]
pub struct Outline {
    /// Points of each ring, the exterior first.
    pub sizes: Vec<usize>,
    /// Two a point, ring after ring.
    pub coordinates: Vec<i32>,
    pub scale: f64,
    pub mode: Mode,
}

impl Outline {
    pub fn new(rings: &[Ring], scale: f64, mode: Mode) -> Self {
        Outline {
            sizes: rings.iter().map(Vec::len).collect(),
            coordinates: rings.iter().flat_map(|r| rings::coordinates(r)).collect(),
            scale,
            mode,
        }
    }

    /// The rings of an outline that no rule refuses.
    pub fn rings(&self) -> Vec<Ring> {
        let corners: Vec<Corner> = self.coordinates.chunks_exact(2).map(|c| [c[0], c[1]]).collect();
        let mut rest = &corners[..];
        let mut rings = Vec::new();
        for &size in &self.sizes {
            let (ring, behind) = rest.split_at(size);
            rings.push(ring.to_vec());
            rest = behind;
        }
        rings
    }

    /// What 01's rules 1 to 5 say: the number and the place of the first that refuses.
    pub fn refusal(&self) -> Option<(u32, usize)> {
        let ring = |bad: &dyn Fn(usize) -> bool| self.sizes.iter().position(|&n| bad(n));
        if self.sizes.is_empty() {
            return Some((1, 0));
        }
        if let Some(k) = ring(&|n| n < limits::LEAST_POINTS) {
            return Some((1, k));
        }
        if self.sizes.len() > limits::RINGS {
            return Some((2, limits::RINGS));
        }
        if let Some(k) = ring(&|n| n > limits::MOST_POINTS) {
            return Some((2, k));
        }
        if self.sizes.iter().sum::<usize>() * 2 != self.coordinates.len() {
            return Some((3, 0));
        }
        let rings = self.rings();
        if let Some(k) = rings.iter().position(|r| r.first() != r.last()) {
            return Some((4, k));
        }
        if !(self.scale.is_finite() && self.scale > 0.0) {
            return Some((5, 0));
        }
        None
    }
}

/// Scales from the smallest to the largest.
pub const SCALES: [f64; 10] = [5e-324, f64::MIN_POSITIVE, 1e-5, 0.1, 0.5, 1.0, 3.0, 1e5, 1e300, f64::MAX];

/// S and H; holes in holes, touching the exterior or one another, equal to it, outside it; 1 and 64 rings.
pub fn edges() -> Vec<Outline> {
    let square = |x, y, side| rings::square([x, y], side, 4);
    let s = rings::sheet_square;
    let mut shapes: Vec<Vec<Ring>> = vec![
        vec![s()],
        vec![s(), rings::sheet_hole()],
        vec![s(), square(2, 2, 6), square(4, 4, 2)],
        vec![s(), square(0, 0, 5), square(5, 5, 5)],
        vec![s(), square(2, 2, 3), square(5, 2, 3), square(5, 5, 3)],
        vec![s(), s()],
        vec![s(), square(20, 20, 5)],
        vec![s(), square(-5, -5, 30)],
        vec![s(), rings::one_point([5, 5], 1), rings::spike([3, 3], [7, 7], 2)],
        vec![rings::one_point([5, 5], 1)],
        vec![rings::one_point([5, 5], 1), s()],
        vec![rings::square([-limits::UNWRAPPED; 2], 2 * limits::UNWRAPPED, 4), s()],
        vec![rings::wrapping()],
        vec![rings::wrapping(), s()],
    ];
    for count in [limits::RINGS - 1, limits::RINGS] {
        let mut many = vec![square(0, 0, 1000)];
        many.extend((1..count).map(|k| square(10 * (k as i32 % 8), 10 * (k as i32 / 8), 10)));
        shapes.push(many);
    }
    let mut outlines = Vec::new();
    for shape in &shapes {
        for mode in [Mode::Float, Mode::Integer] {
            outlines.extend(SCALES.map(|scale| Outline::new(shape, scale, mode)));
        }
    }
    outlines
}

/// A random outline that is accepted.
pub fn random(random: &mut Random) -> Outline {
    let mode = if random.one_in(3) { Mode::Integer } else { Mode::Float };
    let holes = match random.below(12) {
        0 => limits::RINGS - 1 - random.below(2),
        1..=3 => 2 + random.below(8),
        4..=7 => 1,
        _ => 0,
    };
    let mut shape = vec![rings::random(random)];
    for _ in 0..holes {
        let hole = hole_of(random, &shape[0]);
        shape.push(hole);
    }
    // beyond, the Rust's products may wrap
    if mode == Mode::Integer && !random.one_in(4) {
        shape = shape.iter().map(|r| rings::held_unwrapped(r)).collect();
    }
    Outline::new(&shape, random_scale(random), mode)
}

/// A ring of any shape, or a small one near a corner of the exterior, or one that shares its corners.
fn hole_of(random: &mut Random, exterior: &[Corner]) -> Ring {
    let [x, y] = *random.pick(exterior);
    match random.below(4) {
        0 => rings::random(random),
        1 => rings::damaged(random, exterior),
        2 => rings::walk(random, [x, y], 20, 5),
        _ => {
            let radius = f64::from(1 + random.below(200) as u32);
            rings::circle([f64::from(x), f64::from(y)], radius, 3 + random.below(20))
        }
    }
}

fn random_scale(random: &mut Random) -> f64 {
    match random.below(6) {
        0 | 1 => 1.0,
        2 => *random.pick(&SCALES),
        3 => floats::power_of_two(random.between(-40, 40) as i32),
        4 => *random.pick(&[1e-7, 1e-3, 1e-2, 10.0, 100.0, 1e3, 1e6, 1e7]),
        _ => (1.0 + random.part()) * floats::power_of_two(random.between(-1074, 1022) as i32),
    }
}

/// A query for an outline, before scaling: near its rings where that can be said, or anything.
pub fn random_query(random: &mut Random, rings: &[Ring], scale: f64) -> points::Place {
    if random.one_in(30) {
        return [*random.pick(&points::ODD), *random.pick(&points::ODD)];
    }
    let ring = random.pick(rings).clone();
    points::random(random, &ring).map(|c| c / scale)
}

/// Breaks one rule: a number of the table, and one of its ways.
type Break = (u32, fn(&mut Outline));

/// Every way that this file knows to break a rule.
const BREAKS: [Break; 22] = [
    (1, |o| *o = Outline { sizes: vec![], coordinates: vec![], ..o.clone() }),
    (1, |o| o.sizes[0] = 1),
    (1, |o| *last(&mut o.sizes) = 0),
    (1, |o| *last(&mut o.sizes) = 1),
    (2, |o| o.sizes.resize(limits::RINGS + 1, 5)),
    (2, |o| o.sizes.resize(limits::RINGS + 100, 5)),
    (2, |o| o.sizes[0] = limits::MOST_POINTS + 1),
    (2, |o| *last(&mut o.sizes) = limits::MOST_POINTS + 1),
    (2, |o| *last(&mut o.sizes) = u32::MAX as usize),
    (3, |o| o.coordinates.push(0)),
    (3, |o| o.coordinates.truncate(o.coordinates.len() - 1)),
    (3, |o| o.coordinates.extend([0, 0])),
    (3, |o| o.sizes[0] += 1),
    (4, |o| o.coordinates[0] += 1),
    (4, |o| o.coordinates[1] -= 1),
    (4, |o| *last(&mut o.coordinates) += 1),
    (5, |o| o.scale = 0.0),
    (5, |o| o.scale = -0.0),
    (5, |o| o.scale = -1.0),
    (5, |o| o.scale = f64::NAN),
    (5, |o| o.scale = f64::INFINITY),
    (5, |o| o.scale = f64::NEG_INFINITY),
];

fn last<T>(row: &mut [T]) -> &mut T {
    row.last_mut().expect("an outline that is broken has a ring and coordinates")
}

/// Outlines that break one rule, in each way, and two rules, in each pair of ways.
pub fn broken() -> Vec<Outline> {
    let good = Outline::new(&[rings::sheet_square(), rings::sheet_hole(), rings::sheet_hole()], 1.0, Mode::Float);
    let mut outlines = Vec::new();
    for (i, (_, first)) in BREAKS.iter().enumerate() {
        let mut one = good.clone();
        first(&mut one);
        for (_, second) in &BREAKS[i + 1..] {
            let mut two = one.clone();
            if two.coordinates.len() > 3 {
                second(&mut two);
                outlines.push(two);
            }
        }
        outlines.push(one);
    }
    // two ways may undo each other
    outlines.retain(|o| o.refusal().is_some());
    outlines
}

/// A copy with something wrong in its sizes, its coordinates or its scale; it may still be accepted.
pub fn damaged(random: &mut Random, good: &Outline) -> Outline {
    let mut outline = good.clone();
    match random.below(5) {
        0 => {
            let sizes: Vec<u32> = outline.sizes.iter().map(|&n| n as u32).collect();
            outline.sizes = damage::numbers(random, &sizes).iter().map(|&n| n as usize).collect();
        }
        1 => {
            let numbers: Vec<u32> = outline.coordinates.iter().map(|&c| c as u32).collect();
            outline.coordinates = damage::numbers(random, &numbers).iter().map(|&c| c as i32).collect();
        }
        2 => outline.scale = f64::from_bits(floats::damaged(random, outline.scale.to_bits())),
        3 => {
            let at = random.below(outline.coordinates.len());
            outline.coordinates[at] = outline.coordinates[at].wrapping_add(random.between(-1, 1) as i32);
        }
        _ => outline.mode = if outline.mode == Mode::Float { Mode::Integer } else { Mode::Float },
    }
    outline
}

#[cfg(test)]
mod tests {
    use super::*;

    #[test]
    fn edges_and_random_ones_are_accepted() {
        let mut r = Random::new(crate::SEED, "test");
        assert!(edges().iter().all(|o| o.refusal().is_none()));
        for _ in 0..500 {
            let outline = random(&mut r);
            assert_eq!(outline.refusal(), None);
            damaged(&mut r, &outline).refusal();
            random_query(&mut r, &outline.rings(), outline.scale);
        }
    }

    #[test]
    fn each_way_breaks_its_own_rule() {
        let good = Outline::new(&[rings::sheet_square(), rings::sheet_hole()], 1.0, Mode::Float);
        for (i, (number, way)) in BREAKS.iter().enumerate() {
            let mut outline = good.clone();
            way(&mut outline);
            assert_eq!(outline.refusal().map(|r| r.0), Some(*number), "way {i}");
        }
        assert!(broken().iter().all(|o| o.refusal().is_some()));
    }

    #[test]
    fn both_sides_of_each_size() {
        let ring = |points: usize| rings::one_point([1, 2], points - 1);
        let refusal = |rings: &[Ring]| Outline::new(rings, 1.0, Mode::Float).refusal();
        assert_eq!(refusal(&[ring(4097)]), None);
        assert_eq!(refusal(&[ring(2), ring(4098)]), Some((2, 1)));
        assert_eq!(refusal(&[ring(2), ring(1)]), Some((1, 1)));
        assert_eq!(refusal(&vec![ring(2); 64]), None);
        assert_eq!(refusal(&vec![ring(2); 65]), Some((2, 64)));
        let integer = |c| Outline::new(&[rings::one_point([c, 0], 1)], 1.0, Mode::Integer).refusal();
        for c in [1_073_741_824, -1_073_741_824, i32::MAX, i32::MIN] {
            assert_eq!(integer(c), None);
        }
    }
}
