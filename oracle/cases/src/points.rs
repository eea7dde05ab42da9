//! Points to ask a segment or a ring about: on it, next to it by one float, and far from it.

use crate::floats::{self, with_neighbours};
use crate::rings::Corner;
use crate::Random;

pub type Place = [f64; 2];

/// Floats that are no place on a board, or barely one.
pub const ODD: [f64; 12] = [
    f64::NAN,
    f64::INFINITY,
    f64::NEG_INFINITY,
    0.0,
    -0.0,
    5e-324,
    -5e-324,
    f64::MIN_POSITIVE,
    f64::MAX,
    f64::MIN,
    9_223_372_036_854_775_808.0,
    -9_223_372_036_854_775_808.0,
];

pub fn place(c: Corner) -> Place {
    c.map(f64::from)
}

/// The place with every neighbour of each of its coordinates: nine in all.
pub fn around(p: Place) -> impl Iterator<Item = Place> {
    with_neighbours(p[0]).into_iter().flat_map(move |x| with_neighbours(p[1]).into_iter().map(move |y| [x, y]))
}

/// Points of a segment: around its ends, its middle and three more places on it, around the places
/// left and right of it at these heights, and the odd ones.
pub fn of_segment(a: Corner, b: Corner) -> Vec<Place> {
    let (from, to) = (place(a), place(b));
    let mut places = Vec::new();
    for part in [0.0, 0.25, 1.0 / 3.0, 0.5, 0.9, 1.0] {
        let on = on_line(from, to, part);
        places.extend(around(on));
        for off in [-1e10, -1.0, -0.5, 0.5, 1.0, 1e10] {
            places.push([on[0] + off, on[1]]);
            places.push([on[0], on[1] + off]);
        }
    }
    for odd in ODD {
        places.extend([[odd, from[1]], [from[0], odd], [odd, odd]]);
    }
    places
}

/// The place that lies a part of the way from a to b, as near as floats come.
fn on_line(a: Place, b: Place, part: f64) -> Place {
    if part == 1.0 {
        return b;
    }
    [a[0] + (b[0] - a[0]) * part, a[1] + (b[1] - a[1]) * part]
}

/// A random point of a ring: at a corner, on a side, at a corner's height, in the box or anywhere;
/// half of them are moved by one float.
pub fn random(random: &mut Random, ring: &[Corner]) -> Place {
    let i = random.below(ring.len() - 1);
    let (a, b) = (place(ring[i]), place(ring[i + 1]));
    let other = place(*random.pick(ring));
    let p = match random.below(10) {
        0 | 1 => a,
        2 | 3 => on_line(a, b, random.part()),
        4 => on_line(a, b, 0.5),
        5 => [other[0], a[1]],
        6 => [a[0] + (other[0] - a[0]) * random.part(), a[1] + (other[1] - a[1]) * random.part()],
        7 => [a[0] + random.between(-3, 3) as f64 * 0.5, a[1] + random.between(-3, 3) as f64 * 0.5],
        8 => [random.next() as i32 as f64, a[1]],
        _ => [f64::from_bits(floats::random(random)), f64::from_bits(floats::random(random))],
    };
    let moved = |random: &mut Random, c: f64| if random.one_in(2) { *random.pick(&with_neighbours(c)) } else { c };
    [moved(random, p[0]), moved(random, p[1])]
}

/// Heights to list a ring at: every corner's and its neighbours, up to a number of corners, the box's
/// ends from outside, and a few odd ones. Not all are finite.
pub fn heights(ring: &[Corner], most: usize) -> Vec<f64> {
    let step = ring.len().div_ceil(most.max(1));
    let mut heights: Vec<f64> = ring.iter().step_by(step).flat_map(|c| with_neighbours(f64::from(c[1]))).collect();
    let ends = [ring.iter().map(|c| c[1]).min(), ring.iter().map(|c| c[1]).max()];
    heights.extend(ends.into_iter().flatten().flat_map(|y| [-1.0, 0.0, 1.0].map(|d| f64::from(y) + d)));
    heights.extend(ODD);
    heights
}

/// A random height, most often one inside the ring's box.
pub fn random_height(r: &mut Random, ring: &[Corner]) -> f64 {
    random(r, ring)[1]
}

/// Whole places for the whole-number test: at corners, on sides where they meet the grid, next to
/// them, and far away.
pub fn random_whole(random: &mut Random, ring: &[Corner]) -> [i64; 2] {
    let i = random.below(ring.len() - 1);
    let (a, b) = (ring[i].map(i64::from), ring[i + 1].map(i64::from));
    let k = random.between(0, 16);
    let p = match random.below(8) {
        0 | 1 => a,
        2 | 3 => [a[0] + (b[0] - a[0]) * k / 16, a[1] + (b[1] - a[1]) * k / 16],
        4 => [i64::from(random.pick(ring)[0]), a[1]],
        5 => [i64::from(random.next() as i32), i64::from(random.next() as i32)],
        6 => [random.next() as i64 >> random.below(64), a[1]],
        _ => return [*random.pick(&[i64::MIN, i64::MAX, 0]), *random.pick(&[i64::MIN, i64::MAX, 0])],
    };
    p.map(|c| c.saturating_add(random.between(-1, 1)))
}

#[cfg(test)]
mod tests {
    use super::*;
    use crate::rings;

    #[test]
    fn a_segment_gets_its_ends_and_what_lies_next_to_them() {
        let places = of_segment([0, 0], [10, 5]);
        for p in [[0.0, 0.0], [10.0, 5.0], [10.0, floats::up(5.0)], [floats::down(10.0), 5.0], [5.0, 2.5]] {
            assert!(places.contains(&p), "{p:?}");
        }
    }

    #[test]
    fn random_points_do_not_panic() {
        let mut r = Random::new(crate::SEED, "test");
        for named in rings::edges() {
            random(&mut r, &named.ring);
            random_whole(&mut r, &named.ring);
            heights(&named.ring, 10);
        }
    }
}
