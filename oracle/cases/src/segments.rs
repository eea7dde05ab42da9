//! Segments of whole-number ends: flat, upright, sloped, reversed, one point.

use crate::points::{self, Place};
use crate::rings::Corner;
use crate::{limits, Random};

pub type Ends = [Corner; 2];

/// Every segment between two places of a small grid.
pub fn of_grid(side: i32) -> impl Iterator<Item = Ends> {
    let places = move || (0..side).flat_map(move |x| (0..side).map(move |y| [x, y]));
    places().flat_map(move |a| places().map(move |b| [a, b]))
}

/// The places of that grid, of the rim around it and halfway between, each with its neighbours by one float.
pub fn half_steps(side: i32) -> Vec<Place> {
    let steps = move || (-2..=2 * side).map(|n| f64::from(n) * 0.5);
    steps().flat_map(|x| steps().flat_map(move |y| points::around([x, y]))).collect()
}

/// Each kind of segment, small, large, at the ends of i32 and of where the Rust's products do not wrap; each both ways round.
pub fn edges() -> Vec<Ends> {
    const PLACES: [i32; 9] =
        [0, 1, -7, 1 << 24, limits::UNWRAPPED, -limits::UNWRAPPED, limits::UNWRAPPED + 1, i32::MAX, i32::MIN];
    const STEPS: [[i32; 2]; 9] =
        [[0, 0], [1, 0], [0, 1], [1, 1], [3, -2], [1000, 1], [1, 1000], [i32::MAX, 1], [i32::MAX, i32::MAX]];
    let mut all = Vec::new();
    for x in PLACES {
        for y in PLACES {
            for [dx, dy] in STEPS {
                let (a, b) = ([x, y], [x.saturating_add(dx), y.saturating_add(dy)]);
                all.extend([[a, b], [b, a]]);
            }
        }
    }
    all
}

/// A random segment: of any size anywhere, flat, upright, one point, or from end to end of i32.
pub fn random(random: &mut Random) -> Ends {
    let mut any = || random.next() as i32 >> random.below(32);
    let ([ax, ay], [bx, by]) = ([any(), any()], [any(), any()]);
    match random.below(10) {
        0 => [[ax, ay], [bx, ay]],
        1 => [[ax, ay], [ax, by]],
        2 => [[ax, ay], [ax, ay]],
        3 => [[ax, ay], [ax.saturating_add(bx % 8), ay.saturating_add(by % 8)]],
        4 => {
            let mut end = || *random.pick(&[i32::MIN, i32::MIN + 1, -1, 0, 1, i32::MAX - 1, i32::MAX]);
            [[end(), end()], [end(), end()]]
        }
        5 => [[ax % 8, ay % 8], [bx % 8, by % 8]],
        _ => [[ax, ay], [bx, by]],
    }
}

/// The same segment with every coordinate held to where the Rust's products do not wrap.
pub fn held_unwrapped(ends: Ends) -> Ends {
    let most = limits::UNWRAPPED;
    ends.map(|c| c.map(|x| x.clamp(-most, most)))
}

/// Segments as long as the range, or as its diagonal: each end at an end of i32, or one or two units from it.
pub fn as_long_as_the_range() -> Vec<Ends> {
    const ENDS: [i32; 6] = [i32::MIN, i32::MIN + 1, i32::MIN + 2, i32::MAX - 2, i32::MAX - 1, i32::MAX];
    let corners = || ENDS.into_iter().flat_map(|x| ENDS.into_iter().map(move |y| [x, y]));
    corners().flat_map(|a| corners().map(move |b| [a, b])).collect()
}

/// Places on the segment where it meets the grid, or as near to it as that comes, each with the places one unit from it.
pub fn near_the_line([a, b]: Ends) -> Vec<Corner> {
    let [from, to] = [a, b].map(|c| c.map(i128::from));
    let mut places = Vec::new();
    for part in [0, 1, 5, 8, 11, 15, 16] {
        let on = [0, 1].map(|i| from[i] + (to[i] - from[i]) * part / 16);
        for dx in -1..=1 {
            for dy in -1..=1 {
                let clamped = [on[0] + dx, on[1] + dy].map(|c| c.clamp(i32::MIN.into(), i32::MAX.into()) as i32);
                places.push(clamped);
            }
        }
    }
    places
}

#[cfg(test)]
mod tests {
    use super::*;

    #[test]
    fn a_grid_has_every_kind() {
        let all: Vec<Ends> = of_grid(3).collect();
        assert_eq!(all.len(), 81);
        for kind in [[[1, 1], [1, 1]], [[0, 1], [2, 1]], [[2, 1], [0, 1]], [[1, 0], [1, 2]], [[2, 2], [0, 1]]] {
            assert!(all.contains(&kind), "{kind:?}");
        }
        let places = half_steps(3);
        assert_eq!(places.len(), 81 * 9);
        assert!(places.contains(&[-1.0, 0.5]) && places.contains(&[crate::floats::up(3.0), 3.0]));
    }

    #[test]
    fn random_ones_have_points() {
        let mut r = Random::new(crate::SEED, "test");
        for ends in edges() {
            points::of_segment(ends[0], ends[1]);
        }
        for _ in 0..1000 {
            let ends = random(&mut r);
            points::random(&mut r, &ends);
            points::random_whole(&mut r, &held_unwrapped(ends));
        }
    }
}
