//! Boxes of any floats: least x and y, then greatest x and y, as the numbers stand.

use crate::floats::{self, with_neighbours};
use crate::Random;

pub type Box4 = [f64; 4];

/// Coordinates that every order can be made of: equal, next to each other, far apart, no number.
const COORDINATES: [f64; 13] = [
    f64::NAN,
    f64::NEG_INFINITY,
    f64::MIN,
    -1.0,
    -0.0,
    0.0,
    5e-324,
    0.5,
    1.0,
    1.000_000_000_000_000_2,
    2.0,
    f64::MAX,
    f64::INFINITY,
];

/// Every four of the coordinates: two boxes along one axis.
fn along_one_axis() -> impl Iterator<Item = [f64; 4]> {
    let all = COORDINATES;
    let pairs = move || all.into_iter().flat_map(move |a| all.into_iter().map(move |b| [a, b]));
    pairs().flat_map(move |[a, b]| pairs().map(move |[c, d]| [a, b, c, d]))
}

/// Two boxes: in every way along one axis, while along the other they overlap, touch, lie apart, or
/// one is no box.
pub fn edges() -> impl Iterator<Item = [Box4; 2]> {
    const OTHER: [[f64; 4]; 5] = [
        [0.0, 4.0, 1.0, 3.0],
        [0.0, 4.0, 2.0, 4.0],
        [0.0, 4.0, 4.0, 5.0],
        [0.0, 4.0, 5.0, 6.0],
        [0.0, f64::NAN, 1.0, 3.0],
    ];
    along_one_axis().flat_map(|[a, b, c, d]| {
        OTHER.into_iter().flat_map(move |[e, f, g, h]| [[[a, e, b, f], [c, g, d, h]], [[e, a, f, b], [g, c, h, d]]])
    })
}

/// A box between two corners, or any four floats.
pub fn random(random: &mut Random) -> Box4 {
    let mut number = || match random.below(6) {
        0 => f64::from_bits(floats::random(random)),
        1 => *random.pick(&COORDINATES),
        2 => random.between(-4, 4) as f64 * 0.5,
        _ => f64::from(random.next() as i32 >> random.below(32)),
    };
    let [a, b, c, d] = [number(), number(), number(), number()];
    if random.one_in(4) {
        return [a, b, c, d];
    }
    [a.min(c), b.min(d), a.max(c), b.max(d)]
}

/// Two boxes. The coordinates of the second are often the first's, its middle's, or next to them.
pub fn random_pair(r: &mut Random) -> [Box4; 2] {
    let first = random(r);
    let mut second = random(r);
    for (i, c) in second.iter_mut().enumerate() {
        let (low, high) = (first[i % 2], first[i % 2 + 2]);
        let near = match r.below(6) {
            0 => low,
            1 => high,
            2 | 3 => (low + high) / 2.0,
            _ => continue,
        };
        *c = *r.pick(&with_neighbours(near));
    }
    [first, second]
}

/// A copy with one number damaged, or two exchanged.
pub fn damaged(random: &mut Random, good: Box4) -> Box4 {
    let mut b = good;
    let (i, j) = (random.below(4), random.below(4));
    if random.one_in(4) {
        b.swap(i, j);
    } else {
        b[i] = f64::from_bits(floats::damaged(random, b[i].to_bits()));
    }
    b
}

#[cfg(test)]
mod tests {
    use super::*;

    #[test]
    fn pairs_touch_and_miss_by_one_float() {
        let mut r = Random::new(crate::SEED, "test");
        let pairs: Vec<_> = (0..10_000).map(|_| random_pair(&mut r)).collect();
        assert!(pairs.iter().any(|[a, b]| a[2] == b[0] && a[0] < a[2]));
        assert!(pairs.iter().any(|[a, b]| floats::up(a[2]) == b[0] && a[0] < a[2]));
        assert!(pairs.iter().any(|[a, b]| (a[0] + a[2]) / 2.0 == b[2] && a[0] < a[2]));
        damaged(&mut r, pairs[0][0]);
    }
}
