//! One ring as a call is lent it: its coordinates and its point count, good and bad.

use crate::rings::{self, Corner};
use crate::{damage, limits, Random};

#[derive(Clone, Debug, PartialEq, Eq)]
pub struct Lent {
    pub coords: Vec<i32>,
    pub points: usize,
}

impl Lent {
    pub fn of(ring: &[Corner]) -> Self {
        Lent { coords: rings::coordinates(ring), points: ring.len() }
    }

    fn with(&self, change: impl FnOnce(&mut Self)) -> Self {
        let mut lent = self.clone();
        change(&mut lent);
        lent
    }
}

/// Each rule on one ring kept by a hair and broken, alone and with those after it.
pub fn edges() -> Vec<Lent> {
    let most = Lent::of(&rings::one_point([3, 4], limits::MOST_SEGMENTS));
    let over = Lent::of(&rings::one_point([3, 4], limits::MOST_SEGMENTS + 1));
    let s = Lent::of(&rings::sheet_square());
    let empty = Lent { coords: vec![], points: 0 };
    let mut all = vec![most.clone(), over, s.clone(), empty.clone(), Lent::of(&rings::one_point([3, 4], 1))];
    for ring in [&s, &most] {
        // the count beside coordinates that are not as many
        for points in [0, 1, 2, 4, 6, limits::MOST_POINTS, limits::MOST_POINTS + 1, 1 << 31, usize::MAX / 2, usize::MAX]
        {
            all.push(ring.with(|r| r.points = points));
        }
        for n in [0, 1, 2, 9, 11, 12] {
            all.push(ring.with(|r| r.coords.resize(n, 0)));
        }
    }
    all.extend([1, 2, 3].map(|points| Lent { points, ..empty.clone() }));
    // not closed, in one coordinate or both; beyond where the Rust's products do not wrap, at each place
    let limit = limits::UNWRAPPED;
    for at in [0, 1, 2, 5, 8, 9] {
        for z in [-1, 1, limit, limit + 1, -limit, -limit - 1, i32::MAX, i32::MIN] {
            all.push(s.with(|r| r.coords[at] = z));
            all.push(s.with(|r| {
                r.coords[at] = z;
                if at < 2 {
                    r.coords[8 + at] = z;
                }
            }));
        }
    }
    all
}

/// A good ring with something wrong in its coordinates or its count; it may still be accepted.
pub fn damaged(random: &mut Random, ring: &[Corner]) -> Lent {
    let good = Lent::of(ring);
    match random.below(4) {
        0 => good.with(|r| r.points = random.any_length() as usize),
        1 => good.with(|r| r.points = r.points.wrapping_add(random.between(-1, 1) as usize)),
        _ => {
            let numbers: Vec<u32> = good.coords.iter().map(|&z| z as u32).collect();
            let coords = damage::numbers(random, &numbers).iter().map(|&z| z as i32).collect();
            Lent { coords, ..good }
        }
    }
}
