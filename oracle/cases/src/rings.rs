//! Rings of whole-number corners, closed: the last corner is the first.

use crate::{limits, Random};
use std::f64::consts::FRAC_PI_2;

pub type Corner = [i32; 2];
pub type Ring = Vec<Corner>;

#[derive(Clone, Debug)]
pub struct Named {
    pub name: &'static str,
    pub ring: Ring,
}

/// The coordinates in a row, two a point, as the library is lent them.
pub fn coordinates(ring: &[Corner]) -> Vec<i32> {
    ring.iter().flatten().copied().collect()
}

fn closed(mut corners: Ring) -> Ring {
    corners.push(corners[0]);
    corners
}

fn held(x: f64) -> i32 {
    // saturating
    x as i32
}

/// Cosine and sine of i parts of a full turn of n parts. Sums of products only, since a machine's own
/// sine may differ from another's in the last place.
fn direction(i: usize, n: usize) -> [f64; 2] {
    let quarters = 4.0 * i as f64 / n as f64;
    let nearest = (quarters + 0.5).floor();
    let angle = (quarters - nearest) * FRAC_PI_2;
    let series = |first: f64, start: u32| {
        let (mut term, mut sum) = (first, first);
        for k in (start..start + 20).step_by(2) {
            term *= -angle * angle / f64::from(k * (k + 1));
            sum += term;
        }
        sum
    };
    let (cos, sin) = (series(1.0, 1), series(angle, 2));
    match nearest as usize % 4 {
        0 => [cos, sin],
        1 => [-sin, cos],
        2 => [-cos, -sin],
        _ => [sin, -cos],
    }
}

// The shapes. Each has the number of segments that is asked for.

/// All corners the same.
pub fn one_point(at: Corner, segments: usize) -> Ring {
    vec![at; segments + 1]
}

/// To and fro between two corners. An odd number of segments repeats the last corner.
pub fn spike(a: Corner, b: Corner, segments: usize) -> Ring {
    closed((0..segments).map(|i| [a, b][i % 2]).collect())
}

/// A square from its south-west corner, anticlockwise; its first corner is repeated up to the number of segments.
pub fn square(at: Corner, side: i32, segments: usize) -> Ring {
    let [x, y] = at;
    let mut corners = vec![at; segments - 3];
    corners.extend([[x + side, y], [x + side, y + side], [x, y + side]]);
    closed(corners)
}

pub fn circle(centre: [f64; 2], radius: f64, segments: usize) -> Ring {
    star(centre, segments, |_| radius)
}

/// Round its centre, each corner at a distance of its own.
pub fn star(centre: [f64; 2], segments: usize, mut distance: impl FnMut(usize) -> f64) -> Ring {
    let corner = |i: usize| {
        let ([cos, sin], far) = (direction(i, segments), distance(i));
        [held(centre[0] + far * cos), held(centre[1] + far * sin)]
    };
    closed((0..segments).map(corner).collect())
}

/// Teeth side by side, each from the bottom of the ring to its top.
pub fn comb(at: Corner, pitch: i32, top: i32, segments: usize) -> Ring {
    let corner = |i: usize| {
        let x = at[0].saturating_add((i as i32).saturating_mul(pitch));
        [x, [at[1], top][i % 2]]
    };
    closed((0..segments).map(corner).collect())
}

/// Steps of up to `step` in each direction.
pub fn walk(random: &mut Random, at: Corner, step: i32, segments: usize) -> Ring {
    let mut here = at;
    let mut corners = Vec::with_capacity(segments + 1);
    for _ in 0..segments {
        corners.push(here);
        here = here.map(|c| c.saturating_add(random.between(-i64::from(step), i64::from(step)) as i32));
    }
    closed(corners)
}

/// Corners anywhere from low to high.
pub fn scatter(random: &mut Random, low: i32, high: i32, segments: usize) -> Ring {
    let mut any = || random.between(i64::from(low), i64::from(high)) as i32;
    closed((0..segments).map(|_| [any(), any()]).collect())
}

/// Corners at the ends of i32 and of where the Rust's products do not wrap, and next to them.
pub fn extremes(random: &mut Random, segments: usize) -> Ring {
    const ENDS: [i32; 13] = [
        i32::MIN,
        i32::MIN + 1,
        -limits::UNWRAPPED - 1,
        -limits::UNWRAPPED,
        -16_777_216,
        -1,
        0,
        1,
        16_777_216,
        limits::UNWRAPPED,
        limits::UNWRAPPED + 1,
        i32::MAX - 1,
        i32::MAX,
    ];
    closed((0..segments).map(|_| [*random.pick(&ENDS), *random.pick(&ENDS)]).collect())
}

/// A triangle whose doubled area is -1, 0 or 1, of any size up to i32's, its first corner repeated.
pub fn thin(random: &mut Random, segments: usize) -> Ring {
    // two vectors whose cross product stays 1: one is added to the other
    let (mut u, mut v) = ([1_i64, 0], [0_i64, 1]);
    for _ in 0..random.below(60) {
        let sum = [u[0] + v[0], u[1] + v[1]];
        if sum.iter().any(|&c| c > i64::from(i32::MAX)) {
            break;
        }
        *(if random.one_in(2) { &mut u } else { &mut v }) = sum;
    }
    let signs = [random.between(0, 1) * 2 - 1, random.between(0, 1) * 2 - 1];
    let mut at = |far: i64| random.between(i64::from(i32::MIN), i64::from(i32::MAX) - far);
    let from = [at(u[0].max(v[0])), at(u[1].max(v[1]))];
    let corner = |step: [i64; 2]| -> Corner {
        // mirrored about -1/2, which keeps to i32
        [0, 1].map(|c| if signs[c] == 1 { (from[c] + step[c]) as i32 } else { (-1 - (from[c] + step[c])) as i32 })
    };
    let mut corners = vec![corner([0, 0]); segments.max(3) - 2];
    corners.extend(match random.below(3) {
        0 => [corner(u), corner(v)],
        1 => [corner(v), corner(u)],
        _ => [corner(u), corner(u)],
    });
    closed(corners)
}

/// Corners on one line, up to the ends of i32, each any number of equal steps from one of them.
pub fn flat(random: &mut Random, segments: usize) -> Ring {
    let at = [0, 1].map(|_| i64::from(random.next() as i32));
    let step = [0, 1].map(|_| i64::from(random.next() as i32 >> random.below(32)));
    // the least and the most steps that stay in i32
    let (mut least, mut most) = (-1 << 32, 1 << 32);
    for c in [0, 1] {
        if step[c] != 0 {
            let ends = [i32::MIN, i32::MAX].map(|end| (i64::from(end) - at[c]) / step[c]);
            least = least.max(ends[0].min(ends[1]));
            most = most.min(ends[0].max(ends[1]));
        }
    }
    let mut corner = || {
        let steps = random.between(least, most);
        [0, 1].map(|c| (at[c] + steps * step[c]) as i32)
    };
    closed((0..segments).map(|_| corner()).collect())
}

/// Rings as large as i32 allows, each with the sign of its doubled area: the flattest triangles there
/// are, an area of 1 between products of 2^64, once and many times around; squares as many times around as
/// points allow, which takes 76 bits; and as many times back again, alone and with one such triangle.
pub fn flattest() -> Vec<(Ring, i32)> {
    // the sides from the first corner are (n, n - 1) and (n - 1, n - 2), with n = 2^32 - 1
    let thin: Ring = vec![LOW, [i32::MAX, i32::MAX - 1], [i32::MAX - 1, i32::MAX - 2]];
    let full: Ring = vec![LOW, [i32::MAX, i32::MIN], HIGH, [i32::MIN, i32::MAX]];
    // from the same first corner the other way round
    let back = |corners: &Ring| [&corners[..1], &corners[1..].iter().rev().copied().collect::<Ring>()].concat();
    let made = [
        (vec![LOW, HIGH, [0, 0]], 0),
        (thin.clone(), -1),
        (thin.repeat(limits::MOST_SEGMENTS / 3), -1),
        ([thin.clone(), back(&thin)].concat(), 0),
        (full.repeat(limits::MOST_SEGMENTS / 4), 1),
        ([full.repeat(512), back(&full).repeat(512)].concat(), 0),
        ([full.repeat(511), thin.clone(), back(&full).repeat(511)].concat(), -1),
    ];
    // and backwards
    made.iter().flat_map(|(corners, sign)| [(closed(corners.clone()), *sign), (closed(back(corners)), -sign)]).collect()
}

/// The same ring started at its k-th corner, and closed there.
pub fn started_at(k: usize, ring: &[Corner]) -> Ring {
    let open = &ring[..ring.len() - 1];
    let k = k % open.len();
    closed([&open[k..], &open[..k]].concat())
}

/// 01's S, and the hole of its H.
pub fn sheet_square() -> Ring {
    square([0, 0], 10, 4)
}

pub fn sheet_hole() -> Ring {
    square([2, 2], 6, 4)
}

/// A ring of each shape at each size that a rule turns at: all are accepted in Float mode.
pub fn edges() -> Vec<Named> {
    let mut random = Random::new(crate::SEED, "ring edges");
    let mut rings = Vec::new();
    let mut add = |name, ring| rings.push(Named { name, ring });
    add("S", sheet_square());
    add("H's hole", sheet_hole());
    add("S clockwise", sheet_square().into_iter().rev().collect());
    for (a, b) in [
        ([0, 0], [0, 0]),
        ([3, 3], [3, 7]),
        ([3, 3], [7, 3]),
        ([-5, 2], [6, -9]),
        (LOW, HIGH),
        ([i32::MIN, 5], [i32::MAX, 5]),
    ] {
        for segments in [1, 2, 3] {
            add("spike", spike(a, b, segments));
        }
    }
    for segments in SIZES {
        add("one point", one_point([0, 0], segments));
        add("one point", one_point(HIGH, segments));
        add("spike", spike([0, 0], [7, 3], segments));
        add("flat", spike([-3, 4], [9, 4], segments));
        add("upright", spike([4, -3], [4, 9], segments));
        if segments >= 4 {
            add("square", square([0, 0], 10, segments));
            add("square of side 1 far from 0", square([2_147_483_610, 1_244_463_401], 1, segments));
            add(
                "square as large as the Rust's products allow",
                square([-limits::UNWRAPPED; 2], 2 * limits::UNWRAPPED, segments),
            );
        }
        add("circle", circle([0.0, 0.0], 1_000_000.0, segments));
        add("large circle", circle([-0.5, -0.5], 2_147_483_647.5, segments));
        add("small circle", circle([5.0, 5.0], 3.0, segments));
        add("comb", comb([0, 0], 2, 100, segments));
        add("comb over all of i32's heights", comb(LOW, 1, i32::MAX, segments));
        add("ragged star", star([0.0, 0.0], segments, |_| 1000.0 + 900.0 * random.part()));
        add("walk", walk(&mut random, [0, 0], 50, segments));
        add("walk at the corner of i32", walk(&mut random, HIGH, 1 << 28, segments));
        add("scatter on a small grid", scatter(&mut random, -3, 3, segments));
        add("scatter over i32", scatter(&mut random, i32::MIN, i32::MAX, segments));
        add("extremes", extremes(&mut random, segments));
    }
    rings
}

const LOW: Corner = [i32::MIN; 2];
const HIGH: Corner = [i32::MAX; 2];

/// Segment counts on both sides of the leaf's 12, the threshold's 64, and up to the most.
const SIZES: [usize; 12] = [
    1,
    2,
    3,
    4,
    limits::LEAF,
    limits::LEAF + 1,
    40,
    limits::THRESHOLD - 1,
    limits::THRESHOLD,
    limits::THRESHOLD + 1,
    limits::MOST_SEGMENTS - 1,
    limits::MOST_SEGMENTS,
];

/// A ring of a random shape. Most have few segments, some as many as are allowed.
pub fn random(random: &mut Random) -> Ring {
    let segments = match random.below(40) {
        0 => limits::MOST_SEGMENTS - random.below(3),
        1..=3 => 64 + random.below(1000),
        4..=15 => 10 + random.below(100),
        _ => 1 + random.below(16),
    };
    random_of(random, segments)
}

/// A ring of a random shape with that many segments.
pub fn random_of(random: &mut Random, segments: usize) -> Ring {
    let at = [random.next() as i32 >> random.below(32), random.next() as i32 >> random.below(32)];
    let size = 1 + (random.next() as i32 >> random.below(31)).unsigned_abs() as i32 % i32::MAX;
    let centre = at.map(f64::from);
    match random.below(12) {
        0 => one_point(at, segments),
        1 => spike(at, [at[0].wrapping_add(size), at[1]], segments),
        2 => spike(at, [at[0], at[1].wrapping_add(size)], segments),
        3 => circle(centre, f64::from(size), segments),
        4 | 5 => star(centre, segments, |_| f64::from(size) * random.part()),
        6 => comb(at, 1 + size % 100, at[1].saturating_add(size), segments),
        7 | 8 => walk(random, at, size, segments),
        9 => {
            let far = size % 1000;
            scatter(random, -far, far, segments)
        }
        10 => scatter(random, i32::MIN, i32::MAX, segments),
        _ => extremes(random, segments),
    }
}

/// A copy with a corner moved, repeated or taken out, still closed.
pub fn damaged(random: &mut Random, good: &[Corner]) -> Ring {
    let mut corners = good[..good.len() - 1].to_vec();
    let at = random.below(corners.len());
    match random.below(6) {
        0 if corners.len() < limits::MOST_SEGMENTS => corners.insert(at, corners[at]),
        1 if corners.len() > 1 => {
            corners.remove(at);
        }
        2 => corners[at] = corners[0],
        3 => corners.reverse(),
        4 => corners[at] = corners[at].map(|c| c.saturating_add(random.between(-1, 1) as i32)),
        _ => corners[at][random.below(2)] = random.next() as i32,
    }
    closed(corners)
}

/// The same ring with every coordinate held to where the Rust's products do not wrap.
pub fn held_unwrapped(ring: &[Corner]) -> Ring {
    let most = limits::UNWRAPPED;
    ring.iter().map(|c| c.map(|x| x.clamp(-most, most))).collect()
}

/// The smallest coordinates with which the Rust's products wrap: with the place (1,518,500,250, -1,518,500,250), which
/// lies outside, it says inside.
pub fn wrapping() -> Ring {
    const END: i32 = 1_518_500_250;
    vec![[-END, -END], [END, END], [-END, END], [-END, 0], [-END, -END]]
}

#[cfg(test)]
mod tests {
    use super::*;

    fn accepted(ring: &[Corner]) -> bool {
        (limits::LEAST_POINTS..=limits::MOST_POINTS).contains(&ring.len()) && ring.first() == ring.last()
    }

    #[test]
    fn edges_are_accepted_and_reach_both_ends() {
        let edges = edges();
        assert!(edges.iter().all(|n| accepted(&n.ring)));
        assert!(edges.iter().any(|n| n.ring.len() == limits::MOST_POINTS));
        assert!(edges.iter().any(|n| n.ring.len() == limits::LEAST_POINTS));
    }

    #[test]
    fn random_rings_and_their_damaged_copies_are_accepted() {
        let mut r = Random::new(crate::SEED, "test");
        for _ in 0..2000 {
            let ring = random(&mut r);
            assert!(accepted(&ring) && accepted(&damaged(&mut r, &ring)));
        }
    }

    #[test]
    fn thin_ones_are_thin() {
        let mut r = Random::new(crate::SEED, "test");
        let mut seen = [false; 3];
        for _ in 0..1000 {
            let ring = thin(&mut r, 5);
            assert!(accepted(&ring) && ring.len() == 6);
            let area = doubled_area(&ring);
            assert!(area.abs() <= 1);
            seen[(area + 1) as usize] = true;
        }
        assert_eq!(seen, [true; 3]);
    }

    fn doubled_area(ring: &[Corner]) -> i128 {
        let cross = |s: &[Corner]| {
            let [[ax, ay], [bx, by]] = [s[0], s[1]].map(|c| c.map(i128::from));
            ax * by - bx * ay
        };
        ring.windows(2).map(cross).sum()
    }

    #[test]
    fn flat_ones_are_flat() {
        let mut r = Random::new(crate::SEED, "test");
        let mut widest = 0;
        for segments in (1..20).cycle().take(1000) {
            let ring = flat(&mut r, segments);
            assert!(accepted(&ring) && ring.len() == segments + 1);
            assert_eq!(doubled_area(&ring), 0);
            widest = ring.iter().map(|c| i64::from(c[0]) - i64::from(ring[0][0])).max().unwrap().max(widest);
        }
        assert!(widest > 1 << 31);
    }

    #[test]
    fn the_flattest_have_the_signs_they_are_said_to_have() {
        let flattest = flattest();
        for (ring, sign) in &flattest {
            assert!(accepted(ring));
            assert_eq!(doubled_area(ring).signum(), i128::from(*sign));
        }
        let areas: Vec<i128> = flattest.iter().map(|(ring, _)| doubled_area(ring)).collect();
        assert!([-1, 0, 1, 1024 * 2 * ((1_i128 << 32) - 1).pow(2)].iter().all(|area| areas.contains(area)));
    }

    #[test]
    fn a_ring_can_start_at_each_corner() {
        let square = sheet_square();
        assert_eq!(started_at(1, &square), [[10, 0], [10, 10], [0, 10], [0, 0], [10, 0]]);
        assert_eq!(started_at(4, &square), square);
        assert_eq!(started_at(0, &one_point([3, 4], 1)), one_point([3, 4], 1));
    }

    #[test]
    fn directions() {
        for n in [1, 2, 3, 4, 7, 64, 4096] {
            for i in 0..n {
                let angle = std::f64::consts::TAU * i as f64 / n as f64;
                let [cos, sin] = direction(i, n);
                assert!((cos - angle.cos()).abs() < 1e-14 && (sin - angle.sin()).abs() < 1e-14);
            }
        }
    }

    #[test]
    fn shapes_have_the_segments_asked_for() {
        for n in [1, 2, 3, 4, 13, 64] {
            let mut r = Random::new(n as u64, "test");
            for _ in 0..100 {
                assert_eq!(random_of(&mut r, n).len(), n + 1);
            }
        }
    }
}
