//! Floats, as bit patterns.

use crate::{limits, Random};

const SIGN: u64 = 1 << 63;
const INFINITY: u64 = 0x7ff0_0000_0000_0000;

/// The next float up; a NaN and +infinity stay.
pub fn up(x: f64) -> f64 {
    let bits = x.to_bits();
    if x.is_nan() || bits == INFINITY {
        x
    } else if bits & !SIGN == 0 {
        f64::from_bits(1)
    } else if x > 0.0 {
        f64::from_bits(bits + 1)
    } else {
        f64::from_bits(bits - 1)
    }
}

/// The next float down; a NaN and -infinity stay.
pub fn down(x: f64) -> f64 {
    -up(-x)
}

/// A float with its two neighbours.
pub fn with_neighbours(x: f64) -> [f64; 3] {
    [down(x), x, up(x)]
}

/// The most telling floats, some hundreds, for pairs and for the sample that the repository keeps.
pub fn landmarks() -> Vec<u64> {
    let mut values = vec![0.0, f64::MIN_POSITIVE, 0.25, 0.5, 0.75, 1.0, 1.5, 2.0, 2.5, 3.5, 4.0, 9.0, 10.0, 0.1];
    values.extend([1e-5, 1e5, 1e16, 1e300, f64::MAX, f64::INFINITY]);
    values.extend(
        [-1074, -1073, -1024, -537, -53, 31, 32, 51, 52, 53, 54, 62, 63, 64, 511, 1022, 1023].map(power_of_two),
    );
    values.extend([51, 52].map(|k| power_of_two(k) - 0.5));
    values.extend(whole_limits().iter().flat_map(|&n| [-0.5, 0.0, 0.5].map(|d| n + d)));
    let mut patterns: Vec<u64> = values.iter().flat_map(|&x| with_neighbours(x)).map(f64::to_bits).collect();
    patterns.extend(NANS);
    both_signs(patterns)
}

/// NaNs: quiet and signalling, the least, the greatest and one with a mark in every byte.
const NANS: [u64; 6] = [
    INFINITY + 1,
    0x7ff7_ffff_ffff_ffff,
    0x7ff8_0000_0000_0000,
    0x7ff8_0000_0000_0001,
    0x7fff_ffff_ffff_ffff,
    0x7ff1_2345_6789_abcd,
];

fn both_signs(mut patterns: Vec<u64>) -> Vec<u64> {
    patterns.extend(patterns.clone().iter().map(|p| p ^ SIGN));
    patterns.sort_unstable();
    patterns.dedup();
    patterns
}

/// Every float that some rule turns at, with its neighbours, under both signs; each pattern once.
pub fn edges() -> Vec<u64> {
    let mut values = Vec::new();
    values.extend((-1074..=1023).map(power_of_two));
    values.extend((0..=4200).flat_map(|n| [f64::from(n), f64::from(n) + 0.5]));
    values.extend((0..=64).flat_map(|k| (-3..=3).map(move |d| power_of_two(k) + f64::from(d))));
    values.extend((0..=63).flat_map(|k| [-1.5, -0.5, 0.5, 1.5].map(|d| power_of_two(k) + d)));
    values.extend(whole_limits().iter().flat_map(|&n| [-1.5, -1.0, -0.5, 0.0, 0.5, 1.0, 1.5].map(|d| n + d)));
    values.extend((0..=1500).map(|n| f64::from(n) * f64::from(n)));
    values.extend((0..=511).flat_map(|k| [-1.0, 1.0].map(|d| (power_of_two(k) + d) * (power_of_two(k) + d))));
    values.extend([f64::MAX, std::f64::consts::PI, 0.1, 1.0 / 3.0]);

    let mut patterns = vec![INFINITY, 0, 1, 2, 3];
    patterns.extend(values.iter().flat_map(|&x| with_neighbours(x)).map(f64::to_bits));
    patterns.extend(NANS);
    both_signs(patterns)
}

/// Whole numbers that 01 names, and the ends of the types that they live in.
fn whole_limits() -> Vec<f64> {
    let mut limits = vec![
        f64::from(limits::UNWRAPPED),
        f64::from(i32::MAX),
        f64::from(i32::MIN),
        f64::from(u32::MAX),
        i64::MAX as f64,
        u64::MAX as f64,
        16_777_216.0,
        9_007_199_254_740_991.0,
    ];
    let sizes = [limits::RINGS, limits::MOST_POINTS, limits::THRESHOLD, limits::LEAST_STRIPES, limits::MOST_STRIPES];
    limits.extend(sizes.map(|n| n as f64));
    limits
}

/// 2 to the power k, from -1074 to 1023.
pub fn power_of_two(k: i32) -> f64 {
    if k < -1022 {
        f64::from_bits(1 << (k + 1074))
    } else {
        f64::from_bits(((k + 1023) as u64) << 52)
    }
}

/// A random pattern. Most patterns are huge or tiny numbers, so half of them come from where the
/// functions have work to do.
pub fn random(random: &mut Random) -> u64 {
    let x = match random.below(14) {
        0..=5 => return random.next(),
        6 => return (random.next() & SIGN) | random.any_length(),
        7 => near_whole(random),
        8 => near_half(random),
        9 => near_power(random),
        10 => any_exponent(random),
        11 => near_midpoint_square(random),
        12 => near_square(random),
        _ => coordinate(random),
    };
    let x = *random.pick(&with_neighbours(x));
    x.to_bits() ^ (random.next() & SIGN)
}

/// A random pair: two floats of any kind, or two that are equal, neighbours or differ in sign only.
pub fn random_pair(r: &mut Random) -> [u64; 2] {
    let x = random(r);
    let y = match r.below(5) {
        0 => x,
        1 => x ^ SIGN,
        2 => r.pick(&with_neighbours(f64::from_bits(x))).to_bits(),
        _ => random(r),
    };
    [x, y]
}

/// A damaged copy: one to three bits of it differ.
pub fn damaged(random: &mut Random, good: u64) -> u64 {
    (0..=random.below(3)).fold(good, |x, _| x ^ (1 << random.below(64)))
}

fn near_whole(random: &mut Random) -> f64 {
    random.any_length() as f64
}

fn near_half(random: &mut Random) -> f64 {
    (random.any_length() >> 12) as f64 + 0.5
}

fn near_power(random: &mut Random) -> f64 {
    let x = power_of_two(random.between(-1074, 1023) as i32);
    f64::from_bits(x.to_bits().wrapping_add(random.between(-8, 8) as u64) & !SIGN)
}

/// From 2 to the power -8 up to 2 to the power 72: whole numbers with a part behind them.
fn any_exponent(random: &mut Random) -> f64 {
    (1.0 + random.part()) * power_of_two(random.between(-8, 72) as i32)
}

/// A float whose root lies close to the middle between two floats, where rounding is hardest.
fn near_midpoint_square(random: &mut Random) -> f64 {
    let root = u128::from((random.next() >> 11) | (1 << 52));
    let middle = 2 * root + 1;
    (middle * middle) as f64 * power_of_two(2 * random.between(-500, 450) as i32)
}

fn near_square(random: &mut Random) -> f64 {
    let root = (random.any_length() >> 11) as f64;
    root * root
}

/// What a query is like: a coordinate of a stored point, or a place between two.
fn coordinate(random: &mut Random) -> f64 {
    f64::from(random.next() as i32) + if random.one_in(2) { random.part() } else { 0.0 }
}

#[cfg(test)]
mod tests {
    use super::*;

    #[test]
    fn neighbours() {
        for x in edges().into_iter().map(f64::from_bits).filter(|x| !x.is_nan()) {
            assert_eq!(up(x).to_bits(), x.next_up().to_bits());
            assert_eq!(down(x).to_bits(), x.next_down().to_bits());
        }
    }

    #[test]
    fn powers() {
        assert_eq!(power_of_two(-1074), f64::from_bits(1));
        assert_eq!(power_of_two(-1022), f64::MIN_POSITIVE);
        assert_eq!(power_of_two(0), 1.0);
        assert_eq!(power_of_two(1023) * 2.0, f64::INFINITY);
    }

    #[test]
    fn edges_hold_the_named_ones() {
        let edges = edges();
        for x in [0.49999999999999994_f64, -0.5, 9_223_372_036_854_774_784.0, 4_503_599_627_370_495.5, -1.0] {
            assert!(edges.binary_search(&x.to_bits()).is_ok(), "{x}");
        }
    }
}
