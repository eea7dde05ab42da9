//! Polygons as well-known binary: good ones of either byte order, and bytes that are damaged or random.

use crate::Random;

/// The doubles of each ring, one point after the other.
pub type Shape = Vec<Vec<[f64; 2]>>;

fn number(out: &mut Vec<u8>, big: bool, bytes: &[u8]) {
    // bytes come with the least significant first
    if big {
        out.extend(bytes.iter().rev());
    } else {
        out.extend(bytes);
    }
}

/// The bytes of a polygon.
pub fn written(shape: &Shape, big: bool) -> Vec<u8> {
    let mut out = vec![u8::from(!big)];
    number(&mut out, big, &3_u32.to_le_bytes());
    number(&mut out, big, &(shape.len() as u32).to_le_bytes());
    for ring in shape {
        number(&mut out, big, &(ring.len() as u32).to_le_bytes());
        ring.iter().flatten().for_each(|x| number(&mut out, big, &x.to_bits().to_le_bytes()));
    }
    out
}

/// A coordinate: a whole number, a half, a number near the ends of i32, or any float.
pub fn coordinate(random: &mut Random) -> f64 {
    match random.below(12) {
        0 => f64::from_bits(random.next()),
        1 => *random.pick(&[f64::NAN, f64::INFINITY, -0.0, 2147483647.5, -2147483648.5, 2147483647.4, 1e300]),
        2..=4 => random.between(-1000, 1000) as f64 + 0.5,
        5 => random.between(i64::from(i32::MIN), i64::from(i32::MAX)) as f64,
        6 => random.between(-1_000_000, 1_000_000) as f64 * random.part(),
        _ => random.between(-1000, 1000) as f64,
    }
}

/// A ring that is closed, but one in sixteen times; one in eight has a coordinate of any kind.
pub fn ring(random: &mut Random, points: usize) -> Vec<[f64; 2]> {
    let any = random.one_in(8);
    let mut one = || if any { coordinate(random) } else { random.between(-2000, 2000) as f64 / 2.0 };
    let mut ring: Vec<[f64; 2]> = (0..points).map(|_| [one(), one()]).collect();
    if points > 1 && !random.one_in(16) {
        ring[points - 1] = ring[0];
    }
    ring
}

pub fn shape(random: &mut Random) -> Shape {
    let rings = match random.below(20) {
        0 => random.below(70),
        _ => 1 + random.below(4),
    };
    (0..rings)
        .map(|_| {
            let points = match random.below(60) {
                0 => random.below(3),
                1 => 4090 + random.below(12),
                _ => 2 + random.below(9),
            };
            ring(random, points)
        })
        .collect()
}

/// The same bytes with a few of them changed, cut off, put in, or a count that is huge.
pub fn damaged(random: &mut Random, bytes: &[u8]) -> Vec<u8> {
    let mut bytes = bytes.to_vec();
    match random.below(6) {
        0 => bytes.truncate(random.below(bytes.len() + 1)),
        1 => bytes.extend((0..=random.below(9)).map(|_| random.next() as u8)),
        2 => {
            let at = random.below(bytes.len() + 1);
            bytes.insert(at, random.next() as u8);
        }
        3 => {
            let at = *random.pick(&[5, 9]);
            let huge = *random.pick(&[u32::MAX, 1 << 31, 1 << 28, 65, 4098]);
            if let Some(field) = bytes.get_mut(at..at + 4) {
                field.copy_from_slice(&huge.to_le_bytes());
            }
        }
        _ => {
            for _ in 0..=random.below(2) {
                if !bytes.is_empty() {
                    let at = random.below(bytes.len());
                    bytes[at] = random.next() as u8;
                }
            }
        }
    }
    bytes
}

/// Bytes that mean nothing, one in two times behind a good beginning.
pub fn junk(random: &mut Random) -> Vec<u8> {
    let mut bytes = if random.one_in(2) { vec![1, 3, 0, 0, 0] } else { Vec::new() };
    bytes.extend((0..random.below(60)).map(|_| if random.one_in(3) { random.next() as u8 } else { random.below(4) as u8 }));
    bytes
}
