//! Varints: numbers to write, byte strings to read.

use crate::{damage, limits, Random};

/// Numbers on both sides of every change of length, and around every power of two.
pub fn values() -> Vec<u64> {
    let mut values: Vec<u64> = (0..=300).collect();
    for k in 0..64 {
        for d in [-2_i64, -1, 0, 1, 2] {
            values.push((1_u64 << k).wrapping_add(d as u64));
        }
    }
    values.extend([u64::MAX, u64::MAX - 1, i64::MAX as u64, u64::from(u32::MAX), limits::MOST_SEGMENTS as u64]);
    values.extend([0x8080_8080_8080_8080, 0x7f7f_7f7f_7f7f_7f7f, 0xaaaa_aaaa_aaaa_aaaa, 0x5555_5555_5555_5555]);
    values.sort_unstable();
    values.dedup();
    values
}

/// Unsigned LEB128, to make good byte strings from.
pub fn encode(mut x: u64) -> Vec<u8> {
    let mut bytes = Vec::new();
    loop {
        let low = (x % 128) as u8;
        x /= 128;
        if x == 0 {
            bytes.push(low);
            return bytes;
        }
        bytes.push(low + 128);
    }
}

/// A question to the reader: the number at a place of a part of some bytes, which ends before `end`.
#[derive(Clone, Debug, PartialEq, Eq)]
pub struct Read {
    pub bytes: Vec<u8>,
    pub at: usize,
    pub end: usize,
}

impl Read {
    fn whole(bytes: Vec<u8>) -> Self {
        let end = bytes.len();
        Read { bytes, at: 0, end }
    }
}

/// Every length from 0 to 12 with every last byte that matters, every tenth byte, every truncation,
/// and places before, at and behind every end.
pub fn read_edges() -> Vec<Read> {
    let mut reads = Vec::new();
    for length in 0..=12 {
        for more in [0x80, 0x81, 0xaa, 0xd5, 0xfe, 0xff] {
            let run = vec![more; length];
            reads.push(Read::whole(run.clone()));
            for last in [0, 1, 2, 0x3f, 0x40, 0x7e, 0x7f, 0x80, 0xff] {
                reads.push(Read::whole([&run[..], &[last]].concat()));
            }
        }
    }
    for last in 0..=255 {
        for first in [0x80, 0xff] {
            let mut bytes = vec![first; limits::VARINT_BYTES - 1];
            bytes.push(last);
            reads.push(Read::whole(bytes.clone()));
            bytes.push(last);
            reads.push(Read::whole(bytes));
        }
    }
    for x in values() {
        let good = encode(x);
        reads.extend(damage::every_truncation(&good).map(|part| Read::whole(part.to_vec())));
        reads.push(Read::whole(good));
    }
    reads.extend(places());
    reads
}

/// Parts that end inside the bytes, and places from the first byte to past the end.
fn places() -> Vec<Read> {
    let bytes: Vec<u8> = [300, 0, u64::MAX, 127, 128].iter().flat_map(|&x| encode(x)).collect();
    let mut reads = Vec::new();
    for end in 0..=bytes.len() {
        for at in (0..=end + 2).chain([usize::MAX / 2, usize::MAX - 1, usize::MAX]) {
            reads.push(Read { bytes: bytes.clone(), at, end });
        }
    }
    reads
}

/// Every byte string of up to so many bytes.
pub fn every_string(most: u32, mut ask: impl FnMut(&[u8])) {
    for length in 0..=most {
        for n in 0..1_u32 << (8 * length) {
            ask(&n.to_le_bytes()[..length as usize]);
        }
    }
}

/// Ten and eleven bytes with every choice of continuation bits; their other bits are 0, 1 or 127 throughout, and so often random.
pub fn every_run(random: &mut Random, times: usize, mut ask: impl FnMut(Read)) {
    for length in [limits::VARINT_BYTES, limits::VARINT_BYTES + 1] {
        for bits in 0..1_u32 << length {
            let more = |k: usize| ((bits >> k & 1) as u8) << 7;
            for low in [0, 1, 0x7f] {
                ask(Read::whole((0..length).map(|k| more(k) | low).collect()));
            }
            for _ in 0..times {
                ask(Read::whole((0..length).map(|k| more(k) | random.next() as u8 & 0x7f).collect()));
            }
        }
    }
}

/// Some numbers in a row, good or not, and a place and an end somewhere in them.
pub fn random_read(random: &mut Random) -> Read {
    let mut bytes = Vec::new();
    for _ in 0..random.below(4) {
        if random.one_in(3) {
            let length = random.below(limits::VARINT_BYTES + 2);
            bytes.extend((0..length).map(|_| random.next() as u8 | 0x80));
            bytes.push(random.next() as u8);
        } else {
            bytes.extend(encode(random.any_length()));
        }
    }
    let end = if random.one_in(2) { bytes.len() } else { random.below(bytes.len() + 1) };
    let at = if random.one_in(2) { 0 } else { random.below(end + 2) };
    Read { bytes, at, end }
}

/// A damaged copy of a number's bytes, sometimes between other bytes.
pub fn damaged_read(random: &mut Random) -> Read {
    let good = encode(random.any_length());
    let bytes = damage::bytes(random, &good);
    let at = if random.one_in(4) { random.below(bytes.len() + 1) } else { 0 };
    let end = bytes.len();
    Read { bytes, at, end }
}

/// A question to the writer: a number, the room that is lent, and the place to write at.
#[derive(Clone, Debug, PartialEq, Eq)]
pub struct Write {
    pub value: u64,
    pub room: Vec<u8>,
    pub at: usize,
}

/// Every number of `values` with room that is exactly full, one byte short, one byte long and none.
pub fn write_edges() -> Vec<Write> {
    let mut writes = Vec::new();
    for value in values() {
        let n = encode(value).len();
        for at in [0, 1, 5] {
            for size in [at + n, at + n - 1, at + n + 1, at + 13, at, 0] {
                writes.push(Write { value, room: filled(size), at });
            }
        }
        for at in [n + 1, usize::MAX / 2, usize::MAX - 9, usize::MAX] {
            writes.push(Write { value, room: filled(n), at });
        }
    }
    writes
}

pub fn random_write(random: &mut Random) -> Write {
    let value = random.any_length();
    let room = (0..random.below(24)).map(|_| random.next() as u8).collect();
    Write { value, room, at: random.below(16) }
}

/// Room with no byte zero, so that what was touched shows.
fn filled(size: usize) -> Vec<u8> {
    (0..size).map(|i| 0xa0 + (i % 16) as u8).collect()
}

#[cfg(test)]
mod tests {
    use super::*;

    #[test]
    fn dwarf_examples() {
        assert_eq!(encode(2), [2]);
        assert_eq!(encode(127), [127]);
        assert_eq!(encode(128), [0x80, 1]);
        assert_eq!(encode(129), [0x81, 1]);
        assert_eq!(encode(12857), [57 + 0x80, 100]);
        assert_eq!(encode(300), [0xac, 2]);
        assert_eq!(encode(u64::MAX).len(), limits::VARINT_BYTES);
    }
}
