//! Damaged copies of good bytes and numbers.

use crate::Random;

/// One thing wrong with a row of bytes, or now and then two.
pub fn bytes(random: &mut Random, good: &[u8]) -> Vec<u8> {
    let mut bytes = good.to_vec();
    for _ in 0..=usize::from(random.one_in(4)) {
        damage(random, &mut bytes, |random, old| match random.below(4) {
            0 => random.next() as u8,
            1 => *random.pick(&[0, 1, 2, 0x7f, 0x80, 0xff]),
            2 => old ^ (1 << random.below(8)),
            _ => old.wrapping_add(random.between(-1, 1) as u8),
        });
    }
    bytes
}

/// The same for numbers of 32 or 64 bits.
pub fn numbers<T: Copy + Into<u64> + TryFrom<u64>>(random: &mut Random, good: &[T]) -> Vec<T> {
    let bits = 8 * std::mem::size_of::<T>();
    let most = u64::MAX >> (64 - bits);
    let mut numbers = good.to_vec();
    for _ in 0..=usize::from(random.one_in(4)) {
        damage(random, &mut numbers, |random, old| {
            let new = match random.below(4) {
                0 => random.any_length(),
                1 => *random.pick(&[0, 1, 2, most, most - 1, 1 << (bits - 1)]),
                2 => old.into() ^ (1 << random.below(bits)),
                _ => old.into().wrapping_add(random.between(-1, 1) as u64),
            };
            T::try_from(new & most).unwrap_or(old)
        });
    }
    numbers
}

fn damage<T: Copy>(random: &mut Random, row: &mut Vec<T>, another: impl Fn(&mut Random, T) -> T) {
    if row.is_empty() {
        return;
    }
    let (at, other) = (random.below(row.len()), random.below(row.len()));
    match random.below(8) {
        0 => row.truncate(at),
        1 => {
            row.remove(at);
        }
        2 => row.insert(at, row[at]),
        3 => row.swap(at, other),
        4 => row.push(another(random, row[at])),
        _ => row[at] = another(random, row[at]),
    }
}

/// Every copy that differs from good in one byte.
pub fn every_change(good: &[u8]) -> impl Iterator<Item = Vec<u8>> + '_ {
    (0..good.len()).flat_map(move |at| {
        (0..=255_u8).filter(move |&b| b != good[at]).map(move |b| {
            let mut bytes = good.to_vec();
            bytes[at] = b;
            bytes
        })
    })
}

/// Every beginning of good, the empty one first, without good itself.
pub fn every_truncation(good: &[u8]) -> impl Iterator<Item = &[u8]> {
    (0..good.len()).map(|n| &good[..n])
}
