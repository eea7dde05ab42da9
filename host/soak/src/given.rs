//! What calls are given: options, rooms near the size that is called for, damaged indexes.

use crate::calls::{Pools, Rings, Stripes};
use crate::lent::{pattern, Number};
use brothstitch::row;
use cases::{damage, floats, limits, points, Random};
use model::ring::Ring;
use model::{outline, stripes, tree};

/// An option that is off at 0: bits beyond the lowest count too.
pub fn switch(random: &mut Random) -> u32 {
    match random.below(8) {
        0..=2 => 0,
        3..=5 => 1,
        6 => *random.pick(&[2, 256, 65_536, 1 << 31, u32::MAX]),
        _ => random.next() as u32,
    }
}

/// Which indexes are asked for; only two bits count.
pub fn options(random: &mut Random) -> u32 {
    let kinds = random.below(4) as u32;
    if random.one_in(6) {
        random.next() as u32 & !3 | kinds
    } else {
        kinds
    }
}

/// A threshold that is mostly reached.
pub fn threshold(random: &mut Random, segments: usize) -> usize {
    match random.below(10) {
        0..=4 => 0,
        5 => segments.saturating_add_signed(random.between(-1, 2) as isize),
        6 => limits::THRESHOLD,
        7 => random.any_length() as usize,
        8 => usize::MAX,
        _ => 1,
    }
}

/// Any float; one in four is no number.
pub fn float(random: &mut Random) -> f64 {
    match random.below(8) {
        0 | 1 => *random.pick(&[f64::NAN, f64::INFINITY, f64::NEG_INFINITY]),
        2 => *random.pick(&points::ODD),
        _ => f64::from_bits(floats::random(random)),
    }
}

/// A float with some bits turned, or any other.
fn damaged_float(random: &mut Random, good: f64) -> f64 {
    match random.below(4) {
        0 => float(random),
        1 => *random.pick(&floats::with_neighbours(good)),
        _ => f64::from_bits(floats::damaged(random, good.to_bits())),
    }
}

/// How much of each room is lent when so much is called for: all that is needed and a little, or one room
/// short, or each anything near.
pub fn lengths<const N: usize>(random: &mut Random, needs: [usize; N]) -> [usize; N] {
    let near = |random: &mut Random, n: usize| match random.below(5) {
        0 => n,
        1 => n.saturating_sub(1),
        2 => n.saturating_sub(random.below(6)),
        3 => n + random.below(6),
        _ => random.below(n + 3),
    };
    match random.below(4) {
        0 => needs.map(|n| near(random, n)),
        1 => {
            let short = random.below(N);
            let mut lengths = needs;
            lengths[short] = lengths[short].saturating_sub(1 + random.below(3));
            lengths
        }
        2 => needs,
        _ => needs.map(|n| n + random.below(8)),
    }
}

/// Every length near what is called for, one room after the other, the others as they should be; and none.
pub fn every_length<const N: usize>(needs: [usize; N]) -> impl Iterator<Item = [usize; N]> {
    let near = |n: usize| (n.saturating_sub(5)..=n + 2).chain((n > 5).then_some(0));
    (0..N).flat_map(move |i| {
        near(needs[i]).map(move |n| {
            let mut lengths = needs;
            lengths[i] = n;
            lengths
        })
    })
}

/// A room of that length, with something in it.
pub fn room<T: Number>(random: &mut Random, n: usize) -> Vec<T> {
    pattern(random.next(), n)
}

/// Numbers of any length.
pub fn junk<T: Number>(random: &mut Random, most: usize) -> Vec<T> {
    let few = random.below(most + 1);
    (0..few).map(|_| T::of(if random.one_in(2) { random.any_length() } else { random.below(5) as u64 })).collect()
}

/// A ring's stripes as the model builds them; none where over 65,536 are called for.
pub fn good_stripes(ring: Ring) -> Option<Stripes> {
    let parts = stripes::parts(ring)?;
    Some(Stripes { least: parts.least, height: parts.height, stripes: parts.table(), list: parts.list() })
}

pub fn damaged_stripes(random: &mut Random, good: &Stripes) -> Stripes {
    let mut index = good.clone();
    match random.below(9) {
        0 => index.least = damaged_float(random, index.least),
        1 => index.height = damaged_float(random, index.height),
        8 => index.stripes.truncate(random.below(2)),
        2 => index.stripes = damage::numbers(random, &index.stripes),
        3 | 4 => index.list = damage::numbers(random, &index.list),
        5 => {
            let at = random.below(index.stripes.len().max(1));
            index.stripes.truncate(at);
        }
        6 => {
            let at = random.below(index.list.len().max(1));
            index.list.truncate(at);
        }
        _ => {
            index.stripes = junk(random, 9);
            index.list = junk(random, 9);
        }
    }
    index
}

pub fn damaged_bytes(random: &mut Random, good: &[u8]) -> Vec<u8> {
    match random.below(8) {
        0 => good[..random.below(good.len().max(1)).min(good.len())].to_vec(),
        1 => junk(random, 24),
        2 | 3 => longer_field(random, good),
        _ => damage::bytes(random, good),
    }
}

/// A byte, which may end a field, written over more bytes than it needs, up to one too many.
fn longer_field(random: &mut Random, good: &[u8]) -> Vec<u8> {
    let mut bytes = good.to_vec();
    if bytes.is_empty() {
        return bytes;
    }
    let at = random.below(bytes.len());
    let filler = *random.pick(&[0x80, 0xff]);
    let more = 1 + random.below(limits::VARINT_BYTES + 1);
    let last = *random.pick(&[0, 1, 0x7f]);
    bytes[at] |= 0x80;
    let rest = bytes.split_off(at + 1);
    bytes.extend((1..more).map(|_| filler));
    bytes.push(last);
    bytes.extend(rest);
    bytes
}

/// What building an outline's indexes calls for: table, spans, stripes, list, bytes, work. Where over
/// 65,536 stripes are called for there is no such number, and the ring counts for nothing.
pub fn needs(rings: outline::Rings, options: u32, threshold: usize) -> [usize; 6] {
    let n = rings.sizes.len();
    let mut needs = [outline::COLUMNS * n, 2 * n, 0, 0, 0, 0];
    for ring in (0..n).map(|k| rings.ring(k)).filter(|ring| ring.segments() >= threshold) {
        if let Some(index) = (options % 2 == 1).then(|| good_stripes(ring)).flatten() {
            needs[2] += index.stripes.len();
            needs[3] += index.list.len();
        }
        if options / 2 % 2 == 1 {
            let (bytes, work) = tree::packed(ring);
            needs[4] += bytes.len();
            needs[5] = needs[5].max(work);
        }
    }
    needs
}

/// Rooms of these lengths, the work room last.
pub fn rooms(random: &mut Random, [table, spans, stripes, list, bytes, work]: [usize; 6]) -> (Pools, Vec<u32>) {
    let pools = Pools {
        table: room(random, table),
        spans: room(random, spans),
        stripes: room(random, stripes),
        list: room(random, list),
        bytes: room(random, bytes),
    };
    (pools, room(random, work))
}

/// The indexes of all rings as the model builds them; none where it refuses.
pub fn good_pools(rings: &Rings, options: u32, threshold: usize, needs: [usize; 6]) -> Option<Pools> {
    let mut pools = Pools {
        table: vec![0; needs[0]],
        spans: vec![0.0; needs[1]],
        stripes: vec![0; needs[2]],
        list: vec![0; needs[3]],
        bytes: vec![0; needs[4]],
    };
    let Pools { table, spans, stripes, list, bytes } = &mut pools;
    let rooms = outline::Rooms { table, spans, stripes, list, bytes, work: &mut vec![0; needs[5]] };
    let (stripes, tree) = (options % 2 == 1, options / 2 % 2 == 1);
    let options = outline::Options { stripes, tree, threshold: threshold as u64 };
    outline::build(rings.lent(), options, rooms).ok().map(|_| pools)
}

/// Another choice of indexes, something wrong in one pool, or something else altogether.
pub fn damaged_pools(random: &mut Random, good: &Pools) -> Pools {
    let mut pools = good.clone();
    match random.below(18) {
        12..=15 => damaged_part(random, &mut pools),
        16 | 17 => loose_trees(&mut pools),
        // each ring without some of what it has
        0..=2 => {
            for numbers in pools.table.chunks_exact_mut(outline::COLUMNS) {
                numbers[row::KINDS] &= random.next();
            }
        }
        3 | 4 => pools.table = damage::numbers(random, &pools.table),
        5 => {
            if !pools.spans.is_empty() {
                let at = random.below(pools.spans.len());
                pools.spans[at] = damaged_float(random, pools.spans[at]);
            }
        }
        6 => pools.stripes = damage::numbers(random, &pools.stripes),
        7 => pools.list = damage::numbers(random, &pools.list),
        8 | 9 => pools.bytes = damaged_bytes(random, &pools.bytes),
        10 => shortened(random, &mut pools),
        _ => {
            pools.table = junk(random, 30);
            pools.spans = (0..random.below(6)).map(|_| float(random)).collect();
            pools.stripes = junk(random, 9);
            pools.list = junk(random, 9);
            pools.bytes = junk(random, 24);
        }
    }
    pools
}

/// Each ring with its tree alone, whose first number is written in a longer form.
fn loose_trees(pools: &mut Pools) {
    for row in pools.table.chunks_exact_mut(outline::COLUMNS) {
        row[2] &= 2;
        if let [first, second, ..] = &mut pools.bytes[row[8] as usize..][..row[9] as usize] {
            (*first, *second) = (*first | 0x80, 0);
        }
    }
}

/// One ring's part of a pool damaged throughout, so that whoever reads it meets it.
fn damaged_part(random: &mut Random, pools: &mut Pools) {
    let rings = pools.table.len() / outline::COLUMNS;
    if rings == 0 {
        return;
    }
    let numbers = &mut pools.table[outline::COLUMNS * random.below(rings)..][..outline::COLUMNS];
    let part = |start: usize, count: usize, each: u64| {
        let at = numbers[start] as usize;
        at..at + (each * numbers[count]) as usize
    };
    let starts = [row::STRIPES_START, row::LIST_START, row::BYTES_START];
    let counts = [row::STRIPES, row::ENTRIES, row::BYTES];
    match random.below(6) {
        // numbers that no segment has, from a place on
        0 => {
            let from = random.below(1 + numbers[row::ENTRIES] as usize);
            let list = &mut pools.list[part(row::LIST_START, row::ENTRIES, 1)];
            list[from..].iter_mut().for_each(|i| *i += numbers[row::SEGMENTS] as u32);
        }
        1 => {
            let stripes = &mut pools.stripes[part(row::STRIPES_START, row::STRIPES, 2)];
            stripes.iter_mut().for_each(|n| *n = n.saturating_add(u32::MAX / 2));
        }
        2 => {
            let bytes = &mut pools.bytes[part(row::BYTES_START, row::BYTES, 1)];
            let changed = damaged_bytes(random, bytes);
            let n = changed.len().min(bytes.len());
            bytes[..n].copy_from_slice(&changed[..n]);
        }
        // shorter than it is, or somewhere else
        3 => counts.into_iter().for_each(|column| numbers[column] = numbers[column].min(random.below(3) as u64)),
        4 => counts.into_iter().for_each(|column| numbers[column] = numbers[column].saturating_sub(1)),
        _ => starts.into_iter().for_each(|column| numbers[column] = random.any_length()),
    }
}

fn shortened(random: &mut Random, pools: &mut Pools) {
    let which = random.below(5);
    let mut end = |n: usize| random.below(n.max(1));
    match which {
        0 => pools.table.truncate(end(pools.table.len())),
        1 => pools.spans.truncate(end(pools.spans.len())),
        2 => pools.stripes.truncate(end(pools.stripes.len())),
        3 => pools.list.truncate(end(pools.list.len())),
        _ => pools.bytes.truncate(end(pools.bytes.len())),
    }
}

/// The record of boxes, mostly as it was made.
pub fn boxes(random: &mut Random, good: &[i32]) -> Vec<i32> {
    let mut boxes = good.to_vec();
    match random.below(12) {
        0 => boxes.truncate(good.len().saturating_sub(1 + random.below(5))),
        1 => boxes.extend((0..random.below(9)).map(|_| random.next() as i32)),
        2 if !boxes.is_empty() => {
            let at = random.below(boxes.len());
            boxes[at] = match random.below(3) {
                0 => random.next() as i32,
                1 => *random.pick(&[i32::MIN, i32::MAX, 0]),
                _ => boxes[at].wrapping_add(random.between(-2, 2) as i32),
            };
        }
        3 => boxes = junk::<u32>(random, 20).into_iter().map(|z| z as i32).collect(),
        _ => {}
    }
    boxes
}
