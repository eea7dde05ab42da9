//! The stripes.

use crate::ring::{test_listed, Ring};
use crate::{damaged, Answer, Count, Found, No, NO_ROOM};
use cases::limits;

const PI: f64 = f64::from_bits(0x4009_21fb_5444_2d18);

/// A lent index, whoever wrote it.
#[derive(Clone, Copy, Debug)]
pub struct Index<'a> {
    pub least: f64,
    pub height: f64,
    /// Two numbers a stripe: where its part of the list starts, and how long it is.
    pub stripes: &'a [u32],
    pub list: &'a [u32],
}

/// The stripe of a height, clamped to the first and the last.
pub fn stripe_of(y: f64, least: f64, height: f64, stripes: usize) -> usize {
    if height == 0.0 || stripes == 0 {
        return 0;
    }
    let place = ((y - least) / height * stripes as f64).floor();
    if place.is_nan() {
        return 0;
    }
    place.clamp(0.0, (stripes - 1) as f64) as usize
}

/// How many stripes a ring calls for. Every operation rounds, in the ring's order.
pub fn stripe_count(ring: Ring) -> f64 {
    let n = ring.segments();
    let (mut doubled, mut perimeter) = (0.0, 0.0);
    for i in 0..n {
        let s = ring.segment(i);
        let (ax, ay, bx, by) = (f64::from(s.a.0), f64::from(s.a.1), f64::from(s.b.0), f64::from(s.b.1));
        doubled += ax * by - bx * ay;
        let (dx, dy) = (bx - ax, by - ay);
        perimeter += (dx * dx + dy * dy).sqrt();
    }
    let area = f64::abs(doubled) * 0.5;
    let score = if perimeter == 0.0 { 0.0 } else { (area * PI * 4.0) / (perimeter * perimeter) };
    (n as f64 * score).floor().max(limits::LEAST_STRIPES as f64)
}

/// What an index of a ring holds.
#[derive(Clone, Debug)]
pub struct Parts {
    pub least: f64,
    pub height: f64,
    /// The segments entered in each stripe.
    pub stripes: Vec<Vec<u32>>,
}

/// The index of a ring; none where over 65,536 stripes are called for.
pub fn parts(ring: Ring) -> Option<Parts> {
    let count = stripe_count(ring);
    if count > limits::MOST_STRIPES as f64 {
        return None;
    }
    let all = || (0..ring.segments()).map(|i| ring.segment(i));
    let least = all().map(|s| s.low()).fold(f64::INFINITY, f64::min);
    let height = all().map(|s| s.high()).fold(f64::NEG_INFINITY, f64::max) - least;
    let mut stripes = vec![Vec::new(); count as usize];
    for (i, s) in all().enumerate() {
        let [first, last] = [s.low(), s.high()].map(|y| stripe_of(y, least, height, count as usize));
        for part in &mut stripes[first..=last] {
            part.push(i as u32);
        }
    }
    Some(Parts { least, height, stripes })
}

impl Parts {
    /// Segments, stripes, entries in all, fullest stripe.
    pub fn statistics(&self, ring: Ring) -> [u32; 4] {
        let fullest = self.stripes.iter().map(Vec::len).max().unwrap_or(0);
        [ring.segments(), self.stripes.len(), self.list().len(), fullest].map(|n| n as u32)
    }

    pub fn list(&self) -> Vec<u32> {
        self.stripes.concat()
    }

    /// For each stripe where its part of the list starts and how long it is.
    pub fn table(&self) -> Vec<u32> {
        let mut start = 0;
        let mut table = Vec::new();
        for part in &self.stripes {
            table.extend([start, part.len() as u32]);
            start += part.len() as u32;
        }
        table
    }
}

/// What building says: nothing under the threshold, or least, height and the four statistics.
pub type Built = Result<Option<(f64, f64, [u32; 4])>, No>;

pub fn build(coords: &[i32], points: usize, threshold: u64, stripes: &mut [u32], list: &mut [u32]) -> Built {
    let ring = Ring::checked(coords, points)?;
    stripes.fill(0);
    list.fill(0);
    if (ring.segments() as u64) < threshold {
        return Ok(None);
    }
    let parts = parts(ring).ok_or(NO_ROOM)?;
    let (table, numbers) = (parts.table(), parts.list());
    if table.len() > stripes.len() || numbers.len() > list.len() {
        return Err(NO_ROOM);
    }
    stripes[..table.len()].copy_from_slice(&table);
    list[..numbers.len()].copy_from_slice(&numbers);
    Ok(Some((parts.least, parts.height, parts.statistics(ring))))
}

/// What the index lists at a finite height.
pub fn search(ring: Ring, index: &Index, y: f64) -> Found {
    let &Index { least, height, stripes, list } = index;
    let mut found = Found::default();
    if if height == 0.0 { y != least } else { y < least || y > least + height } {
        return found;
    }
    let count = stripes.len() / 2;
    if count == 0 {
        found.damage = Some(damaged(0));
        return found;
    }
    let s = stripe_of(y, least, height, count);
    let (start, past) = (stripes[2 * s] as usize, stripes[2 * s] as usize + stripes[2 * s + 1] as usize);
    if past > list.len() {
        found.damage = Some(damaged(list.len()));
        return found;
    }
    for (place, &number) in list.iter().enumerate().take(past).skip(start) {
        let i = number as usize;
        if i >= ring.segments() {
            found.damage = Some(damaged(place));
            break;
        }
        if ring.segment(i).holds_height(y) {
            found.list.push(i);
        }
    }
    found
}

pub fn list(coords: &[i32], points: usize, index: &Index, y: f64, out: &mut [u32]) -> Count {
    let ring = Ring::checked(coords, points)?;
    if !y.is_finite() {
        return Err((7, 0));
    }
    search(ring, index, y).listed(out)
}

pub fn test(coords: &[i32], points: usize, index: &Index, x: f64, y: f64, edge: bool) -> Answer {
    let ring = Ring::checked(coords, points)?;
    if !x.is_finite() || !y.is_finite() {
        return Ok(false);
    }
    Ok(test_listed(ring, &search(ring, index, y).complete()?, x, y, edge))
}
