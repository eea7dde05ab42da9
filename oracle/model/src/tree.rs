//! The packed tree.

use crate::ring::{test_listed, Ring};
use crate::{damaged, pour, varint, Answer, Count, Found, No, NO_ROOM};
use cases::limits;
use cases::varints::encode;

#[derive(Clone, Copy, Debug)]
struct Rect {
    min: (f64, f64),
    max: (f64, f64),
}

impl Rect {
    fn of([x0, y0, x1, y1]: [i32; 4]) -> Self {
        let corner = |x, y| (f64::from(x), f64::from(y));
        Rect { min: corner(x0, y0), max: corner(x1, y1) }
    }

    fn of_segment(ring: Ring, i: usize) -> Self {
        let s = ring.segment(i);
        Rect::of([s.a.0.min(s.b.0), s.a.1.min(s.b.1), s.a.0.max(s.b.0), s.a.1.max(s.b.1)])
    }

    fn middle(&self) -> (f64, f64) {
        ((self.min.0 + self.max.0) / 2.0, (self.min.1 + self.max.1) / 2.0)
    }

    /// 0 north-west, 1 north-east, 2 south-west, 3 south-east.
    fn quadrant(&self, q: usize) -> Self {
        let (x, y) = self.middle();
        let (west, east) = if q % 2 == 0 { (self.min.0, x) } else { (x, self.max.0) };
        let (south, north) = if q < 2 { (y, self.max.1) } else { (self.min.1, y) };
        Rect { min: (west, south), max: (east, north) }
    }

    /// The quadrant that a segment's box goes to; none where it stays.
    fn choose(&self, r: Rect) -> Option<usize> {
        let (x, y) = self.middle();
        let (west, east) = (r.max.0 < x, r.min.0 >= x);
        let (south, north) = (r.max.1 < y, r.min.1 >= y);
        match (west, east, south, north) {
            (true, _, _, true) => Some(0),
            (_, true, _, true) => Some(1),
            (true, _, true, _) => Some(2),
            (_, true, true, _) => Some(3),
            _ => None,
        }
    }

    fn meets_height(&self, y: f64) -> bool {
        self.min.1 <= y && y <= self.max.1
    }
}

/// A node's bytes, and how many nodes it has, itself among them.
fn pack(ring: Ring, bounds: Rect, depth: usize, arriving: &[usize]) -> (Vec<u8>, usize) {
    let splits = depth < limits::DEPTH && arriving.len() > limits::LEAF;
    let goes = |i: usize| if splits { bounds.choose(Rect::of_segment(ring, i)) } else { None };
    let those = |to: Option<usize>| arriving.iter().copied().filter(|&i| goes(i) == to).collect::<Vec<_>>();

    let own = those(None);
    let mut bytes = encode(own.len() as u64);
    let mut last = 0;
    for i in own {
        bytes.extend(encode((i - last) as u64));
        last = i;
    }
    bytes.push(u8::from(splits));
    let mut nodes = 1;
    for q in (0..4).filter(|_| splits) {
        let sent = those(Some(q));
        if sent.is_empty() {
            bytes.push(0);
            continue;
        }
        let (child, below) = pack(ring, bounds.quadrant(q), depth + 1, &sent);
        bytes.extend(encode(child.len() as u64));
        bytes.extend(child);
        nodes += below;
    }
    (bytes, nodes)
}

/// The packed bytes, and the work numbers that building calls for.
pub fn packed(ring: Ring) -> (Vec<u8>, usize) {
    let all: Vec<usize> = (0..ring.segments()).collect();
    let (bytes, nodes) = pack(ring, Rect::of(ring.bounds()), 0, &all);
    (bytes, nodes * 6 + ring.segments())
}

/// What building says: nothing under the threshold, or how many bytes were used.
pub type Built = Result<Option<u64>, No>;

pub fn build(coords: &[i32], points: usize, threshold: u64, bytes: &mut [u8], work: &mut [u32]) -> Built {
    let ring = Ring::checked(coords, points)?;
    work.fill(0);
    if (ring.segments() as u64) < threshold {
        bytes.fill(0);
        return Ok(None);
    }
    let (made, numbers) = packed(ring);
    pour(if numbers > work.len() { Err(NO_ROOM) } else { Ok(made) }, bytes).map(Some)
}

struct Reading<'a> {
    bytes: &'a [u8],
    ring: Ring<'a>,
    y: f64,
    found: Vec<usize>,
}

impl Reading<'_> {
    /// The number at a place of a part that ends before `end`, and the place past it.
    fn varint(&self, at: usize, end: usize) -> Result<(u64, usize), No> {
        varint::read(&self.bytes[..end], at)
    }

    /// Reads a node's part; what it finds is added.
    fn node(&mut self, at: usize, end: usize, depth: usize, bounds: Rect) -> Result<(), No> {
        let (own, mut p) = self.varint(at, end)?;
        let mut number = 0_u128;
        for _ in 0..own {
            let (difference, next) = self.varint(p, end)?;
            number += u128::from(difference);
            if number >= self.ring.segments() as u128 {
                return Err(damaged(p));
            }
            if self.ring.segment(number as usize).holds_height(self.y) {
                self.found.push(number as usize);
            }
            p = next;
        }
        if p >= end || self.bytes[p] > 1 {
            return Err(damaged(p));
        }
        let split = self.bytes[p] == 1;
        p += 1;
        for q in (0..4).filter(|_| split) {
            p = self.child(p, end, depth, bounds.quadrant(q))?;
        }
        if p < end {
            return Err(damaged(p));
        }
        Ok(())
    }

    /// Reads or passes over the child whose size stands at a place; gives the place past it.
    fn child(&mut self, at: usize, end: usize, depth: usize, bounds: Rect) -> Result<usize, No> {
        let (size, start) = self.varint(at, end)?;
        if size > (end - start) as u64 || (size > 0 && depth == limits::DEPTH) {
            return Err(damaged(at));
        }
        let past = start + size as usize;
        if size > 0 && bounds.meets_height(self.y) {
            self.node(start, past, depth + 1, bounds)?;
        }
        Ok(past)
    }
}

/// What a search of any bytes at a finite height lists.
pub fn search(ring: Ring, bytes: &[u8], y: f64) -> Found {
    search_in(ring, ring.bounds(), bytes, y)
}

/// The same, in a box that may not be the ring's.
fn search_in(ring: Ring, bounds: [i32; 4], bytes: &[u8], y: f64) -> Found {
    let root = Rect::of(bounds);
    let mut reading = Reading { bytes, ring, y, found: Vec::new() };
    let damage = if root.meets_height(y) { reading.node(0, bytes.len(), 0, root).err() } else { None };
    Found { list: reading.found, damage }
}

pub fn list(coords: &[i32], points: usize, bytes: &[u8], y: f64, out: &mut [u32]) -> Count {
    let ring = Ring::checked(coords, points)?;
    if !y.is_finite() {
        return Err((7, 0));
    }
    search(ring, bytes, y).listed(out)
}

pub fn test(coords: &[i32], points: usize, bytes: &[u8], x: f64, y: f64, edge: bool) -> Answer {
    let ring = Ring::checked(coords, points)?;
    test_in(ring, ring.bounds(), bytes, x, y, edge)
}

pub fn test_in(ring: Ring, bounds: [i32; 4], bytes: &[u8], x: f64, y: f64, edge: bool) -> Answer {
    if !x.is_finite() || !y.is_finite() {
        return Ok(false);
    }
    Ok(test_listed(ring, &search_in(ring, bounds, bytes, y).complete()?, x, y, edge))
}
