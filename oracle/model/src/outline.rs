//! Whole outlines: the rules, the record of boxes, the inside question, building. What is lent, and in
//! which form, is docs/DECISIONS.md's.

use crate::ring::{grid_test, ring_scan, Ring};
use crate::{pour, stripes, tree, Answer, Count, No, NO_ROOM};
use cases::limits;

/// All rings one after the other, the exterior first, and the point count of each.
#[derive(Clone, Copy, Debug)]
pub struct Rings<'a> {
    pub sizes: &'a [u32],
    pub coords: &'a [i32],
}

impl<'a> Rings<'a> {
    /// The lowest ring at fault.
    fn lowest(&self, fault: impl Fn(usize) -> bool) -> Option<u64> {
        (0..self.sizes.len()).find(|&k| fault(k)).map(|k| k as u64)
    }

    /// Ring k of rings that passed rule 3.
    pub fn ring(&self, k: usize) -> Ring<'a> {
        let points = |sizes: &[u32]| sizes.iter().map(|&n| n as usize).sum::<usize>();
        let (from, to) = (points(&self.sizes[..k]), points(&self.sizes[..=k]));
        Ring { coords: &self.coords[2 * from..2 * to] }
    }

    /// Rules 1 to 3.
    fn sized(&self) -> Result<(), No> {
        if self.sizes.is_empty() {
            return Err((1, 0));
        }
        if let Some(k) = self.lowest(|k| (self.sizes[k] as usize) < limits::LEAST_POINTS) {
            return Err((1, k));
        }
        if self.sizes.len() > limits::RINGS {
            return Err((2, limits::RINGS as u64));
        }
        if let Some(k) = self.lowest(|k| self.sizes[k] as usize > limits::MOST_POINTS) {
            return Err((2, k));
        }
        if 2 * self.sizes.iter().sum::<u32>() as usize != self.coords.len() {
            return Err((3, 0));
        }
        Ok(())
    }

    /// Rule 4.
    fn closed(&self) -> Result<(), No> {
        let open = |k| self.ring(k).point(0) != self.ring(k).point(self.ring(k).points() - 1);
        self.lowest(open).map_or(Ok(()), |k| Err((4, k)))
    }

    /// Rules 1 to 4.
    pub fn shaped(&self) -> Result<(), No> {
        self.sized()?;
        self.closed()
    }

    /// Rule 5.
    fn fit(&self, scale: f64) -> Result<(), No> {
        if !(scale.is_finite() && scale > 0.0) {
            return Err((5, 0));
        }
        Ok(())
    }

    /// Rules 1 to 5.
    pub fn checked(&self, scale: f64) -> Result<(), No> {
        self.shaped()?;
        self.fit(scale)
    }

    /// The same, where a record of four numbers a ring comes with the coordinates.
    fn checked_with(&self, boxes: &[i32], scale: f64) -> Result<(), No> {
        self.sized()?;
        if boxes.len() < 4 * self.sizes.len() {
            return Err((3, 0));
        }
        self.closed()?;
        self.fit(scale)
    }

    fn all(&self) -> impl Iterator<Item = Ring<'a>> + '_ {
        (0..self.sizes.len()).map(|k| self.ring(k))
    }
}

/// The record: each ring's box. Says how many rings there are.
pub fn make(rings: Rings, scale: f64, boxes: &mut [i32]) -> Count {
    let made = rings.checked(scale).map(|()| rings.all().flat_map(|ring| ring.bounds()).collect());
    pour(made, boxes).map(|numbers| numbers / 4)
}

/// The columns of the table.
pub const COLUMNS: usize = 10;

/// The indexes of all rings: a table with ten numbers a ring (segments; 1 below the threshold; 1 for
/// stripes and 2 for a tree; where its stripes start and how many they are; where its list starts, how
/// long it is, and the fullest stripe; where its bytes start and how many they are), least and height of
/// each ring, and the content.
#[derive(Clone, Copy)]
pub struct Indexes<'a> {
    pub table: &'a [u64],
    pub spans: &'a [f64],
    pub stripes: &'a [u32],
    pub list: &'a [u32],
    pub bytes: &'a [u8],
}

/// A part of a row. One that doesn't lie in it whole is damage.
fn part<T>(row: &[T], at: usize, n: usize) -> Result<&[T], No> {
    at.checked_add(n).and_then(|to| row.get(at..to)).ok_or((9, 0))
}

/// What a table says of a ring.
#[derive(Clone, Debug, PartialEq, Eq)]
pub struct Told {
    pub segments: u64,
    pub below: bool,
    pub stripes: bool,
    pub tree: bool,
    /// Segments, stripes, entries in all, fullest stripe.
    pub four: Option<[u64; 4]>,
}

/// What is missing of a table is 0.
fn number(table: &[u64], k: usize, column: usize) -> u64 {
    table.get(COLUMNS * k + column).copied().unwrap_or(0)
}

pub fn told(table: &[u64], k: usize) -> Told {
    let n = |column| number(table, k, column);
    let stripes = n(2) % 2 == 1;
    Told {
        segments: n(0),
        below: n(1) != 0,
        stripes,
        tree: n(2) / 2 % 2 == 1,
        four: stripes.then(|| [n(0), n(4), n(6), n(7)]),
    }
}

impl Indexes<'_> {
    /// The ring test of a ring by its index, by its stripes if it has both. A tree is searched in the box
    /// that the record has for the ring. Places of damage count from the start of the ring's own part; a
    /// part that the table tells of and that isn't there is told first, whatever the height.
    fn test(&self, k: usize, ring: Ring, boxes: &[i32], x: f64, y: f64, edge: bool) -> Answer {
        let number = |column| number(self.table, k, column) as usize;
        if number(2) % 2 == 1 {
            let span = part(self.spans, 2 * k, 2)?;
            let index = stripes::Index {
                least: span[0],
                height: span[1],
                stripes: part(self.stripes, number(3), number(4).saturating_mul(2))?,
                list: part(self.list, number(5), number(6))?,
            };
            return stripes::test(ring.coords, ring.points(), &index, x, y, edge);
        }
        if number(2) / 2 % 2 == 1 {
            let bytes = part(self.bytes, number(8), number(9))?;
            return tree::test_in(ring, boxes[4 * k..][..4].try_into().expect("four"), bytes, x, y, edge);
        }
        ring_scan(ring.coords, ring.points(), x, y, edge)
    }
}

#[derive(Clone, Copy, Debug)]
pub struct Asked {
    pub scale: f64,
    pub integer: bool,
    pub edge: bool,
    pub x: f64,
    pub y: f64,
}

pub fn inside(rings: Rings, boxes: &[i32], asked: Asked, indexes: &Indexes) -> Answer {
    let Asked { scale, integer, edge, x, y } = asked;
    rings.checked_with(boxes, scale)?;
    let (sx, sy) = (x * scale, y * scale);
    if ![x, y, sx, sy].iter().all(|c| c.is_finite()) {
        return Ok(false);
    }
    let holes = 1..rings.sizes.len();
    if integer {
        let (px, py) = (sx.round() as i64, sy.round() as i64);
        let [x0, y0, x1, y1] = [0, 1, 2, 3].map(|i| i64::from(boxes[i]));
        let test = |k: usize, edge| grid_test(rings.ring(k), px, py, edge);
        let boxed = x0 <= px && px <= x1 && y0 <= py && py <= y1;
        return Ok(boxed && test(0, edge) && !holes.into_iter().any(|k| test(k, false)));
    }
    let [x0, y0, x1, y1] = [0, 1, 2, 3].map(|i| f64::from(boxes[i]));
    let boxed = x0 <= sx && sx <= x1 && y0 <= sy && sy <= y1;
    if !boxed || !indexes.test(0, rings.ring(0), boxes, sx, sy, edge)? {
        return Ok(false);
    }
    for k in holes {
        if indexes.test(k, rings.ring(k), boxes, sx, sy, false)? {
            return Ok(false);
        }
    }
    Ok(true)
}

/// The same by the points alone: no record and no index.
pub fn inside_plain(rings: Rings, asked: Asked) -> Answer {
    let Asked { scale, integer, edge, x, y } = asked;
    rings.checked(scale)?;
    let (sx, sy) = (x * scale, y * scale);
    if ![x, y, sx, sy].iter().all(|c| c.is_finite()) {
        return Ok(false);
    }
    let (px, py) = (sx.round() as i64, sy.round() as i64);
    let boxed = |k: usize| {
        let ring = rings.ring(k);
        let (xs, ys) = (ring.coords.iter().step_by(2), ring.coords.iter().skip(1).step_by(2));
        let within = |low: i32, high: i32, whole: i64, float: f64| {
            if integer {
                i64::from(low) <= whole && whole <= i64::from(high)
            } else {
                f64::from(low) <= float && float <= f64::from(high)
            }
        };
        within(*xs.clone().min().unwrap(), *xs.max().unwrap(), px, sx)
            && within(*ys.clone().min().unwrap(), *ys.max().unwrap(), py, sy)
    };
    let test = |k: usize, edge| {
        if integer {
            Ok(grid_test(rings.ring(k), px, py, edge))
        } else {
            ring_scan(rings.ring(k).coords, rings.ring(k).points(), sx, sy, edge)
        }
    };
    if !boxed(0) || !test(0, edge)? {
        return Ok(false);
    }
    for k in 1..rings.sizes.len() {
        if test(k, false)? {
            return Ok(false);
        }
    }
    Ok(true)
}

/// The rooms of a build.
pub struct Rooms<'a> {
    pub table: &'a mut [u64],
    pub spans: &'a mut [f64],
    pub stripes: &'a mut [u32],
    pub list: &'a mut [u32],
    pub bytes: &'a mut [u8],
    pub work: &'a mut [u32],
}

#[derive(Clone, Copy, Debug)]
pub struct Options {
    pub stripes: bool,
    pub tree: bool,
    pub threshold: u64,
}

#[derive(Default)]
struct Made {
    table: Vec<u64>,
    spans: Vec<f64>,
    stripes: Vec<u32>,
    list: Vec<u32>,
    bytes: Vec<u8>,
    /// What the ring that calls for most calls for.
    work: usize,
}

impl Made {
    /// The next ring's indexes; none where over 65,536 stripes are called for.
    fn add(&mut self, ring: Ring, options: Options) -> Option<()> {
        let n = ring.segments();
        let reached = n as u64 >= options.threshold;
        let asked = options.stripes || options.tree;
        let mut row = [0; COLUMNS];
        let mut span = [0.0; 2];
        row[..2].copy_from_slice(&[n as u64, u64::from(asked && !reached)]);
        // a part that the ring has not got starts behind the others too
        [row[3], row[5], row[8]] = [self.stripes.len(), self.list.len(), self.bytes.len()].map(|n| n as u64);
        if options.stripes && reached {
            let parts = stripes::parts(ring)?;
            let (table, list) = (parts.table(), parts.list());
            let [_, stripes, entries, fullest] = parts.statistics(ring).map(u64::from);
            row[2] += 1;
            [row[4], row[6], row[7]] = [stripes, entries, fullest];
            span = [parts.least, parts.height];
            self.stripes.extend(table);
            self.list.extend(list);
        }
        if options.tree && reached {
            let (bytes, work) = tree::packed(ring);
            row[2] += 2;
            row[9] = bytes.len() as u64;
            self.bytes.extend(bytes);
            self.work = self.work.max(work);
        }
        self.table.extend(row);
        self.spans.extend(span);
        Some(())
    }
}

/// Builds every ring's indexes; says how many rings there are.
pub fn build(rings: Rings, options: Options, rooms: Rooms) -> Count {
    rings.shaped()?;
    let mut made = Some(Made::default());
    for ring in rings.all() {
        made = made.and_then(|mut m| m.add(ring, options).map(|()| m));
    }
    let fits = |m: &Made| {
        m.table.len() <= rooms.table.len()
            && m.spans.len() <= rooms.spans.len()
            && m.stripes.len() <= rooms.stripes.len()
            && m.list.len() <= rooms.list.len()
            && m.bytes.len() <= rooms.bytes.len()
            && m.work <= rooms.work.len()
    };
    let made = made.filter(fits);
    let answer = if made.is_some() { Ok(rings.sizes.len() as u64) } else { Err(NO_ROOM) };
    let made = made.unwrap_or_default();
    let Rooms { table, spans, stripes, list, bytes, work } = rooms;
    work.fill(0);
    let poured = [
        pour(Ok(made.table), table),
        pour(Ok(made.spans), spans),
        pour(Ok(made.stripes), stripes),
        pour(Ok(made.list), list),
        pour(Ok(made.bytes), bytes),
    ];
    assert!(poured.iter().all(Result::is_ok), "what fits is poured");
    answer
}
