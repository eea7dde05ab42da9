//! One ring, lent as its coordinates, two a point, and its point count: the checks, the raycast, the
//! whole-number test, the ring test, the scan, the turn.

use crate::{pour, Answer, Count, No};
use cases::limits;

#[derive(Clone, Copy, Debug)]
pub struct Segment {
    pub a: (i32, i32),
    pub b: (i32, i32),
}

/// A ring that passed rules 1 to 4.
#[derive(Clone, Copy)]
pub struct Ring<'a> {
    pub coords: &'a [i32],
}

impl<'a> Ring<'a> {
    /// Rules 1 to 4; the ring's number is 0.
    pub fn checked(coords: &'a [i32], points: usize) -> Result<Self, No> {
        if points < limits::LEAST_POINTS {
            return Err((1, 0));
        }
        if points > limits::MOST_POINTS {
            return Err((2, 0));
        }
        if points * 2 != coords.len() {
            return Err((3, 0));
        }
        let ring = Ring { coords };
        if ring.point(0) != ring.point(points - 1) {
            return Err((4, 0));
        }
        Ok(ring)
    }

    pub fn point(&self, i: usize) -> (i32, i32) {
        (self.coords[2 * i], self.coords[2 * i + 1])
    }

    pub fn points(&self) -> usize {
        self.coords.len() / 2
    }

    pub fn segments(&self) -> usize {
        self.points() - 1
    }

    pub fn segment(&self, i: usize) -> Segment {
        Segment { a: self.point(i), b: self.point(i + 1) }
    }

    /// The least x and y, then the greatest.
    pub fn bounds(&self) -> [i32; 4] {
        let mut bounds = [i32::MAX, i32::MAX, i32::MIN, i32::MIN];
        for i in 0..self.points() {
            let (x, y) = self.point(i);
            bounds = [bounds[0].min(x), bounds[1].min(y), bounds[2].max(x), bounds[3].max(y)];
        }
        bounds
    }
}

impl Segment {
    pub fn low(&self) -> f64 {
        f64::from(self.a.1.min(self.b.1))
    }

    pub fn high(&self) -> f64 {
        f64::from(self.a.1.max(self.b.1))
    }

    pub fn holds_height(&self, y: f64) -> bool {
        self.low() <= y && y <= self.high()
    }
}

/// What a test of one segment says. Of the whole-number test, inside means that it flips.
#[derive(Clone, Copy, Debug, PartialEq, Eq)]
pub enum Ray {
    Neither,
    Inside,
    On,
}

/// 01's eight steps.
pub fn raycast(s: Segment, px: f64, py: f64) -> Ray {
    let (ax, ay, bx, by) = (f64::from(s.a.0), f64::from(s.a.1), f64::from(s.b.0), f64::from(s.b.1));
    let between = |u: f64, v: f64, p: f64| (u <= p && p <= v) || (v <= p && p <= u);
    // 1
    if ay != by && ((py < ay && py < by) || (py > ay && py > by)) {
        return Ray::Neither;
    }
    // 2
    if ay == by {
        if ax == bx {
            return if px == ax && py == ay { Ray::On } else { Ray::Neither };
        }
        if py == ay && between(ax, bx, px) {
            return Ray::On;
        }
    }
    // 3
    if ax == bx && px == ax && between(ay, by, py) {
        return Ray::On;
    }
    // 4
    if (px - ax) / (bx - ax) == (py - ay) / (by - ay) {
        return Ray::On;
    }
    // 5
    let mut y = py;
    while y == ay || y == by {
        y = y.next_up();
    }
    // 6
    let (low, high) = if ay < by { (ay, by) } else { (by, ay) };
    if y < low || y > high {
        return Ray::Neither;
    }
    // 7
    let (left, right) = if ax > bx { (bx, ax) } else { (ax, bx) };
    if px >= right {
        return Ray::Neither;
    }
    if px <= left {
        return Ray::Inside;
    }
    // 8
    let steep = if ay < by {
        (y - ay) / (px - ax) >= (by - ay) / (bx - ax)
    } else {
        (y - by) / (px - bx) >= (ay - by) / (ax - bx)
    };
    if steep {
        Ray::Inside
    } else {
        Ray::Neither
    }
}

/// The cross of a segment and a whole place, exact: 128 bits hold every product.
pub fn cross(s: Segment, x: i64, y: i64) -> i128 {
    let [ax, ay, bx, by] = [s.a.0, s.a.1, s.b.0, s.b.1].map(i128::from);
    let [px, py] = [x, y].map(i128::from);
    (bx - ax) * (py - ay) - (by - ay) * (px - ax)
}

/// The whole-number test of a segment.
pub fn grid(s: Segment, x: i64, y: i64) -> Ray {
    let [ax, ay, bx, by] = [s.a.0, s.a.1, s.b.0, s.b.1].map(i64::from);
    let [px, py] = [x, y];
    let cross = cross(s, x, y);
    let boxed = ax.min(bx) <= px && px <= ax.max(bx) && ay.min(by) <= py && py <= ay.max(by);
    if cross == 0 && boxed {
        Ray::On
    } else if (ay > py) != (by > py) && (cross > 0) == (by > ay) {
        Ray::Inside
    } else {
        Ray::Neither
    }
}

/// The ring test over what each listed segment says.
fn test_said(said: impl Iterator<Item = Ray>, edge: bool) -> bool {
    let mut inside = false;
    for ray in said {
        match ray {
            Ray::On => return edge,
            Ray::Inside => inside = !inside,
            Ray::Neither => {}
        }
    }
    inside
}

/// The ring test over a list that is complete.
pub fn test_listed(ring: Ring, listed: &[usize], x: f64, y: f64, edge: bool) -> bool {
    test_said(listed.iter().map(|&i| raycast(ring.segment(i), x, y)), edge)
}

/// The segments whose own closed height range holds y, by rising number.
pub fn meeting(ring: Ring, y: f64) -> Vec<usize> {
    (0..ring.segments()).filter(|&i| ring.segment(i).holds_height(y)).collect()
}

pub fn list_scan(coords: &[i32], points: usize, y: f64, out: &mut [u32]) -> Count {
    let ring = Ring::checked(coords, points)?;
    if !y.is_finite() {
        return Err((7, 0));
    }
    pour(Ok(meeting(ring, y).into_iter().map(|i| i as u32).collect()), out)
}

pub fn ring_scan(coords: &[i32], points: usize, x: f64, y: f64, edge: bool) -> Answer {
    let ring = Ring::checked(coords, points)?;
    Ok(x.is_finite() && y.is_finite() && test_listed(ring, &meeting(ring, y), x, y, edge))
}

/// The whole-number test of a ring.
pub fn grid_test(ring: Ring, x: i64, y: i64, edge: bool) -> bool {
    test_said((0..ring.segments()).map(|i| grid(ring.segment(i), x, y)), edge)
}

pub fn ring_grid(coords: &[i32], points: usize, x: i64, y: i64, edge: bool) -> Answer {
    Ring::checked(coords, points).map(|ring| grid_test(ring, x, y, edge))
}

#[derive(Clone, Copy, Debug, PartialEq, Eq)]
pub enum Turn {
    Anticlockwise,
    Clockwise,
    /// The area is 0: as much of the ring goes round one way as the other.
    None,
}

/// The sign of the doubled signed area, which is that of the triangles between the first point and each
/// segment. Their sides have 33 bits, so that nothing here comes near the ends of an i128.
pub fn turn(coords: &[i32], points: usize) -> Result<Turn, No> {
    let ring = Ring::checked(coords, points)?;
    let first = ring.point(0);
    let from_first = |(x, y)| (i128::from(x) - i128::from(first.0), i128::from(y) - i128::from(first.1));
    let triangle = |s: Segment| {
        let ((ax, ay), (bx, by)) = (from_first(s.a), from_first(s.b));
        ax * by - bx * ay
    };
    let doubled: i128 = (0..ring.segments()).map(|i| triangle(ring.segment(i))).sum();
    Ok(match doubled {
        1.. => Turn::Anticlockwise,
        0 => Turn::None,
        _ => Turn::Clockwise,
    })
}
