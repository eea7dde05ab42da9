//! Lines on paper: what the placing of names needs to know. Nothing here answers for a splice.

use super::page::{At, Box, View};
use crate::board::{Ring, Zone};

/// A zone's rings on paper, with the box round them and the outline's area.
pub struct Shape {
    pub rings: Vec<Vec<At>>,
    pub bounds: Box,
    pub area: f64,
    /// The outline's places are all on one line.
    pub flat: bool,
}

impl Shape {
    pub fn of(zone: &Zone, view: &View) -> Shape {
        let ring = |ring: &Ring| ring.places.iter().map(|place| view.at(place.floats())).collect();
        let rings: Vec<Vec<At>> = zone.rings.iter().map(ring).collect();
        let dot = |at: &At| Box::around(*at, 0.0, 0.0);
        let bounds = rings.iter().flatten().map(dot).reduce(Box::with).expect("a zone has places");
        let doubled: f64 = rings[0].windows(2).map(|w| w[0].x * w[1].y - w[1].x * w[0].y).sum();
        Shape { rings, bounds, area: doubled.abs() / 2.0, flat: flat(&zone.rings[0].stored) }
    }

    pub fn lines(&self) -> impl Iterator<Item = (At, At)> + '_ {
        self.rings.iter().flat_map(|ring| ring.windows(2).map(|pair| (pair[0], pair[1])))
    }

    /// Whether a place is coloured: in the outline and in none of the cut-outs.
    pub fn coloured(&self, at: At) -> bool {
        let inside = |ring: &Vec<At>| crossings(ring, at).count() % 2 == 1;
        inside(&self.rings[0]) && !self.rings[1..].iter().any(inside)
    }

    /// Where the line from a place to the right crosses the rings.
    pub fn crossings(&self, at: At) -> impl Iterator<Item = At> + '_ {
        self.rings.iter().flat_map(move |ring| crossings(ring, at))
    }

    /// How far a box is from the nearest line; 0 where a line runs through it.
    pub fn clearance(&self, area: Box) -> f64 {
        self.lines().map(|line| distance(line, area)).fold(f64::INFINITY, f64::min)
    }

    /// How many lines run through a box.
    pub fn through(&self, area: Box) -> usize {
        self.lines().filter(|&line| meets(line, area)).count()
    }
}

/// Where the line from a place to the right crosses a ring.
fn crossings(ring: &[At], at: At) -> impl Iterator<Item = At> + '_ {
    let lines = ring.windows(2).map(|pair| (pair[0], pair[1]));
    lines.filter(move |(a, b)| (a.y > at.y) != (b.y > at.y)).filter_map(move |(a, b)| {
        let x = a.x + (at.y - a.y) / (b.y - a.y) * (b.x - a.x);
        (x > at.x).then_some(At { x, y: at.y })
    })
}

/// Whether all points are on one line, in whole numbers.
fn flat(points: &[(i32, i32)]) -> bool {
    let from = |p: (i32, i32)| (i128::from(p.0) - i128::from(points[0].0), i128::from(p.1) - i128::from(points[0].1));
    let farthest = points.iter().map(|&p| from(p)).max_by_key(|&(x, y)| x * x + y * y);
    farthest.is_none_or(|(x, y)| points.iter().map(|&p| from(p)).all(|(u, v)| x * v == y * u))
}

/// Whether a line has a place in a box: what of the line is left between each pair of sides.
pub fn meets((a, b): (At, At), area: Box) -> bool {
    let (dx, dy) = (b.x - a.x, b.y - a.y);
    let (mut from, mut to) = (0.0_f64, 1.0_f64);
    for (d, low, high) in [(dx, area.x0 - a.x, area.x1 - a.x), (dy, area.y0 - a.y, area.y1 - a.y)] {
        if d == 0.0 {
            if low > 0.0 || high < 0.0 {
                return false;
            }
            continue;
        }
        let (u, v) = (low / d, high / d);
        from = from.max(u.min(v));
        to = to.min(u.max(v));
    }
    from <= to
}

/// How far a line is from a box.
fn distance(line: (At, At), area: Box) -> f64 {
    if meets(line, area) {
        return 0.0;
    }
    let corners = [(area.x0, area.y0), (area.x1, area.y0), (area.x1, area.y1), (area.x0, area.y1)];
    let near_corners = corners.map(|(x, y)| from_line(line, At { x, y }));
    let near_ends = [line.0, line.1].map(|end| apart(end, area.nearest(end)));
    near_corners.into_iter().chain(near_ends).fold(f64::INFINITY, f64::min)
}

pub fn apart(a: At, b: At) -> f64 {
    ((a.x - b.x) * (a.x - b.x) + (a.y - b.y) * (a.y - b.y)).sqrt()
}

fn from_line((a, b): (At, At), at: At) -> f64 {
    let (dx, dy) = (b.x - a.x, b.y - a.y);
    let square = dx * dx + dy * dy;
    if square == 0.0 {
        return apart(a, at);
    }
    let t = (((at.x - a.x) * dx + (at.y - a.y) * dy) / square).clamp(0.0, 1.0);
    apart(At { x: a.x + t * dx, y: a.y + t * dy }, at)
}
