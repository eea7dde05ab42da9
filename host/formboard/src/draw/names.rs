//! Where names go: each at the place that costs least, so that none hides another name or a mark.

use super::page::{text_width, At, Box, FRAME};
use super::shape::{apart, meets, Shape};

pub const ZONE_SIZE: f64 = 4.2;
pub const KIND_SIZE: f64 = 3.0;
pub const SPLICE_SIZE: f64 = 3.5;

/// Where a zone's name stands, with its kind below it: lying, or upright in a narrow zone.
#[derive(Clone, Copy, Debug)]
pub struct ZoneName {
    pub area: Box,
    pub upright: bool,
}

fn zone_name_at(at: At, name: &str, kind: &str, upright: bool) -> ZoneName {
    let width = text_width(name, ZONE_SIZE).max(text_width(kind, KIND_SIZE)) / 2.0 + 0.8;
    let height = (ZONE_SIZE + KIND_SIZE) / 2.0 + 0.6;
    let (width, height) = if upright { (height, width) } else { (width, height) };
    ZoneName { area: Box::around(at, width, height), upright }
}

/// A place for the name of zone k in its own colour, clear of lines and marks, and off smaller zones.
pub fn zone_name(shapes: &[Shape], k: usize, name: &str, kind: &str, taken: &[Box]) -> ZoneName {
    let bounds = shapes[k].bounds;
    // fewer places are tried where there are many lines to look at
    let lines = shapes[k].lines().count();
    let parts = (6..40).find(|parts| parts * parts * lines > 200_000).unwrap_or(40) as u32;
    let steps = |from: f64, to: f64| (1..parts).map(move |i| from + (to - from) * f64::from(i) / f64::from(parts));
    let mut best = (f64::INFINITY, zone_name_at(bounds.middle(), name, kind, false));
    for upright in [false, true] {
        for y in steps(bounds.y0, bounds.y1) {
            for x in steps(bounds.x0, bounds.x1) {
                let place = zone_name_at(At { x, y }, name, kind, upright);
                let cost = zone_cost(shapes, k, place.area, taken) + if upright { 15.0 } else { 0.0 };
                if cost < best.0 {
                    best = (cost, place);
                }
            }
        }
    }
    best.1
}

fn zone_cost(shapes: &[Shape], k: usize, area: Box, taken: &[Box]) -> f64 {
    let middle = area.middle();
    let mut cost = 0.0;
    if !shapes[k].coloured(middle) {
        cost += 300.0;
    }
    for (_, shape) in shapes.iter().enumerate().filter(|&(other, _)| other != k) {
        if shape.bounds.shared(area.grown(2.0)) == 0.0 {
            cost -= 2.0;
            continue;
        }
        cost += 20.0 * shape.through(area) as f64;
        if shape.area < shapes[k].area && shape.coloured(middle) {
            cost += 80.0;
        }
        cost -= shape.clearance(area).min(2.0);
    }
    cost += 40.0 * shapes[k].through(area) as f64;
    cost -= shapes[k].clearance(area).min(7.0);
    cost += taken.iter().map(|other| 20.0 * area.grown(0.8).shared(*other)).sum::<f64>();
    cost + if FRAME.holds(area) { 0.0 } else { 500.0 }
}

/// A splice's name, still to be placed: its mark, and how far from the middle the mark reaches.
pub struct Name {
    pub text: String,
    pub at: At,
    pub reach: f64,
    /// 1 is full size.
    pub size: f64,
}

/// Sixteen ways off, the better ones first.
const WAYS: [(f64, f64); 16] = [
    (1.0, 0.0),
    (0.71, -0.71),
    (0.71, 0.71),
    (-1.0, 0.0),
    (-0.71, -0.71),
    (-0.71, 0.71),
    (0.0, -1.0),
    (0.0, 1.0),
    (0.92, -0.38),
    (0.92, 0.38),
    (-0.92, -0.38),
    (-0.92, 0.38),
    (0.38, -0.92),
    (-0.38, -0.92),
    (0.38, 0.92),
    (-0.38, 0.92),
];

const FARTHER: [f64; 6] = [0.0, 1.2, 2.8, 5.0, 8.0, 12.0];

impl Name {
    pub fn mark(&self) -> Box {
        Box::around(self.at, self.reach, self.reach)
    }

    /// The places next to the mark.
    pub fn near_boxes(&self) -> impl Iterator<Item = Box> + '_ {
        self.boxes().take(WAYS.len()).map(|(_, area)| area)
    }

    fn boxes(&self) -> impl Iterator<Item = (f64, Box)> + '_ {
        let size = self.size * SPLICE_SIZE;
        let (half_width, half_height) = (text_width(&self.text, size) / 2.0, size / 2.0);
        FARTHER.iter().flat_map(move |far| {
            WAYS.iter().enumerate().map(move |(k, (dx, dy))| {
                let r = self.reach + self.size * (0.7 + far);
                let x = self.at.x + dx * (r + half_width);
                let y = self.at.y + dy * (r + half_height);
                (1.5 * far + 0.08 * k as f64, Box::around(At { x, y }, half_width, half_height))
            })
        })
    }
}

/// What a name is placed among: the names of other splices as far as they are placed, the lines near it,
/// and what is drawn already.
struct Among<'a> {
    names: &'a [Name],
    placed: Vec<Option<Box>>,
    near: Vec<Vec<(At, At)>>,
    taken: &'a [Box],
}

/// Places all names; `taken` holds what is drawn already. Each is placed again when all others are known.
pub fn splice_names(names: &[Name], shapes: &[Shape], taken: &[Box]) -> Vec<Box> {
    let near = |name: &Name| {
        let reached = name.boxes().fold(name.mark(), |all, (_, area)| all.with(area));
        shapes.iter().flat_map(Shape::lines).filter(|&line| meets(line, reached)).collect()
    };
    let mut among = Among { names, placed: vec![None; names.len()], near: names.iter().map(near).collect(), taken };
    for _ in 0..4 {
        for (k, name) in names.iter().enumerate() {
            among.placed[k] = None;
            let mut best = (f64::INFINITY, name.mark());
            for (cost, area) in name.boxes() {
                let cost = cost + among.overlaps(k, area);
                if cost < best.0 {
                    let cost = cost + among.lines(k, area);
                    if cost < best.0 {
                        best = (cost, area);
                    }
                }
            }
            among.placed[k] = Some(best.1);
        }
    }
    among.placed.into_iter().map(|area| area.expect("every name was placed")).collect()
}

impl Among<'_> {
    /// What it costs that a name hides others, or stands nearer to them.
    fn overlaps(&self, k: usize, area: Box) -> f64 {
        let roomy = area.grown(0.4);
        let others = self.placed.iter().flatten().chain(self.taken);
        let mut cost: f64 = others.map(|other| 100.0 * roomy.shared(*other)).sum();
        let from = |name: &Name| apart(area.nearest(name.at), name.at);
        let own = from(&self.names[k]);
        for name in self.names {
            cost += 100.0 * roomy.shared(name.mark());
            // a name that is nearer to another mark than to its own misleads
            if from(name) < own {
                cost += 8.0;
            }
        }
        cost + if FRAME.holds(area) { 0.0 } else { 500.0 }
    }

    /// What it costs that lines run through a name.
    fn lines(&self, k: usize, area: Box) -> f64 {
        2.4 * self.near[k].iter().filter(|&&line| meets(line, area)).take(6).count() as f64
    }
}
