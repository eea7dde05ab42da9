//! What is worth a second look before a board is built: broken zones, splices so near a line that a rounding decides, zones
//! that overlap, and shared lines that nobody holds, or two zones do.

use crate::ask::{Answers, Said};
use crate::board::{Board, Splice, Zone};
use crate::table::notes;
use brothstitch::{Edge, Mode, Outline};

type Spot = (f64, f64);

/// A zone in millimetres, with an outline that is asked in floats, whatever the zone's mode: it is the shape that is looked at.
struct Laid<'a> {
    zone: &'a Zone,
    outline: Outline,
    rings: Vec<Vec<Spot>>,
}

impl<'a> Laid<'a> {
    /// None for a zone that the library refuses: that is told by itself.
    fn of(zone: &'a Zone) -> Option<Laid<'a>> {
        let stored: Vec<&[(i32, i32)]> = zone.rings.iter().map(|ring| ring.stored.as_slice()).collect();
        let outline = Outline::new(&stored, zone.scale.float(), Mode::Float).ok()?;
        let rings = zone.rings.iter().map(|ring| ring.places.iter().map(|place| place.floats()).collect()).collect();
        Some(Laid { zone, outline, rings })
    }

    /// Whether the zone holds a place that is on none of its lines.
    fn within(&self, at: Spot) -> bool {
        self.outline.contains(at.0, at.1, Edge::Excluded) == Ok(true)
            && self.lines().all(|(_, a, b)| apart(at, a, b) > 1e-9 * (1.0 + at.0.abs() + at.1.abs()))
    }

    fn lines(&self) -> impl Iterator<Item = (usize, Spot, Spot)> + '_ {
        self.rings.iter().enumerate().flat_map(|(k, ring)| ring.windows(2).map(move |w| (k, w[0], w[1])))
    }

    /// Whether a splice on a ring is held: on the outline by the edge rule, on a rim always.
    fn holds_line(&self, ring: usize) -> bool {
        ring > 0 || self.zone.edge == Edge::Allowed
    }

    /// Places that are strictly inside, found along a line through its middle height.
    fn middles(&self) -> Vec<Spot> {
        let heights = self.rings[0].iter().map(|at| at.1);
        let (low, high) = heights.fold((f64::INFINITY, f64::NEG_INFINITY), |(a, b), y| (a.min(y), b.max(y)));
        let y = low + (high - low) * 0.4871;
        let crossed = self.lines().filter(|(_, a, b)| (a.1 > y) != (b.1 > y));
        let mut xs: Vec<f64> = crossed.map(|(_, a, b)| a.0 + (y - a.1) / (b.1 - a.1) * (b.0 - a.0)).collect();
        xs.sort_by(f64::total_cmp);
        xs.windows(2).map(|w| ((w[0] + w[1]) / 2.0, y)).filter(|&at| self.within(at)).collect()
    }
}

fn along(a: Spot, b: Spot, t: f64) -> Spot {
    (a.0 + (b.0 - a.0) * t, a.1 + (b.1 - a.1) * t)
}

/// How far a place is from a line, in the line's own lengths.
fn apart((px, py): Spot, a: Spot, b: Spot) -> f64 {
    let (dx, dy) = (b.0 - a.0, b.1 - a.1);
    let square = dx * dx + dy * dy;
    let t = if square == 0.0 { 0.0 } else { (((px - a.0) * dx + (py - a.1) * dy) / square).clamp(0.0, 1.0) };
    let (x, y) = along(a, b, t);
    (px - x).hypot(py - y)
}

/// Where a line is met by others: the middles of the parts between.
fn parts(a: Spot, b: Spot, others: &[(usize, Spot, Spot)]) -> Vec<Spot> {
    let (dx, dy) = (b.0 - a.0, b.1 - a.1);
    let square = dx * dx + dy * dy;
    let mut cuts = vec![0.0, 1.0];
    for &(_, c, d) in others {
        let (ex, ey) = (d.0 - c.0, d.1 - c.1);
        let cross = dx * ey - dy * ex;
        if cross != 0.0 {
            cuts.push(((c.0 - a.0) * ey - (c.1 - a.1) * ex) / cross);
        }
        for end in [c, d] {
            cuts.push(((end.0 - a.0) * dx + (end.1 - a.1) * dy) / square);
        }
    }
    cuts.retain(|t| (0.0..=1.0).contains(t));
    cuts.sort_by(f64::total_cmp);
    cuts.windows(2).filter(|w| w[1] - w[0] > 1e-9).map(|w| along(a, b, (w[0] + w[1]) / 2.0)).collect()
}

/// What two zones make of each other, told at the first place found.
fn pair(one: &Laid, two: &Laid) -> Vec<String> {
    let (mine, theirs): (Vec<_>, Vec<_>) = (one.lines().collect(), two.lines().collect());
    let (a, b) = (&one.zone.name, &two.zone.name);
    let mut said = Vec::new();
    let border = |lines: &[(usize, Spot, Spot)], others: &[(usize, Spot, Spot)], other: &Laid| {
        lines.iter().flat_map(|&(_, p, q)| parts(p, q, others)).find(|&at| other.within(at))
    };
    let overlap = border(&mine, &theirs, two)
        .or_else(|| border(&theirs, &mine, one))
        .or_else(|| one.middles().into_iter().find(|&at| two.within(at)));
    if let Some((x, y)) = overlap {
        said.push(format!("zones {a} and {b} overlap, as near {x:.3},{y:.3}"));
    }
    let mut shared = [None, None];
    for &(k, p, q) in &mine {
        for at in parts(p, q, &theirs) {
            let length = (q.0 - p.0).hypot(q.1 - p.1);
            let Some(&(j, ..)) = theirs.iter().find(|(_, c, d)| apart(at, *c, *d) <= length * 1e-9) else {
                continue;
            };
            // a little to either side of the line
            let off = |side: f64| (at.0 - (q.1 - p.1) * side, at.1 + (q.0 - p.0) * side);
            let (left, right) = (off(1e-5), off(-1e-5));
            let sides = [one.within(left), one.within(right), two.within(left), two.within(right)];
            if matches!(sides, [true, false, false, true] | [false, true, true, false]) {
                match (one.holds_line(k), two.holds_line(j)) {
                    (false, false) => shared[0] = shared[0].or(Some(at)),
                    (true, true) => shared[1] = shared[1].or(Some(at)),
                    _ => {}
                }
            }
        }
    }
    for (found, words) in shared.into_iter().zip(["neither holds", "both hold"]) {
        if let Some((x, y)) = found {
            said.push(format!("zones {a} and {b} share a line that {words}, as at {x:.3},{y:.3}"));
        }
    }
    said
}

/// A splice that is less than a unit of the grid from a line, and not on it.
fn near(splice: &Splice, said: &Said, z: usize, zone: &Zone) -> Option<String> {
    let (scale, (x, y)) = (zone.scale.float(), splice.place.floats());
    let at = (x * scale, y * scale);
    let spot = |p: (i32, i32)| (f64::from(p.0), f64::from(p.1));
    let far = |k: usize| {
        let lines = zone.rings[k].stored.windows(2);
        let level = |w: &&[(i32, i32)]| {
            let (p, q) = (f64::from(w[0].1), f64::from(w[1].1));
            p.min(q) - 1.0 <= at.1 && at.1 <= p.max(q) + 1.0
        };
        lines.filter(level).map(|w| apart(at, spot(w[0]), spot(w[1]))).fold(f64::INFINITY, f64::min)
    };
    let on = |k: usize| {
        (k == 0 && said.borders.contains(&z)) || said.rims.contains(&(z, k)) || said.written.contains(&(z, k))
    };
    let (k, off) = (0..zone.rings.len())
        .filter(|&k| !on(k))
        .map(|k| (k, far(k)))
        .min_by(|a, b| a.1.total_cmp(&b.1))
        .filter(|&(_, off)| off < 1.0)?;
    let line = match k {
        0 => format!("the border of {}", zone.name),
        k => format!("the rim of cut-out {k} of {}", zone.name),
    };
    let off = if off < 0.001 { "less than 0.001".to_string() } else { format!("{off:.3}") };
    Some(format!("splice {}: {off} units from {line}, and not on it (a unit is 1/{} mm)", splice.name, zone.scale))
}

/// All findings, a line each, in the order of the file.
pub fn check(board: &Board, answers: &Answers) -> Vec<String> {
    let mut lines: Vec<String> = Vec::new();
    for fault in &answers.faults {
        let (line, words) = fault.words(board);
        lines.push(format!("line {line}: {words}"));
    }
    let laid: Vec<Laid> = board.zones.iter().filter_map(Laid::of).collect();
    for (k, one) in laid.iter().enumerate() {
        lines.extend(laid[k + 1..].iter().flat_map(|two| pair(one, two)));
    }
    for (splice, said) in board.splices.iter().zip(&answers.said) {
        lines.extend(
            notes(board, said)
                .into_iter()
                .filter(|_| !said.written.is_empty())
                .map(|note| format!("splice {}: {note}", splice.name)),
        );
        lines.extend(board.zones.iter().enumerate().filter_map(|(z, zone)| near(splice, said, z, zone)));
    }
    lines
}
