//! A board is one ring, or one outline, with all that is asked about it. Everything on it follows from the
//! run's seed and the board's number.

use crate::calls::*;
use crate::given::*;
use crate::lent::Fault;
use crate::tally::Tally;
use cases::lent::{self, Lent};
use cases::outlines::{self, Mode, Outline};
use cases::{points, rings, wkb, Random};
use model::{outline, ring, stripes, tree};

/// Up to so many points every length of a room is tried.
const SMALL: usize = 200;

/// The fixed inputs: each is taken in turn by every third board of its kind.
pub struct Fixed {
    rings: Vec<rings::Ring>,
    lent: Vec<Lent>,
    outlines: Vec<Outline>,
    /// No ring or outline of more points is asked about.
    most: usize,
}

impl Fixed {
    pub fn new(most: usize) -> Self {
        let mut outlines = outlines::broken();
        outlines.extend(outlines::edges());
        outlines.retain(|o| o.coordinates.len() <= 2 * most);
        let mut lent = lent::edges();
        lent.retain(|l| l.coords.len() <= 2 * most);
        let rings = rings::edges().into_iter().map(|n| n.ring).filter(|r| r.len() <= most).collect();
        Fixed { rings, lent, outlines, most }
    }

    /// A board by its number: rings and outlines take turns.
    pub fn ask(&self, random: &mut Random, number: u64, tally: &mut Tally) -> Result<(), Fault> {
        let turn = (number / 2) as usize;
        if number % 2 == 0 {
            self.ring(random, turn, tally)
        } else {
            self.outline(random, turn, tally)
        }
    }

    /// A ring that no rule refuses.
    fn shape(&self, random: &mut Random, turn: usize) -> rings::Ring {
        if turn % 3 == 0 {
            return self.rings[turn / 3 % self.rings.len()].clone();
        }
        loop {
            let ring = match random.below(16) {
                0 | 1 => rings::thin(random, 5),
                2 => rings::flat(random, 5),
                _ => rings::random(random),
            };
            let ring = if random.one_in(2) { rings::held_unwrapped(&ring) } else { ring };
            if ring.len() <= self.most {
                return ring;
            }
        }
    }

    fn ring(&self, random: &mut Random, turn: usize, tally: &mut Tally) -> Result<(), Fault> {
        let shape = self.shape(random, turn);
        let lent = match random.below(24) {
            0..=2 => lent::damaged(random, &shape),
            3..=5 => self.lent[turn % self.lent.len()].clone(),
            6 => Lent { coords: junk(random, 12), points: random.below(7) },
            _ => Lent::of(&shape),
        };
        let good = RingIndexes::of(&shape);
        for _ in 0..8 {
            list(random, &lent, &shape, &good, tally)?;
            test(random, &lent, &shape, &good, tally)?;
        }
        tally.ask(&Turn { ring: &lent })?;
        for _ in 0..4 {
            build(random, &lent, &good, tally)?;
        }
        if random.one_in(10) && shape.len() <= SMALL {
            ring_rooms(random, &lent, &shape, &good, tally)?;
        }
        Ok(())
    }

    fn outline(&self, random: &mut Random, turn: usize, tally: &mut Tally) -> Result<(), Fault> {
        let outline = if turn % 3 == 0 {
            self.outlines[turn / 3 % self.outlines.len()].clone()
        } else {
            self.any_outline(random)
        };
        let refused = outline.refusal().is_some();
        let mode = if outline.mode == Mode::Float { 0 } else { switch(random).max(1) };
        let sizes = outline.sizes.iter().map(|&n| n as u32).collect();
        let rings = Rings { sizes, coords: outline.coordinates.clone(), scale: outline.scale, mode };
        make_and_build(random, &rings, refused, tally)?;
        if random.one_in(10) && !refused && rings.coords.len() <= 2 * SMALL {
            outline_rooms(random, &rings, tally)?;
        }
        for _ in 0..6 {
            read_wkb(random, tally)?;
        }
        inside(random, &outline, &rings, refused, tally)
    }

    fn any_outline(&self, random: &mut Random) -> Outline {
        if random.one_in(20) {
            let sizes = junk::<u32>(random, 70).into_iter().map(|n| n as usize).collect();
            let mode = if random.one_in(2) { Mode::Float } else { Mode::Integer };
            return Outline { sizes, coordinates: junk(random, 40), scale: float(random), mode };
        }
        loop {
            let mut outline = outlines::random(random);
            if random.one_in(4) {
                outline = outlines::damaged(random, &outline);
            }
            if random.one_in(12) {
                outline.scale = float(random);
            }
            if outline.coordinates.len() <= 2 * self.most {
                return outline;
            }
        }
    }
}

/// A ring's good indexes, and what building them calls for.
struct RingIndexes {
    segments: usize,
    stripes: Option<Stripes>,
    bytes: Vec<u8>,
    work: usize,
}

impl RingIndexes {
    fn of(shape: &rings::Ring) -> Self {
        let coords = rings::coordinates(shape);
        let ring = ring::Ring { coords: &coords };
        let (bytes, work) = tree::packed(ring);
        RingIndexes { segments: ring.segments(), stripes: good_stripes(ring), bytes, work }
    }

    fn stripes(&self, random: &mut Random) -> Stripes {
        let none = Stripes { least: 0.0, height: 0.0, stripes: vec![], list: vec![] };
        let good = self.stripes.as_ref().unwrap_or(&none);
        if random.one_in(2) {
            damaged_stripes(random, good)
        } else {
            good.clone()
        }
    }

    fn tree(&self, random: &mut Random) -> Vec<u8> {
        if random.one_in(2) {
            damaged_bytes(random, &self.bytes)
        } else {
            self.bytes.clone()
        }
    }
}

/// The three lists at one height, in rooms near what they call for.
fn list(random: &mut Random, lent: &Lent, shape: &rings::Ring, good: &RingIndexes, t: &mut Tally) -> Result<(), Fault> {
    let y = if random.one_in(12) { float(random) } else { points::random_height(random, shape) };
    let (index, bytes) = (good.stripes(random), good.tree(random));
    let mut called_for = [0; 3];
    if let (Ok(ring), true) = (ring::Ring::checked(&lent.coords, lent.points), y.is_finite()) {
        let found = [stripes::search(ring, &index.lent(), y), tree::search(ring, &bytes, y)];
        let [by_stripes, by_tree] = found.map(|f| f.list.len());
        called_for = [ring::meeting(ring, y).len(), by_stripes, by_tree];
    }
    let mut out = called_for.map(|n| {
        let [n] = lengths(random, [n]);
        room(random, n)
    });
    let [by_scan, by_stripes, by_tree] = &mut out;
    t.ask(&ListScan { ring: lent, y, out: std::mem::take(by_scan) })?;
    t.ask(&ListStripes { ring: lent, index: &index, y, out: std::mem::take(by_stripes) })?;
    t.ask(&ListTree { ring: lent, bytes: &bytes, y, out: std::mem::take(by_tree) })
}

/// The three ring tests at one place, and the whole-number test.
fn test(random: &mut Random, lent: &Lent, shape: &rings::Ring, good: &RingIndexes, t: &mut Tally) -> Result<(), Fault> {
    let [x, y] = if random.one_in(8) { [float(random), float(random)] } else { points::random(random, shape) };
    let asked = Asked { x, y, edge: switch(random) };
    let (index, bytes) = (good.stripes(random), good.tree(random));
    t.ask(&RingScan { ring: lent, asked })?;
    t.ask(&RingStripes { ring: lent, index: &index, asked })?;
    t.ask(&RingTree { ring: lent, bytes: &bytes, asked })?;
    let [x, y] = points::random_whole(random, shape);
    t.ask(&RingGrid { ring: lent, x, y, edge: asked.edge })
}

fn build(random: &mut Random, lent: &Lent, good: &RingIndexes, tally: &mut Tally) -> Result<(), Fault> {
    let called_for = good.stripes.as_ref().map_or([9, 9], |s| [s.stripes.len(), s.list.len()]);
    let [stripes, list, span, stats] = lengths(random, [called_for[0], called_for[1], 2, 4]);
    tally.ask(&BuildStripes {
        ring: lent,
        threshold: threshold(random, good.segments),
        stripes: room(random, stripes),
        list: room(random, list),
        span: room(random, span),
        stats: room(random, stats),
    })?;
    let [bytes, work] = lengths(random, [good.bytes.len(), good.work]);
    tally.ask(&BuildTree {
        ring: lent,
        threshold: threshold(random, good.segments),
        bytes: room(random, bytes),
        work: room(random, work),
    })
}

/// Lists and builds of a ring in rooms of every length near what they call for.
fn ring_rooms(
    random: &mut Random,
    ring: &Lent,
    shape: &rings::Ring,
    good: &RingIndexes,
    tally: &mut Tally,
) -> Result<(), Fault> {
    let y = f64::from(random.pick(shape)[1]);
    let coords = rings::coordinates(shape);
    let found = ring::meeting(ring::Ring { coords: &coords }, y).len();
    for [n] in every_length([found]) {
        tally.ask(&ListScan { ring, y, out: room(random, n) })?;
        tally.ask(&ListTree { ring, bytes: &good.bytes, y, out: room(random, n) })?;
        if let Some(index) = &good.stripes {
            tally.ask(&ListStripes { ring, index, y, out: room(random, n) })?;
        }
    }
    if let Some(index) = &good.stripes {
        for [stripes, list, span, stats] in every_length([index.stripes.len(), index.list.len(), 2, 4]) {
            let (stripes, list) = (room(random, stripes), room(random, list));
            let (span, stats) = (room(random, span), room(random, stats));
            tally.ask(&BuildStripes { ring, threshold: 0, stripes, list, span, stats })?;
        }
    }
    for [bytes, work] in every_length([good.bytes.len(), good.work]) {
        let (bytes, work) = (room(random, bytes), room(random, work));
        tally.ask(&BuildTree { ring, threshold: 0, bytes, work })?;
    }
    Ok(())
}

/// The record and the indexes of an outline in rooms of every length near what they call for.
fn outline_rooms(random: &mut Random, rings: &Rings, tally: &mut Tally) -> Result<(), Fault> {
    for [n] in every_length([4 * rings.sizes.len()]) {
        tally.ask(&Make { rings, boxes: room(random, n) })?;
    }
    let (options, threshold) = (options(random), random.below(8));
    for lengths in every_length(needs(rings.lent(), options, threshold)) {
        let (pools, work) = rooms(random, lengths);
        tally.ask(&Build { rings, options, threshold, pools, work })?;
    }
    Ok(())
}

fn make_and_build(random: &mut Random, rings: &Rings, refused: bool, tally: &mut Tally) -> Result<(), Fault> {
    for _ in 0..3 {
        let [n] = lengths(random, [4 * rings.sizes.len()]);
        tally.ask(&Make { rings, boxes: room(random, n) })?;
        let options = options(random);
        let threshold = threshold(random, rings.sizes.first().map_or(0, |&n| n as usize).saturating_sub(1));
        let called_for = if refused { [20, 4, 64, 40, 20, 30] } else { needs(rings.lent(), options, threshold) };
        let lengths = lengths(random, called_for);
        let (pools, work) = rooms(random, lengths);
        tally.ask(&Build { rings, options, threshold, pools, work })?;
    }
    Ok(())
}

/// Inside questions with the record and the indexes as they were made, or not quite.
fn inside(random: &mut Random, o: &Outline, rings: &Rings, refused: bool, tally: &mut Tally) -> Result<(), Fault> {
    let (shapes, good_boxes, good_pools) = if refused {
        (vec![rings::sheet_square()], vec![0; 4 * rings.sizes.len()], None)
    } else {
        let mut boxes = vec![0; 4 * rings.sizes.len()];
        outline::make(rings.lent(), rings.scale, &mut boxes).expect("it has room");
        let (options, threshold) = (options(random) | 1 << random.below(2), random.below(20));
        let called_for = needs(rings.lent(), options, threshold);
        (o.rings(), boxes, good_pools(rings, options, threshold, called_for))
    };
    let good_pools = good_pools.unwrap_or_default();
    for _ in 0..16 {
        let [x, y] = outlines::random_query(random, &shapes, o.scale);
        let asked = Asked { x, y, edge: switch(random) };
        let boxes = boxes(random, &good_boxes);
        let pools = match random.below(8) {
            0 => Pools::default(),
            1..=4 => damaged_pools(random, &good_pools),
            _ => good_pools.clone(),
        };
        tally.ask(&Inside { rings, boxes: &boxes, pools: &pools, asked })?;
        tally.ask(&InsidePlain { rings, asked })?;
    }
    Ok(())
}

/// Well-known binary, good, damaged and random, in rooms of every length.
fn read_wkb(random: &mut Random, tally: &mut Tally) -> Result<(), Fault> {
    let shape = wkb::shape(random);
    let big = random.one_in(2);
    let good = wkb::written(&shape, big);
    let bytes = match random.below(6) {
        0 => wkb::junk(random),
        1 | 2 => wkb::damaged(random, &good),
        _ => good,
    };
    let numbers = 2 * shape.iter().map(Vec::len).sum::<usize>();
    let (mut sizes, mut coords) = (shape.len() + random.below(3), numbers + random.below(3));
    if random.one_in(8) {
        (sizes, coords) = (random.below(sizes + 1), random.below(coords + 1));
    }
    let scale = if random.one_in(8) { float(random) } else { 1.0 };
    tally.ask(&ReadWkb { bytes, scale, sizes: room(random, sizes), coords: room(random, coords) })
}
