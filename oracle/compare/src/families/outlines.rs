//! Whole outlines, through the C interface: the record, building, the inside question; broken outlines and
//! damaged indexes.

use super::segments::wrapped_ring;
use super::{all_shown, rust_ring, Run};
use crate::report::{Family, Plan};
use calls::{answer, bits, count, Said};
use cases::outlines::{self, Mode, Outline, INDEXES};
use cases::rings::{self, Ring};
use cases::{damage, floats, limits, Random};
use model::outline::{self, Asked, Indexes, Options, Rings, Rooms, COLUMNS};
use opened::{open, I32Polygon, I32RaycastMode, Point, PolygonBuildOptions, RingBuildStats};

pub const FAMILIES: &[Run] = &[
    ("outlines_built", built),
    ("outlines_asked", asked),
    ("outlines_refused", refused),
    ("outlines_damaged", damaged),
];

/// An outline as it is lent.
struct Lent {
    sizes: Vec<u32>,
    coords: Vec<i32>,
    scale: f64,
    integer: bool,
}

impl Lent {
    fn of(o: &Outline) -> Self {
        Lent {
            sizes: o.sizes.iter().map(|&n| n.min(u32::MAX as usize) as u32).collect(),
            coords: o.coordinates.clone(),
            scale: o.scale,
            integer: o.mode == Mode::Integer,
        }
    }

    fn rings(&self) -> Rings<'_> {
        Rings { sizes: &self.sizes, coords: &self.coords }
    }

    fn asked(&self, [x, y]: [f64; 2], edge: bool) -> Asked {
        Asked { scale: self.scale, integer: self.integer, edge, x, y }
    }
}

/// The rooms of a build.
#[derive(Clone, Debug, PartialEq)]
struct Pools {
    table: Vec<u64>,
    spans: Vec<f64>,
    stripes: Vec<u32>,
    list: Vec<u32>,
    bytes: Vec<u8>,
    work: Vec<u32>,
}

impl Pools {
    /// Rooms of such sizes, full of sevens: table, spans, stripes, list, bytes, work.
    fn of([table, spans, stripes, list, bytes, work]: [usize; 6]) -> Self {
        Pools {
            table: vec![7; table],
            spans: vec![7.0; spans],
            stripes: vec![7; stripes],
            list: vec![7; list],
            bytes: vec![7; bytes],
            work: vec![7; work],
        }
    }

    fn rooms(&mut self) -> Rooms<'_> {
        let Pools { table, spans, stripes, list, bytes, work } = self;
        Rooms { table, spans, stripes, list, bytes, work }
    }

    fn indexes(&self) -> Indexes<'_> {
        let Pools { table, spans, stripes, list, bytes, .. } = self;
        Indexes { table, spans, stripes, list, bytes }
    }
}

fn options(stripes: bool, tree: bool, threshold: usize) -> PolygonBuildOptions {
    PolygonBuildOptions {
        enable_compressed_quad: tree,
        enable_y_stripes: stripes,
        rtree_min_segments: threshold,
        ..Default::default()
    }
}

/// The Rust's outline, and what it tells of each ring's index.
fn rust_polygon(o: &Outline, options: PolygonBuildOptions) -> (I32Polygon, Vec<RingBuildStats>) {
    let mut rings: Vec<_> = o.rings().iter().map(|r| rust_ring(r)).collect();
    let mode = if o.mode == Mode::Integer { I32RaycastMode::Integer } else { I32RaycastMode::Float };
    let exterior = rings.remove(0);
    let polygon = I32Polygon::new_with_options(exterior, rings, o.scale, mode, Some(options));
    let stats = polygon.index_stats();
    let all = [&stats.exterior].into_iter().chain(&stats.holes).cloned().collect();
    (polygon, all)
}

/// What the Rust's indexes come to in the form that is lent; the statistics are those that its `index_stats` tells. None
/// where it builds over 65,536 stripes.
fn rust_pools(o: &Outline, stats: &[RingBuildStats]) -> Option<Pools> {
    let mut pools = Pools::of([0; 6]);
    for (ring, told) in o.rings().iter().zip(stats) {
        let ring = rust_ring(ring);
        let mut row = [0; COLUMNS];
        let mut span = [0.0; 2];
        row[0] = told.segment_count as u64;
        row[1] = u64::from(told.below_threshold);
        [row[3], row[5], row[8]] = [pools.stripes.len(), pools.list.len(), pools.bytes.len()].map(|n| n as u64);
        if told.used_y_stripes {
            let (index, _) = open::Stripes::build(&ring)?;
            let stats = told.y_stripes.as_ref().expect("a ring with stripes has their statistics");
            if index.stripes.len() > limits::MOST_STRIPES {
                return None;
            }
            row[2] += 1;
            row[0] = stats.segment_count as u64;
            [row[4], row[6], row[7]] = [stats.stripe_count, stats.assigned_item_count, stats.max_bucket_len].map(|n| n as u64);
            span = [index.least, index.height];
            pools.stripes.extend(index.stripes.iter().flat_map(|s| [s.0, s.1]));
            pools.list.extend(index.list);
        }
        if told.used_compressed_quad {
            let tree = open::Tree::build(&ring)?;
            row[2] += 2;
            row[9] = tree.bytes.len() as u64;
            pools.bytes.extend(tree.bytes);
            let work = 6 * open::tree_size(&ring).0 + ring.len() - 1;
            pools.work.resize(work.max(pools.work.len()), 0);
        }
        pools.table.extend(row);
        pools.spans.extend(span);
    }
    Some(pools)
}

fn each_outline(plan: Plan, name: &str, worth: u64, mut ask: impl FnMut(&mut Random, &Outline)) {
    let mut random = Random::new(plan.seed, name);
    for o in outlines::edges() {
        ask(&mut random, &o);
    }
    for _ in 0..plan.random / worth {
        let o = if random.one_in(4) { nested(&mut random) } else { outlines::random(&mut random) };
        ask(&mut random, &o);
    }
}

/// Holes in holes, to any of 64 rings: squares, circles and combs round one middle, each a little smaller
/// than the last or just as large, so that they touch or lie in one another.
fn nested(random: &mut Random) -> Outline {
    let rings = 1 + random.below(limits::RINGS);
    let step = random.below(3) as i32;
    let mut shape: Vec<Ring> = Vec::new();
    for k in 0..rings as i32 {
        let reach = 400 - step * k;
        shape.push(match random.below(3) {
            0 => rings::square([-reach, -reach], 2 * reach, 4 + random.below(70)),
            1 => rings::circle([0.0, 0.0], f64::from(reach), 3 + random.below(90)),
            _ => rings::comb([-reach, -reach], 1 + step, 2 * reach, 6 + random.below(70)),
        });
    }
    let mode = if random.one_in(2) { Mode::Integer } else { Mode::Float };
    Outline::new(&shape, *random.pick(&outlines::SCALES), mode)
}

/// Boxes, tables, statistics and every byte are the Rust's; room that is short, the model's.
fn built(plan: Plan) -> bool {
    let mut family = Family::new("outlines_built", &[]);
    each_outline(plan, "outlines_built", 2000, |random, o| {
        let lent = Lent::of(o);
        let mut boxes = vec![7; 4 * o.sizes.len() + random.below(3)];
        let mut expected: Vec<i32> = o.rings().iter().flat_map(|r| rust_box(r)).collect();
        expected.resize(boxes.len(), 0);
        let said = calls::make(lent.rings(), o.scale, u32::from(lent.integer), &mut boxes);
        family.same((said, boxes), (Ok((false, o.sizes.len() as u64)), expected), || format!("boxes of {o:?}"));

        let index = *random.pick(&INDEXES);
        let (stripes, tree) = kinds(index);
        let threshold = *random.pick(&[0, 5, 12, 64, 4096, usize::MAX]);
        let (_, stats) = rust_polygon(o, options(stripes, tree, threshold));
        let wanted = Options { stripes, tree, threshold: threshold as u64 };
        let question = || format!("{wanted:?} of {o:?}");
        let Some(mut theirs) = rust_pools(o, &stats) else {
            let mut pools = Pools::of([1000; 6]);
            let said = calls::build(lent.rings(), bits(wanted), threshold, pools.rooms());
            return family.same(said, Err((8, 0)), question);
        };
        let sizes = [
            theirs.table.len(),
            theirs.spans.len(),
            theirs.stripes.len(),
            theirs.list.len(),
            theirs.bytes.len(),
            theirs.work.len(),
        ];
        let mut ours = Pools::of(sizes.map(|n| n + random.below(3)));
        let said = calls::build(lent.rings(), bits(wanted), threshold, ours.rooms());
        theirs.table.resize(ours.table.len(), 0);
        theirs.spans.resize(ours.spans.len(), 0.0);
        theirs.stripes.resize(ours.stripes.len(), 0);
        theirs.list.resize(ours.list.len(), 0);
        theirs.bytes.resize(ours.bytes.len(), 0);
        theirs.work.resize(ours.work.len(), 0);
        family.same((said, ours), (Ok((false, o.sizes.len() as u64)), theirs), question);

        let mut short = sizes;
        let which = random.below(6);
        short[which] = short[which].saturating_sub(1 + random.below(3));
        let (mut ours, mut theirs) = (Pools::of(short), Pools::of(short));
        let said = calls::build(lent.rings(), bits(wanted) + 4, threshold, ours.rooms());
        let expected = count(outline::build(lent.rings(), wanted, theirs.rooms()));
        family.same((said, ours), (expected, theirs), || format!("{wanted:?} in rooms {short:?} of {o:?}"));
    });
    family.end()
}

fn kinds(index: outlines::Index) -> (bool, bool) {
    match index {
        outlines::Index::Scan => (false, false),
        outlines::Index::Stripes => (true, false),
        outlines::Index::Tree => (false, true),
        outlines::Index::Both => (true, true),
    }
}

/// A ring's box is the Rust's rect of an outline with that ring alone.
fn rust_box(ring: &[rings::Corner]) -> [i32; 4] {
    let rect = I32Polygon::new_with_mode(rust_ring(ring), vec![], 1.0, I32RaycastMode::Float).rect();
    [rect.min.x, rect.min.y, rect.max.x, rect.max.y].map(|c| c as i32)
}

/// The index of every ring, of both kinds; none for rings that call for over 65,536 stripes.
fn all_indexes(lent: &Lent, o: &Outline) -> (Vec<i32>, Pools) {
    let mut boxes = vec![0; 4 * lent.sizes.len()];
    calls::make(lent.rings(), lent.scale, u32::from(lent.integer), &mut boxes).expect("it is accepted");
    let (_, stats) = rust_polygon(o, options(true, true, 0));
    let pools = rust_pools(o, &stats).unwrap_or_else(|| Pools::of([0; 6]));
    (boxes, pools)
}

/// Every choice of index for each ring: all of them for few rings, some for many.
fn choices(random: &mut Random, rings: usize) -> Vec<Vec<u64>> {
    if rings <= 2 {
        return (0..4_u64.pow(rings as u32)).map(|n| (0..rings).map(|k| n >> (2 * k) & 3).collect()).collect();
    }
    (0..6).map(|_| (0..rings).map(|_| random.below(4) as u64).collect()).collect()
}

fn rust_says(polygon: &I32Polygon, [x, y]: [f64; 2], edge: bool) -> bool {
    let p = Point { x, y };
    if edge {
        polygon.contains_point_allow_on_edge(p)
    } else {
        polygon.contains_point(p)
    }
}

/// The Rust, without index, with stripes, with trees and with both, all from the first segment on.
fn rust_each_way(o: &Outline) -> [(&'static str, I32Polygon); 4] {
    let way = |stripes, tree| rust_polygon(o, options(stripes, tree, 0)).0;
    [("none", way(false, false)), ("stripes", way(true, false)), ("tree", way(false, true)), ("both", way(true, true))]
}

/// Both edge rules, both modes, every choice of index on our side and each of the Rust's four on its own: one answer.
/// So is that of the points alone.
fn asked(plan: Plan) -> bool {
    let mut family = Family::new("outlines_asked", &[WRAPS]);
    wrapping(&mut family);
    each_outline(plan, "outlines_asked", 2000, |random, o| {
        let lent = Lent::of(o);
        let (boxes, mut pools) = all_indexes(&lent, o);
        let ways = rust_each_way(o);
        let queries: Vec<[f64; 2]> = (0..6).map(|_| outlines::random_query(random, &o.rings(), o.scale)).collect();
        for &[x, y] in &queries {
            for edge in [false, true] {
                let ours = calls::inside_plain(lent.rings(), lent.asked([x, y], edge));
                for (name, theirs) in &ways {
                    let said = rust_says(theirs, [x, y], edge);
                    let question = || format!("{o:?}, the Rust's index {name}, at {}, edge {edge}", all_shown(&[x, y]));
                    family.same(ours, Ok((said, 0)), question);
                }
            }
        }
        for choice in choices(random, o.sizes.len()) {
            if !pools.table.is_empty() {
                for (k, &kinds) in choice.iter().enumerate() {
                    pools.table[COLUMNS * k + 2] = kinds;
                }
            }
            for &[x, y] in &queries {
                for edge in [false, true] {
                    let said = rust_says(&ways[0].1, [x, y], edge);
                    let ours = calls::inside(lent.rings(), &boxes, lent.asked([x, y], edge), &pools.indexes());
                    let question = || format!("{o:?} by {choice:?} at {}, edge {edge}", all_shown(&[x, y]));
                    let wrapped = wrapped(o, [x, y], edge);
                    let exact = outline::inside(lent.rings(), &boxes, lent.asked([x, y], edge), &pools.indexes());
                    if lent.integer && exact != Ok(wrapped) {
                        family.recorded(WRAPS, [ours, Ok((said, 0))], [answer(exact), Ok((wrapped, 0))]);
                    } else {
                        family.same(ours, Ok((said, 0)), question);
                    }
                }
            }
        }
    });
    family.end()
}

const WRAPS: &str = "Integer mode with coordinates so large that the Rust's 64 bits do not hold their products";

/// The smallest on record.
fn wrapping(family: &mut Family) {
    let ring = rings::wrapping();
    let p = [ring[1][0], ring[0][1]].map(f64::from);
    let o = Outline::new(&[ring], 1.0, Mode::Integer);
    let lent = Lent::of(&o);
    let (boxes, pools) = all_indexes(&lent, &o);
    let ours = calls::inside(lent.rings(), &boxes, lent.asked(p, false), &pools.indexes());
    let theirs = rust_polygon(&o, options(false, false, 0)).0.contains_point(Point { x: p[0], y: p[1] });
    family.recorded(WRAPS, [ours, Ok((theirs, 0))], [Ok((false, 0)), Ok((true, 0))]);
}

/// The Rust's Integer mode on 64 bits, which wrap.
fn wrapped(o: &Outline, p: [f64; 2], edge: bool) -> bool {
    let place = p.map(|c| (c * o.scale).round() as i64);
    let rings = o.rings();
    let [x0, y0, x1, y1] = rust_box(&rings[0]).map(i64::from);
    p.iter().all(|c| c.is_finite())
        && (x0..=x1).contains(&place[0])
        && (y0..=y1).contains(&place[1])
        && wrapped_ring(&rings[0], place, edge)
        && !rings[1..].iter().any(|ring| wrapped_ring(ring, place, false))
}

/// What the four calls say of an outline, and what they leave in rooms of a few numbers.
fn all_said(lent: &Lent, boxes: &[i32], by_model: bool) -> (Said, Vec<i32>, Said, Pools, [Said; 2]) {
    let mut record = vec![7; 20];
    let mut pools = Pools::of([40; 6]);
    let wanted = Options { stripes: false, tree: true, threshold: 3 };
    let (scale, integer, none) = (lent.scale, lent.integer, Pools::of([0; 6]));
    let asked = lent.asked([5.0, 5.0], true);
    if by_model {
        let made = count(outline::make(lent.rings(), scale, &mut record));
        let built = count(outline::build(lent.rings(), wanted, pools.rooms()));
        let inside = answer(outline::inside(lent.rings(), boxes, asked, &none.indexes()));
        let plain = answer(outline::inside_plain(lent.rings(), asked));
        return (made, record, built, pools, [inside, plain]);
    }
    let made = calls::make(lent.rings(), scale, u32::from(integer), &mut record);
    let built = calls::build(lent.rings(), bits(wanted), 3, pools.rooms());
    let inside = calls::inside(lent.rings(), boxes, asked, &none.indexes());
    let plain = calls::inside_plain(lent.rings(), asked);
    (made, record, built, pools, [inside, plain])
}

/// Each rule broken, in each way, and each pair of ways at once; damaged outlines; records that are short.
fn refused(plan: Plan) -> bool {
    let mut family = Family::new("outlines_refused", &[]);
    let mut random = Random::new(plan.seed, "outlines_refused");
    let mut ask = |o: &Outline, boxes: &[i32]| {
        let lent = Lent::of(o);
        let ours = all_said(&lent, boxes, false);
        family.same(ours, all_said(&lent, boxes, true), || format!("{o:?} with a record of {}", boxes.len()));
    };
    for o in outlines::broken() {
        for boxes in [0, 3, 4, 11, 12, 13, 256, 260, 800] {
            ask(&o, &vec![0; boxes]);
        }
    }
    for _ in 0..plan.random / 400 {
        let good = if random.one_in(2) { outlines::random(&mut random) } else { nested(&mut random) };
        if good.coordinates.len() > 2000 {
            continue;
        }
        let o = outlines::damaged(&mut random, &good);
        let n = (4 * good.sizes.len() + random.below(3)).saturating_sub(random.below(3));
        ask(&o, &vec![1; n]);
    }
    family.end()
}

/// Good indexes with something wrong in them, and records that are not the outline's: the model's answer,
/// and its place, which counts from the start of the ring's own part.
fn damaged(plan: Plan) -> bool {
    let mut family = Family::new("outlines_damaged", &[]);
    each_outline(plan, "outlines_damaged", 2000, |random, o| {
        if o.coordinates.len() > 3000 {
            return;
        }
        let lent = Lent::of(o);
        let (good_boxes, good) = all_indexes(&lent, o);
        for _ in 0..8 {
            let (mut boxes, mut pools) = (good_boxes.clone(), good.clone());
            for _ in 0..1 + random.below(3) {
                spoil(random, &mut boxes, &mut pools);
            }
            for row in pools.table.chunks_exact_mut(COLUMNS) {
                if random.one_in(2) {
                    row[2] = random.below(5) as u64;
                }
            }
            for _ in 0..4 {
                let [x, y] = outlines::random_query(random, &o.rings(), o.scale);
                let asked = lent.asked([x, y], random.one_in(2));
                let ours = calls::inside(lent.rings(), &boxes, asked, &pools.indexes());
                let theirs = answer(outline::inside(lent.rings(), &boxes, asked, &pools.indexes()));
                family.same(ours, theirs, || format!("{o:?}, boxes {boxes:?}, {pools:?}, {asked:?}"));
            }
        }
    });
    family.end()
}

fn spoil(random: &mut Random, boxes: &mut Vec<i32>, pools: &mut Pools) {
    match random.below(8) {
        0 => pools.table = damage::numbers(random, &pools.table),
        1 if !pools.table.is_empty() => {
            let at = random.below(pools.table.len());
            pools.table[at] = pools.table[at].wrapping_add(random.between(-2, 2) as u64);
        }
        2 if !pools.spans.is_empty() => {
            let at = random.below(pools.spans.len());
            pools.spans[at] = f64::from_bits(floats::random(random));
        }
        3 => pools.stripes = damage::numbers(random, &pools.stripes),
        4 => pools.list = damage::numbers(random, &pools.list),
        5 if random.one_in(4) => {
            let n = random.below(boxes.len() + 1);
            boxes.truncate(n);
        }
        5 if !boxes.is_empty() => {
            let at = random.below(boxes.len());
            boxes[at] = boxes[at].wrapping_add(random.between(-50, 50) as i32);
        }
        6 if random.one_in(4) => {
            let n = random.below(pools.spans.len() + 1);
            pools.spans.truncate(n);
        }
        _ => pools.bytes = damage::bytes(random, &pools.bytes),
    }
}
