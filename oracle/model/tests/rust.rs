//! The model beside the Rust, on what the Rust answers too. MODEL_CASES sets how many random inputs.

use cases::rings::{self, Corner};
use cases::{limits, outlines, points, Random, SEED};
use model::outline::{Asked, Indexes, Options, Rings, Rooms, Told};
use model::ring::{self, Ray, Ring, Segment};
use model::{outline, stripes, tree};
use opened::open;
use opened::{I32Point, I32Polygon, I32RaycastMode, Point, PolygonBuildOptions, RingBuildStats};

fn cases() -> usize {
    std::env::var("MODEL_CASES").ok().and_then(|n| n.parse().ok()).unwrap_or(300)
}

fn theirs(ring: &[Corner]) -> Vec<I32Point> {
    ring.iter().map(|&[x, y]| Point { x, y }).collect()
}

fn options(stripes: bool, tree: bool, threshold: usize) -> PolygonBuildOptions {
    PolygonBuildOptions {
        enable_rtree: false,
        enable_compressed_quad: tree,
        enable_y_stripes: stripes,
        rtree_min_segments: threshold,
    }
}

fn all_rings(family: &str) -> Vec<rings::Ring> {
    let mut random = Random::new(SEED, family);
    let mut all: Vec<rings::Ring> = rings::edges().into_iter().map(|n| n.ring).collect();
    for _ in 0..cases() {
        let ring = rings::random(&mut random);
        all.push(rings::damaged(&mut random, &ring));
        all.push(ring);
    }
    all
}

fn same_cast(a: Corner, b: Corner, [x, y]: [f64; 2]) {
    let [from, to] = [a, b].map(|c| Point { x: f64::from(c[0]), y: f64::from(c[1]) });
    let theirs = match open::raycast(&opened::Segment { a: from, b: to }, Point { x, y }) {
        open::Cast::Neither => Ray::Neither,
        open::Cast::Inside => Ray::Inside,
        open::Cast::On => Ray::On,
    };
    let ours = ring::raycast(Segment { a: (a[0], a[1]), b: (b[0], b[1]) }, x, y);
    assert_eq!(ours, theirs, "{a:?} {b:?} {x:e} {y:e}");
}

#[test]
fn casts() {
    for x in -2..=2 {
        for y in -2..=2 {
            for p in points::of_segment([0, 0], [x, y]) {
                same_cast([0, 0], [x, y], p);
                same_cast([x, y], [0, 0], p);
            }
        }
    }
    let mut random = Random::new(SEED, "casts");
    for ring in all_rings("casts") {
        for _ in 0..20 {
            let i = random.below(ring.len() - 1);
            let p = points::random(&mut random, &ring[i..i + 2]);
            same_cast(ring[i], ring[i + 1], p);
        }
    }
}

#[test]
fn indexes() {
    for corners in all_rings("indexes") {
        let (rust, coords) = (theirs(&corners), rings::coordinates(&corners));
        let ring = Ring::checked(&coords, corners.len()).expect("it is accepted");
        let heights: Vec<f64> = points::heights(&corners, 8).into_iter().filter(|y| y.is_finite()).collect();

        let (index, stats) = open::Stripes::build(&rust).expect("an accepted ring has segments");
        match stripes::parts(ring) {
            None => assert!(index.stripes.len() > limits::MOST_STRIPES),
            Some(parts) => {
                let (table, list) = (parts.table(), parts.list());
                assert_eq!((parts.least, parts.height), (index.least, index.height), "{corners:?}");
                let pairs: Vec<u32> = index.stripes.iter().flat_map(|s| [s.0, s.1]).collect();
                assert!(table == pairs && list == index.list, "{corners:?}");
                let four = [stats.segment_count, stats.stripe_count, stats.assigned_item_count, stats.max_bucket_len];
                assert_eq!(parts.statistics(ring), four.map(|n| n as u32));
                let built = stripes::Index { least: parts.least, height: parts.height, stripes: &table, list: &list };
                for &y in &heights {
                    let found = stripes::search(ring, &built, y).complete().expect("no damage");
                    assert_eq!(found, index.list(&rust, y));
                    assert_eq!(found, ring::meeting(ring, y));
                }
            }
        }

        let theirs = open::Tree::build(&rust).expect("an accepted ring has segments");
        let (bytes, work) = tree::packed(ring);
        assert!(bytes == theirs.bytes, "{corners:?}");
        assert_eq!(work, open::tree_size(&rust).0 * 6 + ring.segments());
        for &y in &heights {
            let mut found = tree::search(ring, &bytes, y).complete().expect("no damage");
            assert_eq!(found, theirs.list(&rust, y).0);
            found.sort_unstable();
            assert_eq!(found, ring::meeting(ring, y));
        }
    }
}

#[test]
fn ring_tests() {
    let mut random = Random::new(SEED, "ring tests");
    for corners in all_rings("ring tests") {
        let (rust, coords) = (theirs(&corners), rings::coordinates(&corners));
        let indexes = [(true, false), (false, true), (true, true)]
            .map(|(s, t)| open::build_index(&rust, &options(s, t, 0)).0.expect("asked for"));
        for _ in 0..20 {
            let [x, y] = points::random(&mut random, &corners);
            if !(x.is_finite() && y.is_finite()) {
                continue;
            }
            for edge in [false, true] {
                let ours = ring::ring_scan(&coords, corners.len(), x, y, edge).expect("it is accepted");
                for index in indexes.iter().map(Some).chain([None]) {
                    assert_eq!(ours, open::ring_test(&rust, index, Point { x, y }, edge), "{corners:?} {x:e} {y:e}");
                }
            }
        }
    }
}

#[test]
fn whole_number_tests() {
    let mut random = Random::new(SEED, "whole numbers");
    for corners in all_rings("whole numbers") {
        let corners = rings::held_unwrapped(&corners);
        let (rust, coords) = (theirs(&corners), rings::coordinates(&corners));
        for _ in 0..20 {
            let [x, y] = points::random_whole(&mut random, &corners);
            // farther away the Rust's products wrap
            if [x, y].iter().any(|c| c.unsigned_abs() > limits::UNWRAPPED as u64) {
                continue;
            }
            for edge in [false, true] {
                let ours = ring::ring_grid(&coords, corners.len(), x, y, edge);
                assert_eq!(ours, Ok(open::ring_test_integer(&rust, Point { x, y }, edge)), "{corners:?} {x} {y}");
            }
        }
    }
}

/// The smallest coordinates with which the Rust's products wrap: built for release it says inside of a place that lies
/// outside, built for debugging it panics.
#[test]
#[cfg_attr(debug_assertions, should_panic(expected = "overflow"))]
fn where_the_rust_wraps() {
    let corners = rings::wrapping();
    let [x, y] = [corners[1][0], corners[0][1]];
    assert_eq!(ring::ring_grid(&rings::coordinates(&corners), corners.len(), x.into(), y.into(), false), Ok(false));
    let o = outlines::Outline::new(&[corners.clone()], 1.0, outlines::Mode::Integer);
    let p = Point { x: x.into(), y: y.into() };
    assert!(polygon(&o, options(false, false, 0)).contains_point(p));
    // one unit less each way, it does not
    let less: Vec<_> = corners.iter().map(|c| c.map(|z| z - z.signum())).collect();
    let o = outlines::Outline::new(&[less], 1.0, outlines::Mode::Integer);
    assert!(!polygon(&o, options(false, false, 0)).contains_point(Point { x: p.x - 1.0, y: p.y + 1.0 }));
}

/// The rings of an outline as the Rust takes them.
fn polygon(o: &outlines::Outline, options: PolygonBuildOptions) -> I32Polygon {
    let mut rings: Vec<Vec<I32Point>> = o.rings().iter().map(|r| theirs(r)).collect();
    let mode = match o.mode {
        outlines::Mode::Float => I32RaycastMode::Float,
        outlines::Mode::Integer => I32RaycastMode::Integer,
    };
    let exterior = rings.remove(0);
    I32Polygon::new_with_options(exterior, rings, o.scale, mode, Some(options))
}

fn told(s: &RingBuildStats) -> Told {
    let four = s.y_stripes.as_ref().map(|y| [y.segment_count, y.stripe_count, y.assigned_item_count, y.max_bucket_len]);
    Told {
        segments: s.segment_count as u64,
        below: s.below_threshold,
        stripes: s.used_y_stripes,
        tree: s.used_compressed_quad,
        four: four.map(|four| four.map(|n| n as u64)),
    }
}

/// The rooms of a build, each full of sevens.
struct Lent {
    table: Vec<u64>,
    spans: Vec<f64>,
    stripes: Vec<u32>,
    list: Vec<u32>,
    bytes: Vec<u8>,
    work: Vec<u32>,
}

impl Lent {
    /// Exactly the room that the Rust's indexes take.
    fn of(o: &outlines::Outline, told: &[&RingBuildStats]) -> Self {
        let (mut stripes, mut list, mut bytes, mut work) = (0, 0, 0, 0);
        for (ring, stats) in o.rings().iter().zip(told) {
            if let Some(s) = &stats.y_stripes {
                stripes += 2 * s.stripe_count;
                list += s.assigned_item_count;
            }
            if stats.used_compressed_quad {
                let ring = theirs(ring);
                bytes += open::Tree::build(&ring).expect("an accepted ring has segments").bytes.len();
                work = work.max(6 * open::tree_size(&ring).0 + ring.len() - 1);
            }
        }
        Lent {
            table: vec![7; outline::COLUMNS * told.len()],
            spans: vec![7.0; 2 * told.len()],
            stripes: vec![7; stripes],
            list: vec![7; list],
            bytes: vec![7; bytes],
            work: vec![7; work],
        }
    }

    fn rooms(&mut self) -> Rooms<'_> {
        Rooms {
            table: &mut self.table,
            spans: &mut self.spans,
            stripes: &mut self.stripes,
            list: &mut self.list,
            bytes: &mut self.bytes,
            work: &mut self.work,
        }
    }

    /// One number or byte less in a room that has any.
    fn shorten(&mut self, which: usize) -> bool {
        let room = [&mut self.stripes, &mut self.list, &mut self.work];
        match which {
            0 => self.bytes.pop().is_some(),
            1 => self.spans.pop().is_some(),
            2 => self.table.pop().is_some(),
            n => room.into_iter().nth(n - 3).expect("there are six rooms").pop().is_some(),
        }
    }

    fn is_zero(&self) -> bool {
        let rooms = [&self.stripes, &self.list, &self.work];
        rooms.into_iter().flatten().all(|&n| n == 0)
            && self.table.iter().all(|&n| n == 0)
            && self.bytes.iter().all(|&b| b == 0)
            && self.spans.iter().all(|&x| x.to_bits() == 0)
    }
}

#[test]
fn whole_outlines() {
    let mut random = Random::new(SEED, "outlines");
    let mut all = outlines::edges();
    all.extend((0..cases()).map(|_| outlines::random(&mut random)));
    for o in all {
        let sizes: Vec<u32> = o.sizes.iter().map(|&n| n as u32).collect();
        let rings = Rings { sizes: &sizes, coords: &o.coordinates };
        let integer = o.mode == outlines::Mode::Integer;
        let mut boxes = vec![7; 4 * sizes.len()];
        assert_eq!(outline::make(rings, o.scale, &mut boxes), Ok(sizes.len() as u64));

        let (stripes, tree) = *random.pick(&[(false, false), (true, false), (false, true), (true, true)]);
        let threshold = *random.pick(&[0, 5, 64]);
        let theirs = polygon(&o, options(stripes, tree, threshold));
        let stats = theirs.index_stats();
        let stats: Vec<&RingBuildStats> = [&stats.exterior].into_iter().chain(&stats.holes).collect();
        let wanted = Options { stripes, tree, threshold: threshold as u64 };
        let build = |lent: &mut Lent| {
            let answer = outline::build(rings, wanted, lent.rooms());
            assert!(answer.is_ok() || lent.is_zero());
            answer
        };

        let mut short = Lent::of(&o, &stats);
        if short.shorten(random.below(6)) {
            assert_eq!(build(&mut short), Err(model::NO_ROOM));
        }
        let mut lent = Lent::of(&o, &stats);
        if stats.iter().any(|s| s.y_stripes.as_ref().is_some_and(|y| y.stripe_count > limits::MOST_STRIPES)) {
            assert_eq!(build(&mut lent), Err(model::NO_ROOM));
            continue;
        }
        assert_eq!(build(&mut lent), Ok(sizes.len() as u64));
        assert!(lent.work.iter().all(|&n| n == 0));
        for (k, s) in stats.iter().enumerate() {
            assert_eq!(outline::told(&lent.table, k), told(s));
        }
        let Lent { table, spans, stripes, list, bytes, .. } = &lent;
        let indexes = Indexes { table, spans, stripes, list, bytes };
        // beyond this the Rust's products may wrap
        if integer && o.coordinates.iter().any(|c| c.unsigned_abs() > limits::UNWRAPPED as u32) {
            continue;
        }
        for _ in 0..20 {
            let [x, y] = outlines::random_query(&mut random, &o.rings(), o.scale);
            for edge in [false, true] {
                let asked = Asked { scale: o.scale, integer, edge, x, y };
                let p = Point { x, y };
                let said = if edge { theirs.contains_point_allow_on_edge(p) } else { theirs.contains_point(p) };
                assert_eq!(outline::inside(rings, &boxes, asked, &indexes), Ok(said), "{o:?} {x:e} {y:e}");
            }
        }
    }
}

/// The rules beside those that the cases are made by.
#[test]
fn rules() {
    let mut random = Random::new(SEED, "rules");
    let mut all = outlines::broken();
    for _ in 0..cases() {
        let good = outlines::random(&mut random);
        all.push(outlines::damaged(&mut random, &good));
    }
    for o in all {
        let sizes: Vec<u32> = o.sizes.iter().map(|&n| n.min(u32::MAX as usize) as u32).collect();
        let rings = Rings { sizes: &sizes, coords: &o.coordinates };
        let refusal = o.refusal().map(|(number, place)| (number, place as u64));
        assert_eq!(rings.checked(o.scale).err(), refusal, "{o:?}");
    }
}
