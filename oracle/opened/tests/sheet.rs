//! The sample sheet of docs/01-scope.md, asked of the Rust.

use opened::open::{self, Cast, Index, Stripes, Tree};
use opened::{I32Point, I32Polygon, I32RaycastMode, Point, PolygonBuildOptions, Segment};

fn ring(corners: &[(i32, i32)]) -> Vec<I32Point> {
    corners.iter().map(|&(x, y)| Point { x, y }).collect()
}

fn s() -> Vec<I32Point> {
    ring(&[(0, 0), (10, 0), (10, 10), (0, 10), (0, 0)])
}

fn hole() -> Vec<I32Point> {
    ring(&[(2, 2), (8, 2), (8, 8), (2, 8), (2, 2)])
}

fn options(stripes: bool, tree: bool) -> PolygonBuildOptions {
    PolygonBuildOptions {
        enable_rtree: false,
        enable_compressed_quad: tree,
        enable_y_stripes: stripes,
        rtree_min_segments: 0,
    }
}

fn index(stripes: bool, tree: bool) -> Index {
    open::build_index(&s(), &options(stripes, tree)).0.expect("an index was asked for")
}

fn place(x: f64, y: f64) -> Point {
    Point { x, y }
}

/// Whether it holds a point: with the edge excluded, then allowed.
fn holds(polygon: &I32Polygon, x: f64, y: f64) -> (bool, bool) {
    let p = place(x, y);
    (polygon.contains_point(p), polygon.contains_point_allow_on_edge(p))
}

#[test]
fn inside() {
    for (stripes, tree) in [(false, false), (true, false), (false, true), (true, true)] {
        let with =
            |holes| I32Polygon::new_with_options(s(), holes, 1.0, I32RaycastMode::Float, Some(options(stripes, tree)));
        let (plain, holed) = (with(vec![]), with(vec![hole()]));
        assert_eq!(holds(&plain, 5.0, 5.0), (true, true));
        assert_eq!(holds(&plain, 11.0, 5.0), (false, false));
        assert_eq!(holds(&plain, 0.0, 5.0), (false, true));
        assert_eq!(holds(&holed, 5.0, 5.0), (false, false));
        assert_eq!(holds(&holed, 1.0, 1.0), (true, true));
        assert_eq!(holds(&holed, 2.0, 5.0), (true, true));
    }
}

#[test]
fn inside_by_whole_numbers() {
    let plain = I32Polygon::new_with_mode(s(), vec![], 1.0, I32RaycastMode::Integer);
    assert_eq!(holds(&plain, 9.5, 5.0), (false, true));
    assert_eq!(holds(&plain, -0.5, 5.0), (false, false));
}

#[test]
fn lists() {
    for index in [index(true, false), index(false, true), index(true, true)] {
        assert_eq!(index.list(&s(), 0.0), [0, 1, 3]);
        assert_eq!(index.list(&s(), 10.0), [1, 2, 3]);
        assert!(index.list(&s(), -1.0).is_empty());
    }
}

#[test]
fn packed_bytes_and_varints() {
    assert_eq!(Tree::build(&s()).map(|t| t.bytes), Some(vec![4, 0, 1, 1, 1, 0]));
    let mut bytes = Vec::new();
    open::append_uvarint(&mut bytes, 300);
    assert_eq!(bytes, [0xac, 2]);
    // the Rust reads what is loose, which CR 6 refuses
    assert_eq!(open::read_uvarint(&[0x80, 0], 0), Some((0, 2)));
    for last in [0x7f, 1] {
        let run = [[0xff; 9].as_slice(), &[last]].concat();
        assert_eq!(open::read_uvarint(&run, 0), Some((u64::MAX, 10)));
    }
    assert_eq!(open::read_uvarint(&[0x80; 10], 0), None);
    assert_eq!(open::read_uvarint(&[0x80; 11], 0), None);
}

#[test]
fn stripes() {
    let stripe = |y| open::stripe_bounds(Segment { a: place(0.0, y), b: place(0.0, y) }.rect(), 0.0, 10.0, 32);
    assert_eq!(stripe(5.0), (16, 16));
    assert_eq!(stripe(10.0), (31, 31));
    let (_, stats) = Stripes::build(&s()).expect("S has segments");
    let numbers = [stats.segment_count, stats.stripe_count, stats.assigned_item_count, stats.max_bucket_len];
    assert_eq!(numbers, [4, 32, 66, 3]);
}

#[test]
fn next_up() {
    assert_eq!(open::next_up(-1.0).to_bits(), 0xbfef_ffff_ffff_ffff);
}

#[test]
fn leaves_and_depth() {
    // every segment of this comb crosses the middle, so all stay in the root; the split byte tells
    let packed = |segments: i32| {
        let mut corners: Vec<(i32, i32)> = (0..segments).map(|i| (i * 10, i % 2)).collect();
        corners.push(corners[0]);
        Tree::build(&ring(&corners)).expect("a comb has segments").bytes
    };
    assert_eq!(packed(12), [12, 0, 1, 1, 1, 1, 1, 1, 1, 1, 1, 1, 1, 0]);
    assert_eq!(packed(13), [13, 0, 1, 1, 1, 1, 1, 1, 1, 1, 1, 1, 1, 1, 1, 0, 0, 0, 0]);
    let same = ring(&[(7, 7); 14]);
    assert_eq!(open::tree_size(&same), (65, open::MAX_DEPTH));
    assert_eq!(open::MAX_ITEMS, 12);
}

#[test]
fn casts() {
    let side = open::segment_at(&s(), 1);
    assert_eq!(open::raycast(&side, place(10.0, 5.0)), Cast::On);
    assert_eq!(open::raycast(&side, place(5.0, 5.0)), Cast::Inside);
    assert_eq!(open::raycast(&side, place(11.0, 5.0)), Cast::Neither);
    assert!(open::ring_test(&s(), None, place(5.0, 5.0), false));
    assert!(open::ring_test_integer(&s(), Point { x: 10, y: 5 }, true));
}
