//! Where the Rust does otherwise than the library and no family of the comparison meets it: what docs/DIFFERENCES.md says
//! of the Rust, seen by running it on the input that stands there.

use opened::open::{self, Index, Stripes};
use opened::{I32Point, I32Polygon, I32RaycastMode, Point, PolygonBuildOptions};
use std::panic::{catch_unwind, AssertUnwindSafe};

fn s() -> Vec<I32Point> {
    [(0, 0), (10, 0), (10, 10), (0, 10), (0, 0)].map(|(x, y)| Point { x, y }).to_vec()
}

fn index(stripes: bool, tree: bool) -> Index {
    let options = PolygonBuildOptions {
        enable_rtree: false,
        enable_compressed_quad: tree,
        enable_y_stripes: stripes,
        rtree_min_segments: 0,
    };
    open::build_index(&s(), &options).0.expect("an index was asked for")
}

fn panics<T>(ask: impl FnOnce() -> T) -> bool {
    catch_unwind(AssertUnwindSafe(ask)).is_err()
}

#[test]
fn infinite_heights_list_nothing() {
    for (stripes, tree) in [(true, false), (false, true), (true, true)] {
        for y in [f64::INFINITY, f64::NEG_INFINITY] {
            assert!(index(stripes, tree).list(&s(), y).is_empty());
        }
    }
}

#[test]
fn damaged_stripes_panic() {
    let good = Stripes::build(&s()).expect("S has stripes").0;
    assert_eq!(good.list(&s(), 5.0), [1, 3]);
    let none = Stripes { stripes: vec![], ..good.clone() };
    assert!(panics(|| none.list(&s(), 5.0)));
    let mut past = good.clone();
    past.stripes[16].1 = 1000;
    assert!(panics(|| past.list(&s(), 5.0)));
    let mut above = good.clone();
    above.list[good.stripes[16].0 as usize] = 4;
    assert!(panics(|| above.list(&s(), 5.0)));
}

#[test]
fn both_indexes_are_merged() {
    assert_eq!(index(true, true).list(&s(), 0.0), [0, 1, 3]);
}

#[test]
fn an_empty_exterior_panics() {
    let of = |exterior, holes| I32Polygon::new_with_mode(exterior, holes, 1.0, I32RaycastMode::Float);
    assert!(panics(|| of(vec![], vec![])));
    let one = vec![Point { x: 0, y: 0 }];
    assert!(!of(one.clone(), vec![vec![], one]).contains_point(Point { x: 0.0, y: 0.0 }));
}

#[test]
fn a_nan_loses_its_pattern() {
    for bits in [0x7ff8_0000_0000_0001, 0xfff8_0000_0000_0000, 0x7ff0_0000_0000_0001] {
        assert_eq!(open::next_up(f64::from_bits(bits)).to_bits(), 0x7ff8_0000_0000_0000);
    }
}
