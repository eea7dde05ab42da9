//! More questions on boxes, rings and outlines, to be asked by hand.

use crate::words::{bytes, float, yes, Words, Wrong};
use opened::open::{self, Stripes, Tree};
use opened::{I32Polygon, I32RaycastMode, Point, PolygonBuildOptions, Rect, RingBuildStats};

pub const HELP: &str = "\
meet BOX BOX | quad BOX N
box RING | area RING | grid EDGE X,Y RING
test INDEX EDGE P RING | list INDEX F RING
stripes RING | tree RING | size RING     an index's content; the tree's nodes and depth
stats INDEX N RING                       with threshold N
inside MODE EDGE F INDEX N P RING / RING ..   with scale F and threshold N

F is a float, by its bits in hexadecimal; P is two of them, BOX two P; N and AT are hexadecimal too,
and so are X, Y, AX .. and COORDINATES, by their two's complement.
RING is corners X,Y in decimal. INDEX is scan, stripes, tree or both; EDGE is out or in; MODE is float
or integer.";

pub fn answer(question: &str) -> Result<String, Wrong> {
    let mut words = Words::of(question);
    let answer = match words.word("a question")? {
        "meet" => yes(words.rect()?.intersects_rect(words.rect()?)),
        "quad" => rect(open::quad_bounds(words.rect()?, words.place("quadrant")?)),
        _ => return about_rings(question),
    };
    words.end()?;
    Ok(answer)
}

fn about_rings(question: &str) -> Result<String, Wrong> {
    let mut words = Words::of(question);
    let answer = match words.word("a question")? {
        "box" => {
            let ring = words.ring()?;
            rect(I32Polygon::new_with_mode(ring, vec![], 1.0, I32RaycastMode::Float).rect())
        }
        "area" => {
            let (area, perimeter) = open::area_and_perimeter(&words.ring()?);
            format!("{} {}", float(area), float(perimeter))
        }
        "grid" => {
            let edge = edge(&mut words)?;
            let point: Point<i64> = words.corner()?;
            yes(open::ring_test_integer(&words.ring()?, point, edge))
        }
        "test" => {
            let (options, edge, point) = (index(&mut words)?, edge(&mut words)?, words.point()?);
            let ring = words.ring()?;
            let (index, _) = open::build_index(&ring, &options);
            yes(open::ring_test(&ring, index.as_ref(), point, edge))
        }
        "list" => {
            let (options, y) = (index(&mut words)?, words.float("height")?);
            let ring = words.ring()?;
            let (index, _) = open::build_index(&ring, &options);
            let listed = index.ok_or("the Rust lists by an index only")?.list(&ring, y);
            numbers(listed)
        }
        "stripes" => {
            let (index, _) = Stripes::build(&words.ring()?).ok_or("a ring without segments")?;
            let parts = index.stripes.iter().map(|(start, count)| format!("{start}+{count}"));
            let parts: Vec<String> = parts.collect();
            format!("{} {} {} / {}", float(index.least), float(index.height), parts.join(" "), numbers(index.list))
        }
        "tree" => bytes(&Tree::build(&words.ring()?).ok_or("a ring without segments")?.bytes),
        "size" => {
            let (nodes, depth) = open::tree_size(&words.ring()?);
            format!("{nodes} {depth}")
        }
        "stats" => {
            let options = index_and_threshold(&mut words)?;
            stats(&open::build_index(&words.ring()?, &options).1)
        }
        "inside" => inside(&mut words)?,
        other => return Err(format!("no question begins with {other}")),
    };
    words.end()?;
    Ok(answer)
}

fn inside(words: &mut Words) -> Result<String, Wrong> {
    let mode = [I32RaycastMode::Float, I32RaycastMode::Integer][words.one_of("mode", &["float", "integer"])?];
    let (edge, scale) = (edge(words)?, words.float("scale")?);
    let (options, point) = (index_and_threshold(words)?, words.point()?);
    let mut rings = words.rings()?;
    if !(scale.is_finite() && scale > 0.0) {
        return Err("the Rust panics on this scale".into());
    }
    let exterior = rings.remove(0);
    let polygon = I32Polygon::new_with_options(exterior, rings, scale, mode, Some(options));
    Ok(yes(if edge { polygon.contains_point_allow_on_edge(point) } else { polygon.contains_point(point) }))
}

/// Whether a point on the edge is in.
fn edge(words: &mut Words) -> Result<bool, Wrong> {
    Ok(words.one_of("edge rule", &["out", "in"])? == 1)
}

fn index_and_threshold(words: &mut Words) -> Result<PolygonBuildOptions, Wrong> {
    let options = index(words)?;
    Ok(PolygonBuildOptions { rtree_min_segments: words.place("threshold")?, ..options })
}

/// With a threshold of 0, so that every ring gets it.
fn index(words: &mut Words) -> Result<PolygonBuildOptions, Wrong> {
    let which = words.one_of("index", &["scan", "stripes", "tree", "both"])?;
    Ok(PolygonBuildOptions {
        enable_rtree: false,
        enable_y_stripes: which & 1 != 0,
        enable_compressed_quad: which & 2 != 0,
        rtree_min_segments: 0,
    })
}

fn numbers<T: ToString>(row: Vec<T>) -> String {
    if row.is_empty() {
        return "-".into();
    }
    row.iter().map(T::to_string).collect::<Vec<_>>().join(" ")
}

fn rect(r: Rect) -> String {
    [r.min.x, r.min.y, r.max.x, r.max.y].map(float).join(" ")
}

fn stats(s: &RingBuildStats) -> String {
    let stripes = match &s.y_stripes {
        None => "-".into(),
        Some(y) => numbers(vec![y.segment_count, y.stripe_count, y.assigned_item_count, y.max_bucket_len]),
    };
    let flag = |b: bool| u8::from(b);
    format!(
        "{} {} {} {} {stripes}",
        s.segment_count,
        flag(s.below_threshold),
        flag(s.used_y_stripes),
        flag(s.used_compressed_quad)
    )
}
