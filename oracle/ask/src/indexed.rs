//! Questions of docs/REPLAY.md on lists, indexes and whole outlines, answered by the Rust. What the Rust would take and
//! 01 does not is refused as 01 says, by the model.

use crate::words::{bytes, float, number, refused, yes, Words, Wrong};
use model::outline::Rings;
use model::ring::Ring;
use opened::open;
use opened::{I32Point, I32Polygon, I32RaycastMode, Point, PolygonBuildOptions};

pub const HELP: &str = "\
list_scan | list_stripes | list_tree COORDINATES POINTS F
stripes | tree COORDINATES POINTS N      with threshold N
inside SIZES COORDINATES F 0|1 0|1|2|3 P 0|1   a byte a ring; scale, mode, kinds of index, point, edge rule";

/// None where the question is of another file.
pub fn answer(question: &str) -> Result<Option<String>, Wrong> {
    let mut words = Words::of(question);
    // the questions that are asked by hand (rings.rs) have some of these words, with a ring in another form
    let by_hand = question.contains(',');
    let answer = match words.word("a question")? {
        _ if by_hand => return Ok(None),
        "list_scan" => list(&mut words, true, false)?.map_or_else(refused, sorted),
        "list_stripes" => list(&mut words, true, false)?.map_or_else(refused, listed),
        "list_tree" => list(&mut words, false, true)?.map_or_else(refused, listed),
        "stripes" => stripes(&mut words)?,
        "tree" => tree(&mut words)?,
        "inside" => inside(&mut words)?,
        _ => return Ok(None),
    };
    words.end()?;
    Ok(Some(answer))
}

fn corners(coords: &[i32]) -> Vec<I32Point> {
    coords.chunks_exact(2).map(|c| Point { x: c[0], y: c[1] }).collect()
}

fn options(stripes: bool, tree: bool, threshold: usize) -> PolygonBuildOptions {
    PolygonBuildOptions {
        enable_rtree: false,
        enable_compressed_quad: tree,
        enable_y_stripes: stripes,
        rtree_min_segments: threshold,
    }
}

fn listed(numbers: Vec<usize>) -> String {
    let all = [numbers.len()].into_iter().chain(numbers);
    all.map(|n| number(n as u64)).collect::<Vec<_>>().join(" ")
}

/// The Rust lists by an index only; a scan's list is that of the stripes, by rising number.
fn sorted(mut numbers: Vec<usize>) -> String {
    numbers.sort_unstable();
    listed(numbers)
}

fn list(words: &mut Words, stripes: bool, tree: bool) -> Result<Result<Vec<usize>, model::No>, Wrong> {
    let (coords, points, y) = (words.coordinates("ring")?, words.place("points")?, words.float("height")?);
    if let Err(no) = Ring::checked(&coords, points) {
        return Ok(Err(no));
    }
    if !y.is_finite() {
        return Ok(Err((7, 0)));
    }
    let ring = corners(&coords);
    let (index, _) = open::build_index(&ring, &options(stripes, tree, 0));
    Ok(Ok(index.ok_or("an index was asked for")?.list(&ring, y)))
}

fn stripes(words: &mut Words) -> Result<String, Wrong> {
    let (coords, points, threshold) = (words.coordinates("ring")?, words.place("points")?, words.place("threshold")?);
    if let Err(no) = Ring::checked(&coords, points) {
        return Ok(refused(no));
    }
    let (index, told) = open::build_index(&corners(&coords), &options(true, false, threshold));
    let (Some(index), Some(four)) = (index.and_then(|i| i.stripes()), told.y_stripes) else { return Ok("none".into()) };
    let four = [four.segment_count, four.stripe_count, four.assigned_item_count, four.max_bucket_len];
    let four = four.map(|n| number(n as u64)).join(" ");
    Ok(format!("{} {} {four}", float(index.least), float(index.height)))
}

fn tree(words: &mut Words) -> Result<String, Wrong> {
    let (coords, points, threshold) = (words.coordinates("ring")?, words.place("points")?, words.place("threshold")?);
    if let Err(no) = Ring::checked(&coords, points) {
        return Ok(refused(no));
    }
    let (index, _) = open::build_index(&corners(&coords), &options(false, true, threshold));
    Ok(index.and_then(|i| i.tree()).map_or("none".into(), |tree| bytes(&tree.bytes)))
}

fn inside(words: &mut Words) -> Result<String, Wrong> {
    let sizes: Vec<u32> = words.bytes("sizes")?.into_iter().map(u32::from).collect();
    let (coords, scale) = (words.coordinates("rings")?, words.float("scale")?);
    let integer = words.one_of("mode", &["0", "1"])? == 1;
    let kinds = words.one_of("kinds", &["0", "1", "2", "3"])?;
    let point = words.point()?;
    let edge = words.one_of("edge rule", &["0", "1"])? == 1;
    if let Err(no) = (Rings { sizes: &sizes, coords: &coords }).checked(scale) {
        return Ok(refused(no));
    }
    let mut rest = &corners(&coords)[..];
    let mut rings: Vec<Vec<I32Point>> = Vec::new();
    for &size in &sizes {
        let (ring, behind) = rest.split_at(size as usize);
        rings.push(ring.to_vec());
        rest = behind;
    }
    let mode = if integer { I32RaycastMode::Integer } else { I32RaycastMode::Float };
    let exterior = rings.remove(0);
    let options = options(kinds % 2 == 1, kinds / 2 == 1, 0);
    let polygon = I32Polygon::new_with_options(exterior, rings, scale, mode, Some(options));
    Ok(yes(if edge { polygon.contains_point_allow_on_edge(point) } else { polygon.contains_point(point) }))
}

#[cfg(test)]
mod tests {
    use super::*;
    use crate::words::coordinates;

    /// 01's sample sheet.
    #[test]
    fn the_sheet() {
        let s = coordinates(&[0, 0, 10, 0, 10, 10, 0, 10, 0, 0]);
        let ten = format!("{:x}", 10_f64.to_bits());
        let five = format!("{:x}", 5_f64.to_bits());
        let one = format!("{:x}", 1_f64.to_bits());
        let list = |numbers: &[u64]| numbers.iter().map(|&n| number(n)).collect::<Vec<_>>().join(" ");
        for (question, expected) in [
            (format!("list_scan {s} 5 0"), list(&[3, 0, 1, 3])),
            (format!("list_stripes {s} 5 {ten}"), list(&[3, 1, 2, 3])),
            (format!("list_tree {s} 5 bff0000000000000"), list(&[0])),
            (format!("list_tree {s} 4 0"), refused((3, 0))),
            (format!("list_scan {s} 5 7ff0000000000000"), refused((7, 0))),
            (format!("tree {s} 5 0"), "040001010100".into()),
            (format!("tree {s} 5 5"), "none".into()),
            (format!("stripes {s} 5 0"), format!("{} {} {}", number(0), number(10_f64.to_bits()), list(&[4, 32, 66, 3]))),
            (format!("inside 05 {s} {one} 0 3 {five} {five} 0"), "yes".into()),
            (format!("inside 05 {s} {one} 0 1 0 {five} 0"), "no".into()),
            (format!("inside 05 {s} {one} 1 2 0 {five} 1"), "yes".into()),
            (format!("inside 05 {s} 0 0 0 {five} {five} 0"), refused((5, 0))),
        ] {
            assert_eq!(answer(&question), Ok(Some(expected)), "{question}");
        }
    }
}
