//! The stripes: the stripe of a height, building, listing, the ring test; and indexes that nobody built.

use super::rings::{each_fault, each_ring, rooms};
use super::{rust_ring, shown, Run};
use crate::ours;
use crate::report::{Family, Plan};
use cases::lent::Lent;
use cases::rings::Corner;
use cases::{damage, floats, points, Random};
use model::stripes::{self as model_stripes, Index};
use opened::{open, Point, Rect};

pub const FAMILIES: &[Run] =
    &[("stripe_of", stripe_of), ("stripes_build", build), ("stripes_asked", asked), ("stripes_damaged", damaged)];

const MANY: &str = "over 65,536 stripes: the Rust builds them, here it is refusal 8";

/// The Rust has the stripes of a box: both of its heights.
fn stripe_of(plan: Plan) -> bool {
    let mut family = Family::new("stripe_of", &[]);
    let mut random = Random::new(plan.seed, "stripe_of");
    for _ in 0..plan.random {
        let [y, least, height] = [0; 3].map(|_| f64::from_bits(floats::random(&mut random)));
        let least = if random.one_in(2) { random.between(-1000, 1000) as f64 } else { least };
        let height = if random.one_in(2) { random.between(0, 2000) as f64 } else { height };
        let y = if random.one_in(2) { least + height * random.part() } else { y };
        let most = *random.pick(&[2, 33, 5000, 65536]);
        let stripes = 1 + random.below(most);
        let at = Point { x: 0.0, y };
        let theirs = open::stripe_bounds(Rect { min: at, max: at }, least, height, stripes).0;
        let question = || format!("{} from {} up {} of {stripes}", shown(y), shown(least), shown(height));
        family.same(ours::stripe_of(y, least, height, stripes), theirs, question);
    }
    family.end()
}

/// A ring whose rounded score calls for very many stripes.
fn many() -> Vec<Corner> {
    let (x, y) = (2_147_483_610, 1_244_463_401);
    let mut ring = vec![[x, y]; 160];
    ring.extend([[x + 1, y], [x + 1, y + 1], [x, y + 1], [x, y]]);
    ring
}

/// Least, height, stripes, list and statistics are the Rust's; rooms that are too small, the model's.
fn build(plan: Plan) -> bool {
    let mut family = Family::new("stripes_build", &[MANY]);
    let mut ask = |random: &mut Random, ring: &[Corner]| {
        let (lent, (theirs, stats)) = (Lent::of(ring), open::Stripes::build(&rust_ring(ring)).expect("segments"));
        let numbers: Vec<u32> = theirs.stripes.iter().flat_map(|&(start, count)| [start, count]).collect();
        let (mut room, mut list) =
            (vec![7; numbers.len() + random.below(3)], vec![7; theirs.list.len() + random.below(3)]);
        let ours = ours::build_stripes(&lent, 0, &mut room, &mut list);
        let counts = [stats.segment_count, stats.stripe_count, stats.assigned_item_count, stats.max_bucket_len];
        let built = Ok(Some((theirs.least, theirs.height, counts.map(|n| n as u32))));
        if theirs.stripes.len() > 65536 {
            let zero = room.iter().chain(&list).all(|&n| n == 0);
            return family.recorded(MANY, [(ours, zero), (built, true)], [(Err((8, 0)), true), (built, true)]);
        }
        let (mut their_room, mut their_list) = (numbers, theirs.list);
        their_room.resize(room.len(), 0);
        their_list.resize(list.len(), 0);
        family.same((ours, room, list), (built, their_room, their_list), || format!("{ring:?}"));
    };
    let mut first = Random::new(plan.seed, "stripes_many");
    ask(&mut first, &many());
    each_ring(plan, "stripes_build", 400, &mut ask);
    // room that is short by a little, and the threshold
    let mut short = |lent: &Lent, threshold: usize, room: usize, list: usize| {
        let (mut ours, mut theirs) = ((vec![7; room], vec![7; list]), (vec![7; room], vec![7; list]));
        let said = ours::build_stripes(lent, threshold, &mut ours.0, &mut ours.1);
        let expected = model_stripes::build(&lent.coords, lent.points, threshold as u64, &mut theirs.0, &mut theirs.1);
        family.same((said, ours), (expected, theirs), || format!("{lent:?}, threshold {threshold}"));
    };
    each_ring(plan, "stripes_short", 2000, |random, ring| {
        let lent = Lent::of(ring);
        let Some(parts) = model_stripes::parts(model::ring::Ring::checked(&lent.coords, lent.points).unwrap()) else {
            return;
        };
        let (room, list) = (parts.table().len(), parts.list().len());
        for (r, l) in [(room, list), (room - 1, list), (room, list.saturating_sub(1)), (0, 0), (room + 1, list + 1)] {
            short(&lent, *random.pick(&[0, ring.len() - 1, ring.len(), 64, usize::MAX]), r, l);
        }
    });
    each_fault(plan, "stripes faults", |lent| short(lent, 0, 70, 70));
    family.end()
}

/// The lists and the answers of an index as built.
fn asked(plan: Plan) -> bool {
    let mut family = Family::new("stripes_asked", &[]);
    each_ring(plan, "stripes_asked", 400, |random, ring| {
        let (lent, rust) = (Lent::of(ring), rust_ring(ring));
        let (theirs, _) = open::Stripes::build(&rust).expect("segments");
        let numbers: Vec<u32> = theirs.stripes.iter().flat_map(|&(start, count)| [start, count]).collect();
        let index = Index { least: theirs.least, height: theirs.height, stripes: &numbers, list: &theirs.list };
        let mut heights = points::heights(ring, 4);
        heights.extend((0..4).map(|_| points::random_height(random, ring)));
        for y in heights.into_iter().filter(|y| y.is_finite()) {
            let listed: Vec<u32> = theirs.list(&rust, y).into_iter().map(|i| i as u32).collect();
            for mut room in rooms(listed.len()) {
                let mut expected = room.clone();
                let count = model::pour(Ok(listed.clone()), &mut expected);
                let ours = ours::list_stripes(&lent, &index, y, &mut room);
                family.same((ours, room), (count, expected), || format!("{ring:?} at {}", shown(y)));
            }
        }
        let options = opened::PolygonBuildOptions {
            enable_compressed_quad: false,
            enable_y_stripes: true,
            rtree_min_segments: 0,
            ..Default::default()
        };
        let built = open::build_index(&rust, &options).0;
        for _ in 0..8 {
            let [x, y] = points::random(random, ring);
            for edge in [false, true] {
                let finite = x.is_finite() && y.is_finite();
                let inside = finite && open::ring_test(&rust, built.as_ref(), Point { x, y }, edge);
                let scanned = finite && open::ring_test(&rust, None, Point { x, y }, edge);
                let ours = ours::test_stripes(&lent, &index, [x, y], edge);
                family.same((ours, inside), (Ok(inside), scanned), || format!("{ring:?} at {} {}", shown(x), shown(y)));
            }
        }
    });
    family.end()
}

/// Damaged copies of good indexes, and invented ones: the model's answers, rooms and places.
fn damaged(plan: Plan) -> bool {
    let mut family = Family::new("stripes_damaged", &[]);
    each_ring(plan, "stripes_damaged", 200, |random, ring| {
        let lent = Lent::of(ring);
        let Some(parts) = model_stripes::parts(model::ring::Ring::checked(&lent.coords, lent.points).unwrap()) else {
            return;
        };
        for _ in 0..4 {
            let stripes = if random.one_in(2) { damage::numbers(random, &parts.table()) } else { parts.table() };
            let list = if random.one_in(2) { damage::numbers(random, &parts.list()) } else { parts.list() };
            let any = |random: &mut Random, good: f64| match random.below(4) {
                0 => f64::from_bits(floats::random(random)),
                1 => good + random.between(-3, 3) as f64,
                _ => good,
            };
            let (least, height) = (any(random, parts.least), any(random, parts.height));
            let (stripes, list) = match random.below(6) {
                0 => ((0..random.below(9)).map(|_| random.below(12) as u32).collect(), list),
                1 => (stripes, (0..random.below(9)).map(|_| random.any_length() as u32).collect()),
                _ => (stripes, list),
            };
            let index = Index { least, height, stripes: &stripes, list: &list };
            let height_asked = points::random_height(random, ring);
            let y = any(random, height_asked);
            let mut room = vec![7; random.below(6)];
            let mut expected = room.clone();
            let count = model_stripes::list(&lent.coords, lent.points, &index, y, &mut expected);
            let ours = ours::list_stripes(&lent, &index, y, &mut room);
            let question = || format!("{lent:?} with {least:e} {height:e} {stripes:?} {list:?} at {}", shown(y));
            family.same((ours, room), (count, expected), question);
            let [x, _] = points::random(random, ring);
            for edge in [false, true] {
                let expected = model_stripes::test(&lent.coords, lent.points, &index, x, y, edge);
                family.same(ours::test_stripes(&lent, &index, [x, y], edge), expected, question);
            }
        }
    });
    family.end()
}
