//! The packed tree, through the C interface: building, listing, the ring test; and bytes that nobody built.

use super::rings::{each_fault, each_ring, rooms};
use super::{rust_ring, shown, Run};
use crate::report::{Family, Plan};
use calls::{answer, built, count, Lent};
use cases::rings::{self, Corner};
use cases::{damage, lent, limits, points, varints, Random};
use model::No;
use opened::{open, I32Point, Point, PolygonBuildOptions};

pub const FAMILIES: &[Run] = &[
    ("tree_build", build),
    ("tree_sheet", sheet),
    ("tree_asked", asked),
    ("tree_changed", changed),
    ("tree_damaged", damaged),
    ("tree_differ", differ),
];

fn lent_as(lent: &lent::Lent) -> Lent<'_> {
    Lent { coords: &lent.coords, points: lent.points }
}

fn rust_tree(ring: &[I32Point]) -> open::Tree {
    open::Tree::build(ring).expect("an accepted ring has segments")
}

/// The work numbers that the Rust's tree of a ring comes to.
fn work_of(ring: &[I32Point]) -> usize {
    6 * open::tree_size(ring).0 + ring.len() - 1
}

/// The bytes are the Rust's, byte for byte, in room that is just enough or more. Rooms that are too small,
/// the threshold and the checks are the model's.
fn build(plan: Plan) -> bool {
    let mut family = Family::new("tree_build", &[]);
    each_ring(plan, "tree_build", 400, |random, ring| {
        let (lent, rust) = (lent::Lent::of(ring), rust_ring(ring));
        let (mut theirs, work) = (rust_tree(&rust).bytes, work_of(&rust));
        let said = Ok((true, theirs.len() as u64));
        theirs.resize(theirs.len() + random.below(3), 0);
        let (mut bytes, mut work) = (vec![7; theirs.len()], vec![7; work + random.below(3)]);
        let ours = calls::build_tree(lent_as(&lent), 0, &mut bytes, &mut work);
        let zero = work.iter().all(|&n| n == 0);
        family.same((ours, bytes, zero), (said, theirs, true), || format!("{ring:?}"));
    });
    let mut short = |lent: &lent::Lent, threshold: usize, bytes: usize, work: usize| {
        let (mut ours, mut theirs) = ((vec![7; bytes], vec![7; work]), (vec![7; bytes], vec![7; work]));
        let said = calls::build_tree(lent_as(lent), threshold, &mut ours.0, &mut ours.1);
        let expected = model::tree::build(&lent.coords, lent.points, threshold as u64, &mut theirs.0, &mut theirs.1);
        family.same((said, ours), (built(expected), theirs), || format!("{lent:?}, threshold {threshold}"));
    };
    each_ring(plan, "tree_short", 4000, |random, ring| {
        let (lent, rust) = (lent::Lent::of(ring), rust_ring(ring));
        let (b, w) = (rust_tree(&rust).bytes.len(), work_of(&rust));
        for (bytes, work) in
            [(b, w), (b - 1, w), (b, w - 1), (0, 0), (b + 1, w + 1), (random.below(b), random.below(w))]
        {
            short(&lent, *random.pick(&[0, ring.len() - 1, ring.len(), 64, usize::MAX]), bytes, work);
        }
    });
    each_fault(plan, "tree faults", |lent| short(lent, 0, 70, 70));
    family.end()
}

/// 01's sample sheet: "12 segments make a leaf; 13 split. 13 segments that are all one same point go to
/// depth 64." How many nodes were made is told by the work numbers that are just enough.
fn sheet(_: Plan) -> bool {
    let mut family = Family::new("tree_sheet", &[]);
    let mut ask = |name: &str, ring: &[Corner], size: (usize, usize), split: u8| {
        let (lent, rust) = (lent::Lent::of(ring), rust_ring(ring));
        family.same(size, open::tree_size(&rust), || format!("{name}: nodes and depth"));
        let theirs = rust_tree(&rust).bytes;
        let (mut bytes, mut work) = (vec![7; theirs.len()], vec![7; 6 * size.0 + ring.len() - 1]);
        let ours = calls::build_tree(lent_as(&lent), 0, &mut bytes, &mut work);
        let zero = work.iter().all(|&n| n == 0);
        family.same((ours, &bytes, zero), (Ok((true, theirs.len() as u64)), &theirs, true), || name.to_string());
        let at = (1..).nth(usize::from(bytes[0])).expect("a place");
        family.same(bytes.get(at).copied(), Some(split), || format!("{name}: the root's split byte"));
        work.pop();
        let ours = calls::build_tree(lent_as(&lent), 0, &mut bytes, &mut work);
        family.same(ours, Err((8, 0)), || format!("{name}: one work number less"));
    };
    let spike = |n| rings::spike([0, 0], [100, 100], n);
    ask("12 segments", &spike(12), (1, 0), 0);
    ask("13 segments, of which a point goes to a child", &spike(13), (2, 1), 1);
    ask("14 segments that all stay", &spike(14), (1, 0), 1);
    ask("12 segments of one point", &rings::one_point([5, 5], 12), (1, 0), 0);
    ask("13 segments of one point", &rings::one_point([5, 5], 13), (65, 64), 1);
    let circle = rings::circle([0.0, 0.0], 1000.0, 13);
    ask("13 segments of a circle", &circle, open::tree_size(&rust_ring(&circle)), 1);
    family.end()
}

fn by_tree() -> PolygonBuildOptions {
    PolygonBuildOptions {
        enable_compressed_quad: true,
        enable_y_stripes: false,
        rtree_min_segments: 0,
        ..Default::default()
    }
}

/// The lists, in the Rust's order, and the answers, by bytes as built.
fn asked(plan: Plan) -> bool {
    let mut family = Family::new("tree_asked", &[]);
    each_ring(plan, "tree_asked", 400, |random, ring| {
        let (lent, rust) = (lent::Lent::of(ring), rust_ring(ring));
        let theirs = rust_tree(&rust);
        let mut heights = points::heights(ring, 4);
        heights.extend((0..4).map(|_| points::random_height(random, ring)));
        for y in heights {
            let found = theirs.list(&rust, y).0.into_iter().map(|i| i as u32).collect::<Vec<u32>>();
            for mut room in rooms(found.len()) {
                let mut expected = room.clone();
                let listed = if y.is_finite() { Ok(found.clone()) } else { Err((7, 0)) };
                let said = count(model::pour(listed, &mut expected));
                let ours = calls::list_tree(lent_as(&lent), &theirs.bytes, y, &mut room);
                family.same((ours, room), (said, expected), || format!("{ring:?} at {}", shown(y)));
            }
        }
        let index = open::build_index(&rust, &by_tree()).0;
        for _ in 0..8 {
            let [x, y] = points::random(random, ring);
            for edge in [false, true] {
                let finite = x.is_finite() && y.is_finite();
                let inside = finite && open::ring_test(&rust, index.as_ref(), Point { x, y }, edge);
                let ours = calls::ring_tree(lent_as(&lent), &theirs.bytes, [x, y], u32::from(edge));
                let scan = calls::ring_scan(lent_as(&lent), [x, y], u32::from(edge));
                let question = || format!("{ring:?} at {} {}, edge {edge}", shown(x), shown(y));
                family.same((ours, scan), (Ok((inside, 0)), Ok((inside, 0))), question);
            }
        }
    });
    each_fault(plan, "tree asked faults", |lent| {
        let bytes = [4, 0, 1, 1, 1, 0];
        let mut rooms = ([7; 4], [7; 4]);
        let ours = calls::list_tree(lent_as(lent), &bytes, 0.0, &mut rooms.0);
        let said = count(model::tree::list(&lent.coords, lent.points, &bytes, 0.0, &mut rooms.1));
        family.same((ours, rooms.0), (said, rooms.1), || format!("list of {lent:?}"));
        let at = [f64::from(*lent.coords.first().unwrap_or(&0)), 0.5];
        let said = answer(model::tree::test(&lent.coords, lent.points, &bytes, at[0], at[1], true));
        family.same(calls::ring_tree(lent_as(lent), &bytes, at, 1), said, || format!("test of {lent:?}"));
        let said = answer(model::ring::ring_scan(&lent.coords, lent.points, at[0], at[1], true));
        family.same(calls::ring_scan(lent_as(lent), at, 1), said, || format!("scan of {lent:?}"));
    });
    family.end()
}

/// One ring and any bytes: both calls, and what is left in the room, are the model's.
fn ask_bytes(family: &mut Family, lent: &lent::Lent, bytes: &[u8], [x, y]: [f64; 2], room: usize) {
    let mut ours = vec![7_777_777; room];
    let mut theirs = ours.clone();
    let question = || format!("{lent:?} with bytes {bytes:02x?} at {} {}", shown(x), shown(y));
    let said = calls::list_tree(lent_as(lent), bytes, y, &mut ours);
    let expected = count(model::tree::list(&lent.coords, lent.points, bytes, y, &mut theirs));
    family.same((said, ours), (expected, theirs), question);
    let expected = answer(model::tree::test(&lent.coords, lent.points, bytes, x, y, false));
    family.same(calls::ring_tree(lent_as(lent), bytes, [x, y], 0), expected, question);
}

/// Small trees with one byte changed, to each of the 255 other values at every byte, and cut off at every
/// byte: what a search of them says at heights that read all of it, a part, and none.
fn changed(plan: Plan) -> bool {
    let mut family = Family::new("tree_changed", &[]);
    let mut random = Random::new(plan.seed, "tree_changed");
    let mut small =
        vec![rings::sheet_square(), rings::circle([0.0, 0.0], 50.0, 13), rings::walk(&mut random, [0, 0], 9, 20)];
    if plan.random > 1_000_000 {
        small.push(rings::one_point([5, 5], 13));
        small.push(rings::circle([0.0, 0.0], 1000.0, 40));
        small.push(rings::walk(&mut random, [0, 0], 9, 64));
        small.push(rings::scatter(&mut random, -3, 3, 30));
    }
    for ring in small {
        let lent = lent::Lent::of(&ring);
        let good = rust_tree(&rust_ring(&ring)).bytes;
        let heights = points::heights(&ring, 3);
        let cut = damage::every_truncation(&good).map(<[u8]>::to_vec);
        for bytes in damage::every_change(&good).chain(cut) {
            for &y in &heights {
                let room = *random.pick(&[0, 3, 64]);
                ask_bytes(&mut family, &lent, &bytes, [points::random(&mut random, &ring)[0], y], room);
            }
        }
    }
    family.end()
}

/// Damaged copies of good bytes, and invented ones.
fn damaged(plan: Plan) -> bool {
    let mut family = Family::new("tree_damaged", &[]);
    each_ring(plan, "tree_damaged", 200, |random, ring| {
        let lent = lent::Lent::of(ring);
        let good = rust_tree(&rust_ring(ring)).bytes;
        for _ in 0..4 {
            let bytes = match random.below(4) {
                0 => invented(random, ring.len() - 1, 0),
                1 => (0..random.below(30)).map(|_| *random.pick(&[0, 0, 1, 1, 2, 3, 0x7f, 0x80, 0xff])).collect(),
                _ => damage::bytes(random, &good),
            };
            let [x, y] = points::random(random, ring);
            let room = random.below(6);
            ask_bytes(&mut family, &lent, &bytes, [x, y], room);
        }
    });
    family.end()
}

/// Bytes that are a tree in form, of any segments, some of them with a size that is off by a little.
fn invented(random: &mut Random, segments: usize, depth: usize) -> Vec<u8> {
    let own = random.below(4);
    let mut bytes = varints::encode(own as u64);
    for _ in 0..own {
        bytes.extend(varints::encode(random.below(1 + segments / 3) as u64));
    }
    let split = depth < 4 && random.one_in(2);
    bytes.push(u8::from(split));
    for _ in (0..4).filter(|_| split) {
        if random.one_in(2) {
            bytes.push(0);
            continue;
        }
        let child = invented(random, segments, depth + 1);
        let off = if random.one_in(20) { random.between(-1, 1) } else { 0 };
        bytes.extend(varints::encode((child.len() as i64 + off) as u64));
        bytes.extend(child);
    }
    bytes
}

const KEPT: &str = "damage: the Rust keeps what it found, here it is refusal 9";
const LEFT: &str = "bytes left over: the Rust takes them, here it is refusal 9";
const UNCONFINED: &str = "a child read past its own part: the Rust reads on, here it is refusal 9";
const PAST: &str = "a child past its parent's part: the Rust takes it, here it is refusal 9";
const LOOSE: &str = "a loose varint in a tree: the Rust reads it, here it is refusal 15";
const DEEP: &str = "a child in a node at depth 64: the Rust reads it, here it is refusal 9";

/// A leaf with segment 0, this many levels down by south-west quadrants.
fn deep(levels: usize) -> Vec<u8> {
    (0..levels).fold(vec![1, 0, 0], |child, _| {
        let size = varints::encode(child.len() as u64);
        [&[0, 1, 0, 0][..], &size, &child, &[0]].concat()
    })
}

/// What the Rust takes where 01 refuses, each with the smallest bytes found: S at height 0.
fn differ(_: Plan) -> bool {
    let mut family = Family::new("tree_differ", &[KEPT, LEFT, UNCONFINED, PAST, DEEP, LOOSE]);
    let ring = rings::sheet_square();
    let (lent, rust) = (lent::Lent::of(&ring), rust_ring(&ring));
    let bounds = rust_tree(&rust).bounds;
    let mut ask = |what: &'static str, bytes: &[u8], no: No, found: &[u32]| {
        let mut room = [7; 4];
        let ours: Result<Vec<u32>, No> =
            calls::list_tree(lent_as(&lent), bytes, 0.0, &mut room).map(|(_, n)| room[..n as usize].to_vec());
        let tree = open::Tree { bounds, bytes: bytes.to_vec() };
        let theirs = Ok(tree.list(&rust, 0.0).0.into_iter().map(|i| i as u32).collect());
        family.recorded(what, [ours, theirs], [Err(no), Ok(found.to_vec())]);
    };
    ask(KEPT, &[4, 0, 1, 1, 1], (9, 5), &[0, 1, 3]);
    ask(KEPT, &[4, 0, 1, 1, 1, 2], (9, 5), &[0, 1, 3]);
    ask(KEPT, &[4, 0, 1, 1, 2, 0], (9, 4), &[0, 1]);
    ask(LEFT, &[4, 0, 1, 1, 1, 0, 0], (9, 6), &[0, 1, 3]);
    // the child of size 1 is read to its third byte
    ask(UNCONFINED, &[0, 1, 0, 0, 1, 1, 0, 0], (9, 6), &[0]);
    // the inner child's size 3 goes past the outer child's part of 5
    ask(PAST, &[0, 1, 0, 0, 5, 0, 1, 0, 0, 3, 1, 0, 0, 0], (9, 9), &[0]);
    // 65 levels of 00 01 00 00 SIZE .. 00 round a leaf; the 65th size stands at byte 368
    ask(DEEP, &deep(limits::DEPTH + 1), (9, 368), &[0]);
    // the count, a difference and a child's size, each longer than it needs to be
    ask(LOOSE, &[0x84, 0, 0, 1, 1, 1, 0], (15, 0), &[0, 1, 3]);
    ask(LOOSE, &[4, 0x80, 0, 1, 1, 1, 0], (15, 1), &[0, 1, 3]);
    ask(LOOSE, &[4, 0, 1, 1, 1, 1, 0, 0x80, 0x80, 0, 0, 0], (15, 7), &[0, 1, 3]);
    // told before the value is used: it is not below the count; goes past the part
    ask(LOOSE, &[4, 0, 1, 1, 0x82, 0, 0], (15, 4), &[0, 1]);
    ask(LOOSE, &[4, 0, 1, 1, 1, 1, 0, 0, 0x8a, 0, 0], (15, 8), &[0, 1, 3]);
    let mut room = [7; 4];
    let ours = calls::list_tree(lent_as(&lent), &deep(limits::DEPTH), 0.0, &mut room);
    family.same((ours, room), (Ok((false, 1)), [0, 0, 0, 0]), || "a leaf at depth 64".to_string());
    family.end()
}
