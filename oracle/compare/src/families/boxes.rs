//! Boxes of any floats, and the boxes of segments.

use super::{all_bits, all_shown, Run};
use crate::ours;
use crate::report::{Family, Plan};
use cases::boxes::{self, Box4};
use cases::{points, segments, Random};
use opened::{open, Point, Rect, Segment};

pub const FAMILIES: &[Run] = &[
    ("contains_point", contains_point),
    ("intersects_rect", |plan| {
        let mut family = Family::new("intersects_rect", &[]);
        each_pair(plan, "intersects_rect", |a, b| {
            let theirs = rect(a).intersects_rect(rect(b));
            family.same(ours::intersects_rect(a, b), theirs, || pair(a, b));
        });
        family.end()
    }),
    ("corners_sides", corners_and_sides),
    ("choose_quad", |plan| {
        let mut family = Family::new("choose_quad", &[]);
        each_pair(plan, "choose_quad", |a, b| {
            let theirs = open::choose_quad(rect(a), rect(b));
            family.same(ours::choose_quad(a, b), theirs, || pair(a, b));
        });
        family.end()
    }),
    ("quad_bounds", quad_bounds),
    ("segment_rect", segment_rect),
];

fn rect([x0, y0, x1, y1]: Box4) -> Rect {
    Rect { min: Point { x: x0, y: y0 }, max: Point { x: x1, y: y1 } }
}

fn numbers(r: Rect) -> Box4 {
    [r.min.x, r.min.y, r.max.x, r.max.y]
}

fn ends(s: Segment) -> [f64; 4] {
    [s.a.x, s.a.y, s.b.x, s.b.y]
}

fn pair(a: Box4, b: Box4) -> String {
    format!("{} and {}", all_shown(&a), all_shown(&b))
}

/// Every edge, random pairs, and pairs with one box damaged.
fn each_pair(plan: Plan, name: &str, mut ask: impl FnMut(Box4, Box4)) {
    boxes::edges().for_each(|[a, b]| ask(a, b));
    let mut random = Random::new(plan.seed, name);
    for _ in 0..plan.random {
        let [a, b] = boxes::random_pair(&mut random);
        ask(a, b);
    }
    for _ in 0..plan.random / 4 {
        let [a, b] = boxes::random_pair(&mut random);
        ask(a, boxes::damaged(&mut random, b));
        ask(boxes::damaged(&mut random, a), b);
    }
}

/// The points are corners of other boxes.
fn contains_point(plan: Plan) -> bool {
    let mut family = Family::new("contains_point", &[]);
    each_pair(plan, "contains_point", |a, [x, y, u, v]| {
        for p in [[x, y], [u, v]] {
            let theirs = rect(a).contains_point(Point { x: p[0], y: p[1] });
            family.same(ours::contains_point(a, p), theirs, || format!("{} and {}", all_shown(&a), all_shown(&p)));
        }
    });
    family.end()
}

/// The four corners and sides, and sides by any number.
fn corners_and_sides(plan: Plan) -> bool {
    let mut family = Family::new("corners_sides", &[]);
    let indexes = [0, 1, 2, 3, 4, -1, -2, -4, 1 << 32, (1 << 32) + 1, (1 << 32) + 3, i64::MIN, i64::MAX];
    let mut random = Random::new(plan.seed, "corners_sides");
    let all = boxes::edges().map(|[a, _]| a).step_by(1690).collect::<Vec<Box4>>();
    let some = (0..plan.random / 16).map(|_| boxes::random(&mut random)).collect::<Vec<Box4>>();
    for b in all.into_iter().chain(some) {
        let r = rect(b);
        for (which, corner) in [r.nw(), r.sw(), r.se(), r.ne()].into_iter().enumerate() {
            let ours = all_bits(ours::corner(b, which as u32));
            family.same(ours, all_bits([corner.x, corner.y]), || format!("corner {which} of {}", all_shown(&b)));
        }
        for (which, side) in [r.south(), r.east(), r.north(), r.west()].into_iter().enumerate() {
            let ours = all_bits(ours::side(b, which as u32));
            family.same(ours, all_bits(ends(side)), || format!("side {which} of {}", all_shown(&b)));
        }
        for index in indexes {
            let ours = all_bits(ours::segment_at(b, index));
            let theirs = all_bits(ends(r.segment_at(index)));
            family.same(ours, theirs, || format!("side at {index} of {}", all_shown(&b)));
        }
    }
    family.end()
}

fn quad_bounds(plan: Plan) -> bool {
    let mut family = Family::new("quad_bounds", &[]);
    each_pair(plan, "quad_bounds", |a, b| {
        for q in [0, 1, 2, 3, 4, 1 << 32, usize::MAX] {
            for bounds in [a, b] {
                let ours = all_bits(ours::quad_bounds(bounds, q));
                let theirs = all_bits(numbers(open::quad_bounds(rect(bounds), q)));
                family.same(ours, theirs, || format!("quadrant {q} of {}", all_shown(&bounds)));
            }
        }
    });
    family.end()
}

/// The box of a segment, and its ends as floats.
fn segment_rect(plan: Plan) -> bool {
    let mut family = Family::new("segment_rect", &[]);
    let mut ask = |[a, b]: segments::Ends| {
        let [from, to] = [a, b].map(|c| points::place(c));
        let theirs = Segment { a: Point { x: from[0], y: from[1] }, b: Point { x: to[0], y: to[1] } }.rect();
        family.same(all_bits(ours::segment_rect(a, b)), all_bits(numbers(theirs)), || format!("{a:?} {b:?}"));
        family.same(all_bits(ours::i32_point(a)), all_bits(from), || format!("{a:?}"));
    };
    segments::of_grid(5).chain(segments::edges()).for_each(&mut ask);
    let mut random = Random::new(plan.seed, "segment_rect");
    for _ in 0..plan.random {
        ask(segments::random(&mut random));
    }
    family.end()
}
