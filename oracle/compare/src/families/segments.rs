//! Both tests of a segment, and the whole-number test of a ring.

use super::{all_shown, rust_ring, Run};
use crate::ours;
use crate::report::{Family, Plan};
use cases::lent::{self, Lent};
use cases::points::{self, Place};
use cases::rings::{self, Corner};
use cases::segments::{self, Ends};
use cases::Random;
use model::ring::{self as model_ring, Ray, Segment};
use opened::open::{self, Cast};
use opened::Point;

pub const FAMILIES: &[Run] =
    &[("raycast", raycast), ("cross_sign", cross_sign), ("grid_test", grid_test), ("grid_ring", grid_ring)];

fn raycast(plan: Plan) -> bool {
    let mut family = Family::new("raycast", &[]);
    let mut ask = |ends: Ends, p: Place| {
        let [a, b] = ends.map(points::place).map(|[x, y]| Point { x, y });
        let theirs = match open::raycast(&opened::Segment { a, b }, Point { x: p[0], y: p[1] }) {
            Cast::Neither => Ray::Neither,
            Cast::Inside => Ray::Inside,
            Cast::On => Ray::On,
        };
        family.same(ours::raycast(ends, p), theirs, || format!("{ends:?} and {}", all_shown(&p)));
    };
    // all of a small grid, with places on, between and around its points
    let places = segments::half_steps(5);
    for ends in segments::of_grid(5) {
        places.iter().for_each(|&p| ask(ends, p));
    }
    for ends in segments::edges() {
        points::of_segment(ends[0], ends[1]).into_iter().for_each(|p| ask(ends, p));
    }
    let mut random = Random::new(plan.seed, "raycast");
    for _ in 0..plan.random / 4 {
        let ends = segments::random(&mut random);
        for _ in 0..4 {
            ask(ends, points::random(&mut random, &ends));
        }
    }
    family.end()
}

const WRAPS: &str = "a segment so long, or a whole place so far away, that the Rust's 64 bits do not hold its products";

/// The Rust's whole-number test on 64 bits, which wrap.
fn wrapped([[ax, ay], [bx, by]]: Ends, [px, py]: [i64; 2]) -> Ray {
    let [ax, ay, bx, by] = [ax, ay, bx, by].map(i64::from);
    let cross = (bx - ax).wrapping_mul(py.wrapping_sub(ay)).wrapping_sub((by - ay).wrapping_mul(px.wrapping_sub(ax)));
    let boxed = (ax.min(bx)..=ax.max(bx)).contains(&px) && (ay.min(by)..=ay.max(by)).contains(&py);
    if cross == 0 && boxed {
        Ray::On
    } else if (ay > py) != (by > py) && (cross > 0) == (by > ay) {
        Ray::Inside
    } else {
        Ray::Neither
    }
}

fn segment([a, b]: Ends) -> Segment {
    Segment { a: (a[0], a[1]), b: (b[0], b[1]) }
}

/// The sign of the cross, beside the model's in 128 bits: the ends of the range, any i32, and places one unit from the
/// line on segments as long as the range.
fn cross_sign(plan: Plan) -> bool {
    let mut family = Family::new("cross_sign", &[]);
    let mut ask = |ends: Ends, p: Corner| {
        let exact = model_ring::cross(segment(ends), p[0].into(), p[1].into()).signum();
        family.same(ours::cross_sign(ends, p), exact as i32, || format!("{ends:?} and {p:?}"));
    };
    for ends in segments::as_long_as_the_range() {
        segments::near_the_line(ends).into_iter().for_each(|p| ask(ends, p));
    }
    for ends in segments::of_grid(4) {
        whole_places(4).for_each(|p| ask(ends, p.map(|c| c as i32)));
    }
    let mut random = Random::new(plan.seed, "cross_sign");
    for _ in 0..plan.random {
        let ends = if random.one_in(2) {
            segments::random(&mut random)
        } else {
            [[(); 2]; 2].map(|c| c.map(|()| random.next() as i32))
        };
        let p = if random.one_in(2) {
            *random.pick(&segments::near_the_line(ends))
        } else {
            [random.next() as i32, random.next() as i32]
        };
        ask(ends, p);
    }
    family.end()
}

/// The Rust tests rings only: two points are a ring of one segment, and both edge rules together tell
/// what the test says.
fn grid_test(plan: Plan) -> bool {
    let mut family = Family::new("grid_test", &[WRAPS]);
    let mut ask = |ends: Ends, p: [i64; 2]| {
        let ours = ours::grid_test(ends, p);
        let exact = model_ring::grid(segment(ends), p[0], p[1]);
        let both =
            [false, true].map(|edge| open::ring_test_integer(&rust_ring(&ends), Point { x: p[0], y: p[1] }, edge));
        let theirs = match both {
            [false, false] => Ray::Neither,
            [true, true] => Ray::Inside,
            [false, true] => Ray::On,
            [true, false] => unreachable!("what is on is not inside with the edge excluded"),
        };
        let wraps = wrapped(ends, p);
        if exact == wraps {
            family.same(ours, theirs, || format!("{ends:?} and {p:?}"));
        } else {
            family.recorded(WRAPS, [ours, theirs], [exact, wraps]);
        }
    };
    // the smallest on record
    ask([[0, 0], [0, 1]], [i64::MIN, 0]);
    for ends in segments::of_grid(5) {
        for p in whole_places(5) {
            ask(ends, p);
            // the same a thousand times as large
            ask(ends.map(|c| c.map(|x| x * 1000)), p.map(|x| x * 1000));
        }
    }
    let mut random = Random::new(plan.seed, "grid_test");
    for ends in segments::edges() {
        for held in [ends, segments::held_unwrapped(ends)] {
            for _ in 0..20 {
                ask(held, points::random_whole(&mut random, &held));
            }
        }
    }
    for ends in segments::as_long_as_the_range() {
        segments::near_the_line(ends).into_iter().for_each(|p| ask(ends, p.map(i64::from)));
    }
    for _ in 0..plan.random {
        let ends = segments::random(&mut random);
        let held = if random.one_in(2) { ends } else { segments::held_unwrapped(ends) };
        ask(held, points::random_whole(&mut random, &held));
    }
    family.end()
}

/// The places of a small grid and of two rims around it.
fn whole_places(side: i64) -> impl Iterator<Item = [i64; 2]> {
    (-2..side + 2).flat_map(move |x| (-2..side + 2).map(move |y| [x, y]))
}

/// As for a segment; where the ring is not accepted, the model's refusal.
fn grid_ring(plan: Plan) -> bool {
    let mut family = Family::new("grid_ring", &[WRAPS]);
    let mut ask = |lent: &Lent, p: [i64; 2], edge: bool| {
        let ours = ours::grid_ring(lent, p, edge);
        let exact = model_ring::ring_grid(&lent.coords, lent.points, p[0], p[1], edge);
        if exact.is_err() {
            return family.same(ours, exact, || format!("{lent:?} and {p:?}"));
        }
        let corners: Vec<Corner> = lent.coords.chunks_exact(2).map(|c| [c[0], c[1]]).collect();
        let theirs = Ok(open::ring_test_integer(&rust_ring(&corners), Point { x: p[0], y: p[1] }, edge));
        let wraps = Ok(wrapped_ring(&corners, p, edge));
        if exact == wraps {
            family.same(ours, theirs, || format!("{corners:?} and {p:?}, edge {edge}"));
        } else {
            family.recorded(WRAPS, [ours, theirs], [exact, wraps]);
        }
    };
    // the smallest on record
    ask(&Lent::of(&[[0, 0], [0, 1], [0, 0]]), [i64::MIN, 0], false);
    // every triangle of a small grid
    for [a, b] in segments::of_grid(3) {
        for [c, _] in segments::of_grid(3).step_by(9) {
            let lent = Lent::of(&[a, b, c, a]);
            whole_places(3).for_each(|p| [false, true].into_iter().for_each(|edge| ask(&lent, p, edge)));
        }
    }
    let mut random = Random::new(plan.seed, "grid_ring");
    for lent in lent::edges() {
        for p in [[0, 0], [5, 5], [i64::MAX, i64::MIN]] {
            [false, true].into_iter().for_each(|edge| ask(&lent, p, edge));
        }
    }
    for ring in rings::edges() {
        for ring in [rings::held_unwrapped(&ring.ring), ring.ring] {
            for _ in 0..8 {
                ask(&Lent::of(&ring), points::random_whole(&mut random, &ring), random.one_in(2));
            }
        }
    }
    for _ in 0..plan.random / 40 {
        let any = rings::random(&mut random);
        let ring = rings::held_unwrapped(&any);
        let lent = Lent::of(&ring);
        for _ in 0..4 {
            ask(&lent, points::random_whole(&mut random, &ring), random.one_in(2));
        }
        let lent = if random.one_in(2) { Lent::of(&any) } else { lent::damaged(&mut random, &ring) };
        ask(&lent, points::random_whole(&mut random, &ring), random.one_in(2));
    }
    family.end()
}

pub fn wrapped_ring(ring: &[Corner], p: [i64; 2], edge: bool) -> bool {
    let mut inside = false;
    for side in ring.windows(2) {
        match wrapped([side[0], side[1]], p) {
            Ray::On => return edge,
            Ray::Inside => inside = !inside,
            Ray::Neither => {}
        }
    }
    inside
}
