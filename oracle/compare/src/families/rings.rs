//! Rings without an index: listing by scan, and the turn.

use super::{rust_ring, shown, Run};
use crate::ours;
use crate::report::{Family, Plan};
use cases::lent::{self, Lent};
use cases::rings::{self, Corner, Ring};
use cases::{points, segments, Random};
use model::ring::Turn;
use opened::open;

pub const FAMILIES: &[Run] = &[("scan", scan), ("turn", turn)];

/// Every edge, random rings, damaged copies and thin ones: as many as so many random inputs are worth.
pub(super) fn each_ring(plan: Plan, name: &str, worth: u64, mut ask: impl FnMut(&mut Random, &[Corner])) {
    let mut random = Random::new(plan.seed, name);
    for named in rings::edges() {
        ask(&mut random, &named.ring);
    }
    for _ in 0..plan.random / worth {
        let ring: Ring = match random.below(4) {
            0 => {
                let segments = 3 + random.below(20);
                rings::thin(&mut random, segments)
            }
            1 => {
                let good = rings::random(&mut random);
                rings::damaged(&mut random, &good)
            }
            _ => rings::random(&mut random),
        };
        ask(&mut random, &ring);
    }
}

/// Room for a list of n numbers: enough, more than enough, one short, none; full of what no list has.
pub(super) fn rooms(n: usize) -> [Vec<u32>; 4] {
    [n, n + 3, n.saturating_sub(1), 0].map(|room| vec![7_777_777; room])
}

/// The Rust lists by an index only, so the scan's list is held against the Rust's stripes and, sorted,
/// against its tree. Refusals and rooms are the model's.
fn scan(plan: Plan) -> bool {
    let mut family = Family::new("scan", &[]);
    each_ring(plan, "scan", 400, |random, ring| {
        let (lent, rust) = (Lent::of(ring), rust_ring(ring));
        let stripes = open::Stripes::build(&rust).expect("an accepted ring has segments").0;
        let tree = open::Tree::build(&rust).expect("an accepted ring has segments");
        let mut heights = points::heights(ring, 4);
        heights.extend((0..4).map(|_| points::random_height(random, ring)));
        for y in heights {
            let listed = if y.is_finite() { stripes.list(&rust, y) } else { vec![] };
            let mut found = if y.is_finite() { tree.list(&rust, y).0 } else { vec![] };
            found.sort_unstable();
            for mut room in rooms(listed.len()) {
                let mut theirs = room.clone();
                let list = listed.iter().map(|&i| i as u32).collect();
                let expected = model::pour(if y.is_finite() { Ok(list) } else { Err((7, 0)) }, &mut theirs);
                let ours = ours::scan(&lent, y, &mut room);
                family.same((ours, room), (expected, theirs), || format!("{ring:?} at {}", shown(y)));
            }
            family.same(&found, &listed, || format!("the Rust's own lists of {ring:?} at {}", shown(y)));
        }
    });
    each_fault(plan, "scan faults", |lent| {
        for y in [0.0, 5.0, f64::NAN, f64::INFINITY] {
            let mut room = vec![7; 5];
            let mut theirs = room.clone();
            let expected = model::ring::list_scan(&lent.coords, lent.points, y, &mut theirs);
            let ours = ours::scan(lent, y, &mut room);
            family.same((ours, room), (expected, theirs), || format!("{lent:?} at {}", shown(y)));
        }
    });
    family.end()
}

/// Rings that a rule refuses, or barely accepts.
pub(super) fn each_fault(plan: Plan, name: &str, mut ask: impl FnMut(&Lent)) {
    lent::edges().iter().for_each(&mut ask);
    let mut random = Random::new(plan.seed, name);
    for _ in 0..plan.random / 100 {
        let segments = 1 + random.below(20);
        let ring = rings::random_of(&mut random, segments);
        ask(&lent::damaged(&mut random, &ring));
    }
}

/// The turn as the library says it, and through the C interface. The Rust has no turn: the exact sum is the
/// model's. Gives back what was said, nothing where the ring was refused.
fn ask_turn(family: &mut Family, lent: &Lent) -> Option<Turn> {
    let exact = model::ring::turn(&lent.coords, lent.points);
    let told = ours::turn(lent);
    family.same(told, exact, || format!("{lent:?}"));
    let through_c = calls::turn(calls::Lent { coords: &lent.coords, points: lent.points });
    family.same(through_c, exact.map(|turn| (turn, 0)), || format!("through C, {lent:?}"));
    told.ok()
}

/// A ring, the same run through backwards, and the same started at another corner: the second turns the
/// other way, and the third as the first.
fn turn_each_way(family: &mut Family, random: &mut Random, ring: &[Corner]) -> Option<Turn> {
    let there = ask_turn(family, &Lent::of(ring));
    let back = ask_turn(family, &Lent::of(&ring.iter().rev().copied().collect::<Ring>()));
    let opposite = there.map(|turn| match turn {
        Turn::Anticlockwise => Turn::Clockwise,
        Turn::Clockwise => Turn::Anticlockwise,
        Turn::None => Turn::None,
    });
    family.same(back, opposite, || format!("backwards, {ring:?}"));
    let elsewhere = ask_turn(family, &Lent::of(&rings::started_at(random.below(ring.len()), ring)));
    family.same(elsewhere, there, || format!("started elsewhere, {ring:?}"));
    there
}

fn turn(plan: Plan) -> bool {
    let mut family = Family::new("turn", &[]);
    for [a, b] in segments::of_grid(3) {
        for [c, d] in segments::of_grid(3) {
            ask_turn(&mut family, &Lent::of(&[a, b, c, d, a]));
        }
    }
    let mut random = Random::new(plan.seed, "turn flat");
    for (ring, turns) in rings::flattest() {
        let said = turn_each_way(&mut family, &mut random, &ring);
        let known = [Turn::Clockwise, Turn::None, Turn::Anticlockwise][(turns + 1) as usize];
        family.same(said, Some(known), || format!("{ring:?}"));
    }
    for _ in 0..plan.random / 400 {
        let segments = 1 + random.below(40);
        let flat = rings::flat(&mut random, segments);
        let said = turn_each_way(&mut family, &mut random, &flat);
        family.same(said, Some(Turn::None), || format!("on one line, {flat:?}"));
        let thin = rings::thin(&mut random, segments);
        turn_each_way(&mut family, &mut random, &thin);
        let extremes = rings::extremes(&mut random, segments);
        turn_each_way(&mut family, &mut random, &extremes);
    }
    each_ring(plan, "turn", 40, |random, ring| {
        turn_each_way(&mut family, random, ring);
    });
    each_fault(plan, "turn faults", |lent| {
        ask_turn(&mut family, lent);
    });
    family.end()
}
