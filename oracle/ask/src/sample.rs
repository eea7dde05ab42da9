//! The sample of the oracle's answers that the repository keeps: questions in the line form of
//! docs/REPLAY.md, the same on every machine.

use crate::words::{bytes, coordinates};
use cases::lent::{self, Lent};
use cases::outlines::{self, Mode, Outline};
use cases::segments::Ends;
use cases::{boxes, floats, points, rings, segments, varints, Random, SEED};

/// The questions: 01's sample sheet, then of each function the edges (all or some), then random and
/// damaged inputs.
pub fn questions() -> Vec<String> {
    let mut all = sheet();
    for name in ["next_up", "floor", "round", "sqrt"] {
        all.extend(of_floats(name).iter().map(|x| format!("{name} {x:016x}")));
    }
    all.extend(reads());
    all.extend(appends());
    all.extend(varints::values().iter().step_by(9).map(|x| format!("uvarint_len {x:x}")));
    all.extend(casts());
    all.extend(choices());
    all.extend(grid_rings());
    all
}

/// Questions on which 01 decides against the Rust (docs/DIFFERENCES.md), with the answer that it gives.
pub fn decided() -> Vec<(String, String)> {
    let ring = coordinates(&rings::coordinates(&[[0, 0], [0, 1], [0, 0]]));
    let wraps = rings::wrapping();
    let wrapping = coordinates(&rings::coordinates(&wraps));
    vec![
        ("next_up fff0000000000000".into(), "ffefffffffffffff".into()),
        (format!("grid_ring {ring} 3 8000000000000000 0 0"), "no".into()),
        (format!("grid_ring {wrapping} 5 {} {} 0", whole(wraps[1][0]), whole(wraps[0][1])), "no".into()),
    ]
}

/// Lines that are no question: an unknown word, a field that is missing, too much or in another form.
/// Each is answered with a question mark.
pub fn no_questions() -> Vec<String> {
    let lines = [
        "what 1",
        "next_u 1",
        "next_upp 1",
        "next_up",
        "next_up ",
        "next_up -",
        "next_up -1",
        "next_up 1 1",
        "next_up 1 ",
        "next_up  1",
        " next_up 1",
        "next_up 00000000000000000",
        "next_up BFF0000000000000",
        "next_up 0x1",
        "round 1.5",
        "floor nan",
        "sqrt 4g",
        "read_uvarint",
        "read_uvarint ac02",
        "read_uvarint ac02 0",
        "read_uvarint ac02 0 2 2",
        "read_uvarint ac0 0 2",
        "read_uvarint ag02 0 2",
        "read_uvarint  0 2",
        "read_uvarint -- 0 2",
        "append_uvarint 00 0",
        "append_uvarint 0 0 1",
        "uvarint_len -",
        "raycast 0 0 0 1 0",
        "raycast 0 0 0 1 0 0 0",
        "raycast 0 0 0 80000000 0 0",
        "raycast 0 ffffffff7fffffff 0 0 0 0",
        "choose_quad 0 0 0 0 0 0 0",
        "grid_ring 00000000 1 0 0",
        "grid_ring 000000 1 0 0 0",
        "grid_ring 00000000 1 0 0 2",
    ];
    lines.map(String::from).to_vec()
}

/// What the sample sheet says of numbers and varints.
fn sheet() -> Vec<String> {
    let run = |byte: &str, times: usize, last: &str| byte.repeat(times) + last;
    vec![
        "next_up bff0000000000000".into(),
        format!("append_uvarint 0000 0 {:x}", 300),
        "read_uvarint ac02 0 2".into(),
        "read_uvarint 8000 0 2".into(),
        format!("read_uvarint {} 0 a", run("ff", 9, "7f")),
        format!("read_uvarint {} 0 a", run("ff", 9, "01")),
        format!("read_uvarint {} 0 a", run("80", 10, "")),
        format!("read_uvarint {} 0 b", run("80", 11, "")),
    ]
}

/// The Rust's answer to next up from -infinity is not the standard's: that one is among those decided.
fn of_floats(name: &str) -> Vec<u64> {
    let mut random = Random::new(SEED, &format!("sample {name}"));
    let mut patterns = floats::landmarks();
    for _ in 0..40 {
        patterns.push(floats::random(&mut random));
    }
    for _ in 0..20 {
        let good = *random.pick(&floats::landmarks());
        patterns.push(floats::damaged(&mut random, good));
    }
    patterns.retain(|&x| name != "next_up" || f64::from_bits(x) != f64::NEG_INFINITY);
    patterns
}

fn reads() -> Vec<String> {
    let mut random = Random::new(SEED, "sample read_uvarint");
    let edges = varints::read_edges();
    let mut reads: Vec<_> = edges.into_iter().step_by(13).collect();
    reads.extend((0..60).map(|_| varints::random_read(&mut random)));
    reads.extend((0..60).map(|_| varints::damaged_read(&mut random)));
    reads.iter().map(|q| format!("read_uvarint {} {:x} {:x}", bytes(&q.bytes), q.at, q.end)).collect()
}

fn appends() -> Vec<String> {
    let mut random = Random::new(SEED, "sample append_uvarint");
    let edges = varints::write_edges();
    let mut writes: Vec<_> = edges.into_iter().step_by(61).collect();
    writes.extend((0..60).map(|_| varints::random_write(&mut random)));
    writes.iter().map(|q| format!("append_uvarint {} {:x} {:x}", bytes(&q.room), q.at, q.value)).collect()
}

/// A whole number by its two's complement.
fn whole(z: impl Into<i64>) -> String {
    format!("{:x}", z.into())
}

fn float(x: f64) -> String {
    format!("{:x}", x.to_bits())
}

fn casts() -> Vec<String> {
    let mut random = Random::new(SEED, "sample raycast");
    let mut asked: Vec<(Ends, points::Place)> = Vec::new();
    let places = segments::half_steps(2);
    for (i, ends) in segments::of_grid(2).enumerate() {
        asked.extend(places.iter().skip(i % 11).step_by(11).map(|&p| (ends, p)));
    }
    for ends in segments::edges().into_iter().step_by(37) {
        let places = points::of_segment(ends[0], ends[1]);
        asked.extend((0..6).map(|_| (ends, *random.pick(&places))));
    }
    for _ in 0..100 {
        let ends = segments::random(&mut random);
        asked.push((ends, points::random(&mut random, &ends)));
    }
    let line = |([a, b], p): &(Ends, points::Place)| {
        let words = [a, b].map(|c| c.map(whole).join(" ")).join(" ");
        format!("raycast {words} {}", p.map(float).join(" "))
    };
    asked.iter().map(line).collect()
}

fn choices() -> Vec<String> {
    let mut random = Random::new(SEED, "sample choose_quad");
    let mut pairs: Vec<_> = boxes::edges().step_by(2873).collect();
    pairs.extend((0..200).map(|_| boxes::random_pair(&mut random)));
    pairs.iter().map(|pair| format!("choose_quad {}", pair.map(|b| b.map(float).join(" ")).join(" "))).collect()
}

/// Rings of up to 31 segments, whose coordinates the program has room for, and places, all so near that the Rust's
/// products do not wrap.
fn grid_rings() -> Vec<String> {
    let mut random = Random::new(SEED, "sample grid_ring");
    let mut asked = Vec::new();
    let most = i64::from(cases::limits::UNWRAPPED);
    for lent in lent::edges().into_iter().filter(|l| l.coords.len() <= 64).step_by(2) {
        asked.push((lent, [5, 5]));
    }
    for _ in 0..200 {
        let segments = 1 + random.below(31);
        let ring = rings::held_unwrapped(&rings::random_of(&mut random, segments));
        let p = points::random_whole(&mut random, &ring).map(|c| c.clamp(-most, most));
        let lent = if random.one_in(8) { lent::damaged(&mut random, &ring) } else { Lent::of(&ring) };
        asked.push((lent, p));
    }
    asked.retain(|(lent, _)| lent.coords.len() <= 64 && lent.coords.iter().all(|c| c.unsigned_abs() < 1_500_000_000));
    let line = |(i, (lent, p)): (usize, &(Lent, [i64; 2]))| {
        format!("grid_ring {} {:x} {} {}", coordinates(&lent.coords), lent.points, p.map(whole).join(" "), i % 2)
    };
    asked.iter().enumerate().map(line).collect()
}

/// The questions on lists, indexes and outlines: 01's sample sheet, edges, then random and damaged inputs.
pub fn of_rings() -> Vec<String> {
    let mut all = Vec::new();
    let mut random = Random::new(SEED, "sample rings");
    for lent in some_rings(&mut random) {
        let ring = format!("{} {:x}", coordinates(&lent.coords), lent.points);
        let corners: Vec<_> = lent.coords.chunks_exact(2).map(|c| [c[0], c[1]]).collect();
        for word in ["list_scan", "list_stripes", "list_tree"] {
            let y = if corners.len() < 2 { 0.0 } else { points::random_height(&mut random, &corners) };
            all.push(format!("{word} {ring} {}", float(y)));
        }
        let threshold = *random.pick(&[0, 0, 0, 12, 31, 64]);
        all.push(format!("stripes {ring} {threshold:x}"));
        all.push(format!("tree {ring} {threshold:x}"));
    }
    let sheet = lent::Lent::of(&rings::sheet_square());
    for y in [0.0, 10.0, -1.0, f64::INFINITY, f64::NEG_INFINITY, f64::NAN] {
        for word in ["list_scan", "list_stripes", "list_tree"] {
            all.push(format!("{word} {} 5 {}", coordinates(&sheet.coords), float(y)));
        }
    }
    all.extend(insides(&mut random));
    all
}

/// Rings whose coordinates the program has room for: 01's S, 12 and 13 segments, one point 13 times, broken ones, any.
fn some_rings(random: &mut Random) -> Vec<Lent> {
    let mut all = vec![Lent::of(&rings::sheet_square()), Lent::of(&rings::one_point([0, 0], 13))];
    all.extend([12, 13].map(|n| Lent::of(&rings::circle([0.0, 0.0], 100.0, n))));
    all.extend(lent::edges().into_iter().filter(|l| l.coords.len() <= 64).step_by(5));
    for _ in 0..60 {
        let segments = 1 + random.below(31);
        let ring = rings::random_of(random, segments);
        all.push(if random.one_in(10) { lent::damaged(random, &ring) } else { Lent::of(&ring) });
    }
    all.retain(|l| l.coords.len() <= 64);
    all
}

/// Outlines of up to 64 coordinates, with every kind of index, both modes and both edge rules.
fn insides(random: &mut Random) -> Vec<String> {
    let (s, hole) = (rings::sheet_square(), rings::sheet_hole());
    let mut all = Vec::new();
    let line = |o: &Outline, kinds: usize, p: points::Place, edge: usize| {
        let sizes: Vec<u8> = o.sizes.iter().map(|&n| n as u8).collect();
        let mode = u8::from(o.mode == Mode::Integer);
        let (sizes, coords) = (bytes(&sizes), coordinates(&o.coordinates));
        format!("inside {sizes} {coords} {} {mode} {kinds} {} {edge}", float(o.scale), p.map(float).join(" "))
    };
    for mode in [Mode::Float, Mode::Integer] {
        let holed = Outline::new(&[s.clone(), hole.clone()], 1.0, mode);
        for p in [[5.0, 5.0], [11.0, 5.0], [0.0, 5.0], [1.0, 1.0], [2.0, 5.0], [9.5, 5.0], [-0.5, 5.0]] {
            all.extend((0..8).map(|n| line(&holed, n % 4, p, n / 4)));
        }
    }
    let fits = |o: &Outline| o.coordinates.len() <= 64 && o.sizes.len() <= 32 && o.sizes.iter().all(|&n| n <= 255);
    while all.len() < 400 {
        let mut shape = Vec::new();
        for _ in 0..1 + random.below(4) {
            let segments = 3 + random.below(8);
            shape.push(rings::held_unwrapped(&rings::random_of(random, segments)));
        }
        let mode = if random.one_in(3) { Mode::Integer } else { Mode::Float };
        let good = Outline::new(&shape, *random.pick(&outlines::SCALES), mode);
        let o = if random.one_in(8) { outlines::damaged(random, &good) } else { good };
        let p = outlines::random_query(random, &shape, o.scale);
        if fits(&o) {
            all.push(line(&o, random.below(4), p, random.below(2)));
        }
    }
    all
}

/// Lines that are no question of these.
pub fn no_questions_of_rings() -> Vec<String> {
    let lines = [
        "list_scan",
        "list_scan - 0",
        "list_scan 000000 0 0",
        "list_scn 00000000 0 0",
        "list_tree 00000000 0 0 0",
        "stripes 00000000 0",
        "tree - 0 -",
        "inside 05 - 0 0 0 0 0",
        "inside 05 - 0 2 0 0 0 0",
        "inside 05 - 0 0 4 0 0 0",
        "inside 05 - 0 0 0 0 0 2",
        "grid_ring 00000000 1 0 0 0",
    ];
    lines.map(String::from).to_vec()
}
