//! Outlines from well-known binary, through the C interface, beside the model: every truncation and every single-byte change of
//! small polygons, random and damaged bytes, huge counts, good polygons of either byte order; and files that GEOS wrote.

use super::Run;
use crate::report::{Family, Plan};
use cases::wkb::{damaged, junk, shape, written, Shape};
use cases::Random;
use std::io::{ErrorKind, Write};
use std::process::{Command, Stdio};
use std::time::Instant;

pub const FAMILIES: &[Run] =
    &[("wkb_each", each), ("wkb_random", random), ("wkb_good", good), ("wkb_huge", huge), ("wkb_geos", geos)];

/// Both sides read the same bytes into rooms of so many numbers, marked so that what is written shows.
fn ask(family: &mut Family, bytes: &[u8], scale: f64, sizes: usize, coords: usize) {
    let (mut ours, mut theirs) = ((vec![7; sizes], vec![7; coords]), (vec![7; sizes], vec![7; coords]));
    let (said, numbers) = calls::read_wkb(bytes, scale, &mut ours.0, &mut ours.1);
    let expected = model::wkb::read(bytes, scale, &mut theirs.0, &mut theirs.1);
    let told = (expected.map(|(rings, _)| (false, rings)), expected.map_or(0, |(_, numbers)| numbers));
    let input = || format!("{bytes:02x?}, scale {scale}, rooms of {sizes} and {coords}");
    family.same(((said, numbers), ours), (told, theirs), input);
}

fn square(from: f64, to: f64) -> Vec<[f64; 2]> {
    vec![[from, from], [to, from], [to, to], [from, to], [from, from]]
}

/// Small polygons with all that can be wrong with one byte of them.
fn each(plan: Plan) -> bool {
    let mut family = Family::new("wkb_each", &[]);
    let shapes: [Shape; 5] = [
        vec![square(0.0, 10.0)],
        vec![square(0.0, 10.0), square(2.0, 8.0)],
        vec![vec![[0.5, -0.5], [0.5, -0.5]]],
        vec![vec![], vec![[1.0, 2.0]]],
        vec![],
    ];
    // 01's sample sheet
    let sheet = [
        ("01030000000100000001000000", (10, 13)),
        ("010300000001000000010000000000000000000000", (10, 21)),
        ("01030000000000000000", (10, 9)),
        ("010300000000000000", (1, 0)),
        ("0107", (10, 1)),
        ("02", (11, 0)),
        ("0103000000FFFFFFFF", (10, 9)),
    ];
    for (digits, no) in sheet {
        let said = calls::read_wkb(&hex(digits), 1.0, &mut [7; 3], &mut [7; 40]);
        family.same(said, (Err(no), 0), || digits.to_string());
    }
    // the short run takes every fifth value, and those around the bytes that mean something
    let all = plan.random > 2_000_000;
    let values: Vec<u8> = (0..=255).filter(|value| all || *value < 9 || value % 5 == 0).collect();
    for (shape, big) in shapes.iter().flat_map(|shape| [(shape, false), (shape, true)]) {
        let bytes = written(shape, big);
        for end in 0..=bytes.len() {
            ask(&mut family, &bytes[..end], 1.0, 3, 40);
            let mut longer = bytes[..end].to_vec();
            longer.push(0);
            ask(&mut family, &longer, 1.0, 3, 40);
        }
        for at in 0..bytes.len() {
            for &value in &values {
                let mut changed = bytes.clone();
                changed[at] = value;
                ask(&mut family, &changed, 1.0, 3, 40);
            }
        }
        for (sizes, coords) in (0..4).flat_map(|sizes| (0..24).map(move |coords| (sizes, coords))) {
            ask(&mut family, &bytes, 1.0, sizes, coords);
        }
        for scale in [0.5, 3.0, 1e-300, 1e308, 0.0, -0.0, -1.0, f64::NAN, f64::INFINITY, f64::MIN_POSITIVE] {
            ask(&mut family, &bytes, scale, 3, 40);
        }
    }
    family.end()
}

fn scale(random: &mut Random) -> f64 {
    match random.below(8) {
        0 => f64::from_bits(random.next()),
        1 => *random.pick(&[0.0, -1.0, f64::NAN, f64::INFINITY]),
        2 => random.part() * 1e6,
        _ => *random.pick(&[1.0, 10.0, 0.1, 1000.0]),
    }
}

/// Damaged polygons and bytes that mean nothing.
fn random(plan: Plan) -> bool {
    let mut family = Family::new("wkb_random", &[]);
    let mut random = Random::new(plan.seed, "wkb_random");
    for _ in 0..plan.random / 10 {
        let bytes = if random.one_in(4) {
            junk(&mut random)
        } else {
            let big = random.one_in(2);
            let good = written(&shape(&mut random), big);
            damaged(&mut random, &good)
        };
        let (sizes, coords) = (random.below(6), random.below(60));
        ask(&mut family, &bytes, scale(&mut random), sizes, coords);
    }
    family.end()
}

/// Polygons as they come, in rooms that mostly hold them.
fn good(plan: Plan) -> bool {
    let mut family = Family::new("wkb_good", &[]);
    let mut random = Random::new(plan.seed, "wkb_good");
    for _ in 0..plan.random / 5 {
        let shape = shape(&mut random);
        let bytes = written(&shape, random.one_in(2));
        let numbers = 2 * shape.iter().map(Vec::len).sum::<usize>();
        let (sizes, coords) = (shape.len() + random.below(3), numbers + random.below(3));
        let short = random.one_in(16);
        let scale = if random.one_in(4) { scale(&mut random) } else { 1.0 };
        ask(&mut family, &bytes, scale, sizes.saturating_sub(usize::from(short)), coords);
    }
    family.end()
}

/// Counts that no bytes stand behind are told at once.
fn huge(_: Plan) -> bool {
    let mut family = Family::new("wkb_huge", &[]);
    for big in [false, true] {
        let number = |n: u32| if big { n.to_be_bytes() } else { n.to_le_bytes() };
        let head = |rings: u32| [vec![u8::from(!big)], number(3).to_vec(), number(rings).to_vec()].concat();
        let start = Instant::now();
        for count in [u32::MAX, 1 << 31, 1 << 28] {
            ask(&mut family, &head(count), 1.0, 3, 40);
            ask(&mut family, &[head(1), number(count).to_vec()].concat(), 1.0, 3, 40);
            ask(&mut family, &[head(count), vec![0; 4_000]].concat(), 1.0, 3, 40);
            ask(&mut family, &[head(1), number(count).to_vec(), vec![0; 4_000_004]].concat(), 1.0, 3, 40);
        }
        // a million empty rings take a million counts
        ask(&mut family, &[head(1_000_000), vec![0; 4_000_000]].concat(), 1.0, 3, 40);
        family.same(start.elapsed().as_secs() < 20, true, || "huge counts take time".to_string());
    }
    family.end()
}

/// The files that GEOS wrote (oracle/geos); each line is a name, its well-known text and its hexadecimal.
const FILES: &str = include_str!("../../../geos/polygons.txt");

fn hex(text: &str) -> Vec<u8> {
    (0..text.len() / 2).map(|i| u8::from_str_radix(&text[2 * i..2 * i + 2], 16).expect("hexadecimal")).collect()
}

/// The coordinates of a polygon's well-known text, ring by ring.
fn text_rings(text: &str) -> Vec<Vec<[f64; 2]>> {
    let inner = text.trim_start_matches(|c: char| c != '(').trim_matches(|c| c == '(' || c == ')');
    let point = |pair: &str| {
        let mut numbers = pair.split_whitespace().map(|n| n.parse::<f64>().expect("a number"));
        [numbers.next().expect("an x"), numbers.next().expect("a y")]
    };
    inner.split("),").map(|ring| ring.trim_matches(|c| " ()".contains(c)).split(',').map(point).collect()).collect()
}

/// GEOS's own reading of hexadecimal, as well-known text, or what it said instead; none where it is not installed.
fn read_by_geos(hex: &str) -> Option<Result<String, String>> {
    let mut geosop = match Command::new("geosop")
        .args(["-a", "stdin.wkb", "-f", "wkt", "-p", "17"])
        .stdin(Stdio::piped())
        .stdout(Stdio::piped())
        .stderr(Stdio::piped())
        .spawn()
    {
        Err(error) if error.kind() == ErrorKind::NotFound => return None,
        started => started.expect("geosop is there and starts"),
    };
    // one that ends before it has read all is told by its exit
    let _ = geosop.stdin.take().expect("a pipe").write_all(hex.as_bytes());
    let out = geosop.wait_with_output().expect("geosop ends");
    let said = |bytes: &[u8]| String::from_utf8_lossy(bytes).trim().to_string();
    let text = said(&out.stdout);
    let read = out.status.success() && text.starts_with("POLYGON (");
    Some(if read { Ok(text) } else { Err(format!("{}: {text} {}", out.status, said(&out.stderr))) })
}

fn geos(_: Plan) -> bool {
    let mut family = Family::new("wkb_geos", &[]);
    let (mut files, mut read) = (0, 0);
    for line in FILES.lines().filter(|line| !line.starts_with('#') && !line.is_empty()) {
        let mut parts = line.split('|').map(str::trim);
        let (name, text, digits) =
            (parts.next().expect("a name"), parts.next().expect("text"), parts.next().expect("hex"));
        let bytes = hex(digits);
        let shape = model::wkb::shape(&bytes);
        family.same(shape.clone(), Ok(text_rings(text)), || format!("{name}: the text it was made from"));
        for scale in [1.0, 10.0, 0.5] {
            ask(&mut family, &bytes, scale, 64, 9000);
        }
        files += 1;
        if let Some(theirs) = read_by_geos(digits) {
            let theirs = theirs.map(|text| text_rings(&text));
            family.same(shape.map_err(|no| format!("{no:?}")), theirs, || format!("{name}: as GEOS reads it"));
            read += 1;
        }
    }
    let told = if read == 0 {
        "geosop is not installed: no file was read by GEOS".to_string()
    } else {
        format!("{read} of {files} files compared with GEOS's own reading")
    };
    println!("{:14} {told}", "");
    family.end()
}
