//! The header's names stand for the numbers that the wrapper uses.

use brothstitch::{c, row, BuildOptions, Outline, Refusal, Ring, Turn};
use std::collections::BTreeMap;
use std::fs;

/// What each name of the header stands for.
fn names() -> BTreeMap<String, String> {
    let header = concat!(env!("CARGO_MANIFEST_DIR"), "/../../include/brothstitch.h");
    let text = fs::read_to_string(header).expect("the header is there");
    let defined = text.lines().filter_map(|line| line.strip_prefix("#define BROTHSTITCH_")?.split_once(' '));
    defined.map(|(name, rest)| (name.to_string(), rest.split(" /*").next().unwrap_or(rest).to_string())).collect()
}

#[test]
fn numbers_of_the_header() {
    let names = names();
    let number = |name: &str| {
        let text = names.get(name).unwrap_or_else(|| panic!("BROTHSTITCH_{name} is not defined"));
        text.trim_end_matches('u').parse::<usize>().unwrap_or_else(|_| panic!("{name} is {text}"))
    };
    assert_eq!(number("MAX_RINGS"), Outline::MAX_RINGS);
    assert_eq!(number("MIN_POINTS"), Outline::MIN_POINTS);
    assert_eq!(number("MAX_POINTS"), Outline::MAX_POINTS);
    assert_eq!(number("DEFAULT_THRESHOLD"), BuildOptions::DEFAULT_MIN_SEGMENTS);
    assert_eq!(number("ROW"), row::NUMBERS);
    let columns = [
        ("SEGMENTS", row::SEGMENTS),
        ("UNDER", row::UNDER),
        ("KINDS", row::KINDS),
        ("STRIPES_START", row::STRIPES_START),
        ("STRIPES", row::STRIPES),
        ("LIST_START", row::LIST_START),
        ("ENTRIES", row::ENTRIES),
        ("FULLEST", row::FULLEST),
        ("BYTES_START", row::BYTES_START),
        ("BYTES", row::BYTES),
    ];
    assert!(columns.iter().enumerate().all(|(at, &(_, column))| at == column), "each number of a row has a name");
    let library = include_str!("../../../crates/outline_table/src/lib.rt");
    for (name, column) in columns {
        assert_eq!(number(&format!("ROW_{name}")), column, "{name}");
        assert!(library.contains(&format!("pub const {name}: usize = {column};")), "{name} in the library");
    }
    let refusals = [
        ("TOO_FEW", Refusal::TooFew { ring: 0 }),
        ("TOO_MANY", Refusal::TooManyRings),
        ("SIZES_DIFFER", Refusal::SizesDiffer),
        ("NOT_CLOSED", Refusal::NotClosed { ring: 0 }),
        ("BAD_SCALE", Refusal::BadScale),
        ("BAD_HEIGHT", Refusal::BadHeight),
        ("NO_ROOM", Refusal::NoRoom),
        ("DAMAGED", Refusal::Damaged { place: 0 }),
        ("ENDS", Refusal::Ends { byte: 0 }),
        ("UNKNOWN", Refusal::Unknown { byte: 0 }),
        ("UNSTORED", Refusal::Unstored { ring: 0 }),
        ("LOOSE", Refusal::Loose { place: 0 }),
    ];
    for (name, refusal) in refusals {
        assert_eq!(number(name), refusal.number() as usize, "{name}");
    }
}

/// The names of the turns, held against what the library returns and what the wrapper makes of it.
#[test]
fn turns_of_the_header() {
    let names = names();
    let cases = [
        ("ANTICLOCKWISE", Turn::Anticlockwise, vec![0, 0, 10, 0, 10, 10, 0, 10, 0, 0]),
        ("CLOCKWISE", Turn::Clockwise, vec![0, 0, 0, 10, 10, 10, 10, 0, 0, 0]),
        ("NO_TURN", Turn::None, vec![0, 0, 5, 5, 0, 0]),
    ];
    for (name, turn, ring) in cases {
        let mut value = 7;
        let said = unsafe { c::brothstitch_turn(ring.as_ptr(), ring.len(), ring.len() / 2, &mut value) };
        assert_eq!((format!("{said}u"), value), (names[name].clone(), 0));
        assert_eq!(Ring::new(&ring).turn(), Ok(turn));
    }
}

#[test]
fn the_version_is_one() {
    let version = env!("CARGO_PKG_VERSION");
    assert_eq!(names()["VERSION"], format!("\"{version}\""));
    let parts: Vec<usize> = version.split('.').map(|part| part.parse().expect("a number")).collect();
    assert_eq!(names()["VERSION_NUMBER"], (parts[0] * 10_000 + parts[1] * 100 + parts[2]).to_string());
}
