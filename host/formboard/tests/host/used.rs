//! The program as it is used: from a pipe, into a pipe, by other programs, on a board with broken zones, on a large one.

use crate::{fed, file, formboard, text};
use std::env;
use std::fs;
use std::process::{Command, Stdio};
use std::time::Instant;

const SQUARE: &str = "zone z wet\nedge allowed\nmode float\nscale 100\noutline 0,0 1.1,0 1.1,2.2 0,2.2 0,0\n";

fn said(arguments: &[&str], board: &str) -> (Option<i32>, String, String) {
    let ran = fed(arguments, board.as_bytes());
    (ran.status.code(), text(&ran.stdout).to_string(), text(&ran.stderr).to_string())
}

#[test]
fn standard_input_is_a_board() {
    let board = file("host/boards/engine-bay.board");
    assert_eq!(said(&["-"], &board), (Some(0), file("host/boards/engine-bay.table"), String::new()));
    let (status, out, err) = said(&["-"], "zone z moist\n");
    assert_eq!((status, out.as_str()), (Some(2), ""));
    assert_eq!(err, "formboard: -: line 1: expected a zone's kind: wet, dry or hot, found \"moist\"\n");
}

#[test]
fn the_version() {
    let ran = formboard(&["--version"]);
    assert!(ran.status.success());
    assert_eq!(text(&ran.stdout), format!("formboard {}\n", env!("CARGO_PKG_VERSION")));
}

/// A decimal that lies on the border, and whose product with the scale does not: 1.1 times 100 in floats is
/// 110.00000000000001. Integer mode, which rounds to the grid, finds it on the border.
#[test]
fn a_decimal_on_the_line() {
    let splices = "splice a 1.1,1\nsplice b 0.5,2.2\nsplice c 1.1,2.2\nsplice d 1,1\nsplice e 0,1\n";
    let (status, table, _) = said(&["-"], &format!("{SQUARE}{splices}"));
    assert_eq!(status, Some(0));
    for row in [
        "a       1.1,1    -        unsealed  on the border of z as written, not in floats",
        "b       0.5,2.2  -        unsealed  on the border of z as written, not in floats",
        "c       1.1,2.2  -        unsealed  on the border of z as written, not in floats",
        "d       1,1      z        sealed",
        "e       0,1      z        sealed    on the border of z",
    ] {
        assert!(table.lines().any(|line| line == row), "{row} in\n{table}");
    }
    let (_, table, _) = said(&["-"], &format!("{SQUARE}{splices}").replace("float", "integer"));
    assert_eq!(table.matches("on the border of z").count(), 4);
    assert!(!table.contains("as written"));
}

/// Nanometres on a board that reaches two metres either way from its centre: whole numbers are exact over all of it.
#[test]
fn a_board_of_four_metres_in_nanometres() {
    let board = "zone wide wet\nedge allowed\nmode integer\nscale 1000000\noutline -2000,-2000 2000,-2000 2000,2000 -2000,2000 -2000,-2000\n\
                 zone slope dry\nedge excluded\nmode integer\nscale 1000000\noutline -2000,-2000 2000,1999.999999 2000,2000 -2000,-2000\n\
                 splice a 2000,2000\nsplice b 2000.000001,0\nsplice c 1999.999999,1999.999999\nsplice d 0,0\nsplice e 0,0.000001\n";
    let (status, table, _) = said(&["-"], board);
    assert_eq!(status, Some(0), "{table}");
    for (splice, held) in [("a ", "wide "), ("b ", "- "), ("c ", "wide "), ("d ", "wide "), ("e ", "wide ")] {
        let row = table.lines().find(|line| line.starts_with(splice)).expect("a row");
        assert!(row.split_whitespace().nth(2) == Some(held.trim()), "{row}");
    }
}

#[test]
fn every_broken_zone_is_told_once() {
    let open = "zone open dry\nedge allowed\nmode float\nscale 1\noutline 0,0 1,0 1,1\n";
    let hole =
        "zone hole hot\nedge allowed\nmode float\nscale 1\noutline 0,0 9,0 9,9 0,0\ncut-out 1,1 2,1 1,1\ncut-out 3,3\n";
    let scale = "zone flat dry\nedge allowed\nmode float\nscale 0\noutline 0,0 9,0 9,9 0,0\n";
    let (status, _, err) = said(&["-"], &format!("{open}{hole}{SQUARE}{scale}"));
    let told = "formboard: -: line 5: zone open, its outline: refusal 4: ring 0 is not closed: its first and last point differ\n\
                formboard: -: line 12: zone hole, its cut-out 2: refusal 1: ring 2 has fewer than 2 points\n\
                formboard: -: line 18: zone flat: refusal 5: the scale is not a finite number above 0\n";
    assert_eq!((status, err.as_str()), (Some(1), told));
    let (_, table, _) = said(&["-"], &format!("{open}{scale}{SQUARE}splice s 1,1\n"));
    assert!(
        table.ends_with("1 splices: 0 sealed, 0 unsealed, 1 refused; 0 on a border or a rim; 2 zones are broken\n"),
        "{table}"
    );
}

#[test]
fn for_other_programs() {
    let board = format!("board A \"b\"\n{SQUARE}splice a 1.1,1\nsplice b -0.50,3\n");
    let (_, csv, _) = said(&["--format", "csv", "-"], &board);
    let lines = "splice,x,y,zones,part,refused_by,refusal,place,notes\n\
                 a,1.1,1,,unsealed,,,,\"on the border of z as written, not in floats\"\n\
                 b,-0.5,3,,unsealed,,,,\n";
    assert_eq!(csv, lines);
    let (_, json, _) = said(&["--format=json", "-"], &board);
    let object = "{\n  \"board\": \"A \\\"b\\\"\",\n  \"broken\": [],\n  \"splices\": [\n    \
                  {\"splice\": \"a\", \"x\": 1.1, \"y\": 1, \"zones\": [], \"part\": \"unsealed\", \"on\": [], \
                  \"written_on\": [{\"zone\": \"z\", \"ring\": 0}], \"notes\": [\"on the border of z as written, not in floats\"], \
                  \"refusal\": null}, \n    \
                  {\"splice\": \"b\", \"x\": -0.5, \"y\": 3, \"zones\": [], \"part\": \"unsealed\", \"on\": [], \
                  \"written_on\": [], \"notes\": [], \"refusal\": null}]\n}\n";
    assert_eq!(json, object);
    let refused = SQUARE.replace("scale 100", "scale 0") + "splice s 1,1\n";
    let (status, json, _) = said(&["--format=json", "-"], &refused);
    assert_eq!(status, Some(1));
    assert!(
        json.contains("\"refusal\": {\"zone\": \"z\", \"number\": 5, \"place\": 0, \"words\": \"refusal 5: "),
        "{json}"
    );
    assert!(json.contains("{\"zone\": \"z\", \"line\": 1, \"number\": 5, \"place\": 0, "), "{json}");
    let (_, csv, _) = said(&["--format=csv", "-"], &refused);
    assert!(csv.contains("\ns,1,1,,refused,z,5,0,"), "{csv}");
}

#[test]
fn what_is_worth_a_second_look() {
    let found = |board: &str| {
        let ran = formboard(&["--check", board]);
        assert_eq!(text(&ran.stderr), "");
        (ran.status.code(), text(&ran.stdout).to_string())
    };
    let border = "zones wet-1 and dry-1 share a line that neither holds, as at 50.000,140.000\n\
                  zones wet-2 and dry-2 share a line that both hold, as at 150.000,140.000\n";
    assert_eq!(found("lesson-border.board"), (Some(1), border.to_string()));
    assert_eq!(found("lesson-index.board"), (Some(0), String::new()));
    let tests = "splice P2: less than 0.001 units from the border of whole, and not on it (a unit is 1/1000000 mm)\n\
                 splice R1: 0.300 units from the border of rounded, and not on it (a unit is 1/1000000 mm)\n";
    assert_eq!(found("lesson-tests.board"), (Some(1), tests.to_string()));
    let bay = found("engine-bay.board").1;
    for pair in ["engine and turbo", "cowl and drain", "fuse-box and drain"] {
        assert!(bay.contains(&format!("zones {pair} overlap, as near ")), "{bay}");
    }
    assert!(bay.contains("zones engine and cowl share a line that neither holds, as at 600.000,830.000\n"), "{bay}");
    assert_eq!(bay.lines().count(), 4);
    // the same outline twice, and one that lies in a cut-out of the other
    let ring = "outline 0,0 9,0 9,9 0,9 0,0\n";
    let zone = |name: &str, rings: &str| format!("zone {name} dry\nedge excluded\nmode integer\nscale 1\n{rings}");
    let (status, out, _) = said(&["--check", "-"], &(zone("a", ring) + &zone("b", ring)));
    assert_eq!((status, out.as_str()), (Some(1), "zones a and b overlap, as near 4.500,4.384\n"));
    let cut = format!("{ring}cut-out 2,2 7,2 7,7 2,7 2,2\n");
    let inner = zone("b", "outline 2,2 7,2 7,7 2,7 2,2\n");
    assert_eq!(said(&["--check", "-"], &(zone("a", &cut) + &inner)).0, Some(0));
    let broken = zone("c", "outline 0,0 9,0 9,9\n");
    let (_, out, _) = said(&["--check", "-"], &broken);
    assert_eq!(out, "line 5: zone c, its outline: refusal 4: ring 0 is not closed: its first and last point differ\n");
}

/// Twenty thousand splices round a zone of 4,096 sides.
fn large() -> String {
    let corner = |i: usize| {
        let angle = i as f64 / 4096.0 * std::f64::consts::TAU;
        format!("{:.1},{:.1}", 500.0 + 400.0 * angle.cos(), 400.0 + 300.0 * angle.sin())
    };
    let ring: Vec<String> = (0..4096).chain([0]).map(corner).collect();
    let splice = |i: usize| format!("splice Q{i} {},{}\n", (i * 7919) % 1000, (i * 104_729) % 800);
    let splices: String = (0..20_000).map(splice).collect();
    format!("zone round wet\nedge allowed\nmode float\nscale 10\noutline {}\n{splices}", ring.join(" "))
}

/// The table and the drawing of a large board take seconds at most, also where the machine is busy.
#[test]
fn a_large_board() {
    let drawn = env::temp_dir().join(format!("large-{}.svg", std::process::id()));
    let name = drawn.to_str().expect("a folder with a plain name");
    let start = Instant::now();
    let (status, table, _) = said(&["--draw", name, "-"], &large());
    let took = start.elapsed();
    let svg = fs::read_to_string(&drawn).expect("the drawing was written");
    fs::remove_file(&drawn).expect("the drawing can be removed");
    assert_eq!((status, table.lines().count()), (Some(0), 20_006));
    assert_eq!(svg.matches("<title>Q").count(), 20_000);
    assert!(svg.contains("names are left out for want of room"));
    assert!(took.as_secs() < 20, "{took:?}");
}

/// Who reads the first lines only is no fault of the board.
#[test]
fn a_closed_pipe_is_no_error() {
    let file = env::temp_dir().join(format!("pipe-{}.board", std::process::id()));
    fs::write(&file, large()).expect("the file can be written");
    let program = env!("CARGO_BIN_EXE_formboard");
    let mut child =
        Command::new(program).arg(&file).stdout(Stdio::piped()).stderr(Stdio::piped()).spawn().expect("it starts");
    drop(child.stdout.take());
    let ran = child.wait_with_output().expect("it ends");
    fs::remove_file(&file).expect("the file can be removed");
    assert_eq!((ran.status.code(), text(&ran.stderr)), (Some(0), ""));
}
