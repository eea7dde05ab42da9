//! Files that are no boards, outlines that are refused, command lines that are wrong.

use crate::{file, formboard, text};
use brothstitch::BuildOptions;
use formboard::ask::{ask, Damage, Part, Room};
use formboard::draw::draw;
use formboard::read::{read, read_in};
use formboard::table::table;
use std::env;
use std::fs;

const ZONE: &str = "zone z wet\nedge allowed\nmode float\nscale 10\n";

fn problem(bytes: &[u8]) -> String {
    match read(bytes) {
        Ok(_) => panic!("this was read: {}", String::from_utf8_lossy(bytes)),
        Err(error) => error.to_string(),
    }
}

#[test]
fn lines_that_cannot_be_read() {
    let name = "a name of at most 20 letters, digits, hyphens, underlines, dots and slashes";
    let place = "a place X,Y in millimetres";
    let cases: &[(&str, &str)] = &[
        ("", "line 1: expected at least one zone, found the end of the file"),
        ("# nothing\n\n", "line 3: expected at least one zone, found the end of the file"),
        (
            "zoom z wet",
            "line 1: expected board, zone, edge, mode, scale, outline, cut-out, wkb or splice, or a place that goes on with a \
             ring, found \"zoom\"",
        ),
        ("\nboard", "line 2: expected the board's title, found the end of the line"),
        ("board A\nboard B", "line 2: expected the board's title once, before all else, found \"board B\""),
        ("zone", "line 1: expected a zone's name, found the end of the line"),
        ("zone z", "line 1: expected its kind (wet, dry or hot), found the end of the line"),
        ("zone z damp", "line 1: expected a zone's kind: wet, dry or hot, found \"damp\""),
        (
            "zone z wet dry",
            "line 1: expected a zone's name, its kind (wet, dry or hot) and nothing behind them, found \"dry\"",
        ),
        ("zone a&b wet", &format!("line 1: expected {name}, found \"a&b\"")),
        ("zone a12345678901234567890 wet", &format!("line 1: expected {name}, found \"a12345678901234567890\"")),
        ("edge allowed", "line 1: expected a zone before its edge, found \"edge allowed\""),
        ("zone z wet\nedge maybe", "line 2: expected an edge rule: excluded or allowed, found \"maybe\""),
        ("zone z wet\nedge", "line 2: expected an edge rule: excluded or allowed, found the end of the line"),
        ("zone z wet\nmode exact", "line 2: expected a mode: float or integer, found \"exact\""),
        ("zone z wet\nscale 1e3", "line 2: expected a scale as a decimal of at most 18 digits, found \"1e3\""),
        ("zone z wet\nscale 1 2", "line 2: expected a scale and nothing behind it, found \"2\""),
        ("zone z wet\nscale 1\nscale 2", "line 3: expected one scale for zone z, found a second, \"scale 2\""),
        ("outline 0,0", "line 1: expected a zone before its outline, found \"outline 0,0\""),
        ("zone z wet\nedge allowed\noutline 0,0", "line 3: expected the mode of zone z before its rings, found \"outline\""),
        ("zone z wet\nsplice s 0,0", "line 2: expected edge, mode, scale and outline of zone z, found \"splice\""),
        ("zone z wet\nedge allowed\n", "line 3: expected mode, scale and outline of zone z, found the end of the file"),
        ("0,0 1,1", "line 1: expected board, zone, edge, mode, scale, outline, cut-out, wkb or splice (no ring is begun that a \
                     place could go on with), found \"0,0\""),
        ("splice s", "line 1: expected its place X,Y, found the end of the line"),
        ("splice s 5", &format!("line 1: expected {place}, found \"5\"")),
        ("splice s 5,north", "line 1: expected the Y of a place as a decimal of at most 18 digits, found \"north\""),
        ("splice s nan,0", "line 1: expected the X of a place as a decimal of at most 18 digits, found \"nan\""),
        ("splice s 0,0\nsplice s 1,1", "line 2: expected a splice's name that is not used yet, found \"s\", used in line 1"),
    ];
    for (file, said) in cases {
        assert_eq!(problem(file.as_bytes()), *said, "{file}");
    }
}

#[test]
fn rings_that_cannot_be_read() {
    let cases = [
        ("outline", "line 5: expected the ring's places X,Y, found the end of the line"),
        ("cut-out 0,0", "line 5: expected the outline of zone z before its cut-outs, found \"cut-out\""),
        ("outline 0,0\noutline 1,1", "line 6: expected one outline for zone z, found a second outline"),
        ("outline 0,0 1;5", "line 5: expected a place X,Y in millimetres, found \"1;5\""),
        ("outline 0,0\n 5,5 \n\n 6,6 7,7x", "line 8: expected the Y of a place as a decimal of at most 18 digits, found \"7x\""),
        (
            "outline 0,0 1,2.34",
            "line 5: expected a coordinate that times the scale 10 is a whole number, found 2.34, which makes 23.4",
        ),
        (
            "outline 0,0\n214748364.8,0",
            "line 6: expected a coordinate that times the scale 10 is from -2147483648 to 2147483647, found 214748364.8, \
             which makes 2147483648",
        ),
        ("outline 0,0 1,1 0,0\nzone z dry", "line 6: expected a zone's name that is not used yet, found \"z\", used in line 1"),
        ("splice s 0,0", "line 5: expected the outline of zone z, found \"splice\""),
    ];
    for (rest, said) in cases {
        assert_eq!(problem(format!("{ZONE}{rest}").as_bytes()), said, "{rest}");
    }
    assert_eq!(
        problem(b"zone z wet\nedge \xff"),
        "line 2: expected text in UTF-8, found the byte FF at place 6 of the line"
    );
    let long = format!("splice s {}", "9".repeat(60));
    assert_eq!(
        problem(long.as_bytes()),
        format!("line 1: expected a place X,Y in millimetres, found \"{}..\"", "9".repeat(40))
    );
}

/// A wkb file stands in place of the outline and its cut-outs: no ring is added to it, and no place to its last ring.
#[test]
fn nothing_is_added_to_a_wkb_file() {
    let folder = env::temp_dir().join(format!("formboard-wkb-{}", std::process::id()));
    fs::create_dir_all(&folder).expect("a folder");
    let files = file("oracle/geos/polygons.txt");
    let square =
        files.lines().find(|line| line.starts_with("S, little")).and_then(|line| line.rsplit('|').next()).expect("S");
    fs::write(folder.join("s.wkb"), square.trim()).expect("the file is written");
    let told =
        |rest: &str| read_in(format!("{ZONE}wkb s.wkb\n{rest}").as_bytes(), &folder).map_err(|error| error.to_string());
    let board = told("splice s 3,1\n").expect("the file alone is an outline");
    let begun = "board, zone, edge, mode, scale, outline, cut-out, wkb or splice (no ring is begun that a place could go on with)";
    let cases = [
        (
            "cut-out 1,1 2,1 1,1",
            "line 6: expected no ring for zone z beside its wkb file, found \"cut-out\"".to_string(),
        ),
        (
            "outline 0,0 4,0 4,4 0,0",
            "line 6: expected no ring for zone z beside its wkb file, found \"outline\"".to_string(),
        ),
        ("0,0 1,1", format!("line 6: expected {begun}, found \"0,0\"")),
        ("wkb s.wkb", "line 6: expected one outline for zone z, found a second outline".to_string()),
    ];
    for (rest, said) in cases {
        assert_eq!(told(rest), Err(said), "{rest}");
    }
    fs::remove_dir_all(&folder).expect("the folder is removed");
    assert_eq!(board.zones[0].rings[0].stored, [(0, 0), (100, 0), (100, 100), (0, 100), (0, 0)]);
}

/// What some editors put before a text is no part of it.
#[test]
fn a_byte_order_mark_is_taken() {
    let plain = format!("{ZONE}outline 0,0 4,0 4,4 0,0\n");
    assert_eq!(read(format!("\u{feff}{plain}").as_bytes()), read(plain.as_bytes()));
    assert_eq!(problem("\u{feff}\u{feff}".as_bytes()).split(',').next(), Some("line 1: expected board"));
}

#[test]
fn what_a_file_may_look_like() {
    let tidy = format!("board A b\n{ZONE}outline 0,0 4,0 4,4 0,0\ncut-out 1,1 2,1 1,1\nsplice s 3,1\n");
    let odd = "\r\n# first\r\n board  A b # title\r\n\tzone z wet\r\n  mode float\r\n  scale 10.0 # per mm\r\n edge allowed\r\n\
               outline 0,0 4,0\r\n\r\n 4.0,4\r\n0,-0 # closed\r\ncut-out 1,1 2,1\r\n 1,1\r\nsplice s 3,1.0";
    let (tidy, odd) = (read(tidy.as_bytes()).unwrap(), read(odd.as_bytes()).unwrap());
    assert_eq!(tidy.title, odd.title);
    assert_eq!(tidy.zones[0].rings[0].stored, [(0, 0), (40, 0), (40, 40), (0, 0)]);
    assert_eq!(tidy.zones[0].rings[0].stored, odd.zones[0].rings[0].stored);
    assert_eq!(tidy.zones[0].rings[1].stored, odd.zones[0].rings[1].stored);
    assert_eq!(tidy.splices[0].place.floats(), odd.splices[0].place.floats());
}

/// The notes of the one splice of a board with one zone.
fn refused(file: &str, options: BuildOptions, damages: &[Damage]) -> String {
    let board = read(file.as_bytes()).unwrap_or_else(|error| panic!("{error}"));
    let said = ask(&board, options, damages).expect("the damage can be done");
    assert_eq!(said.said[0].part, Part::None);
    let text = table(&board, &said);
    let row = text.lines().find(|line| line.starts_with("s ")).expect("the splice has a row");
    let (start, note) = row.split_once("refused  ").expect("the row says refused");
    assert!(start.trim_end().ends_with('-'));
    note.to_string()
}

fn with_rings(mode: &str, scale: &str, rings: &str) -> String {
    format!("zone z wet\nedge allowed\nmode {mode}\nscale {scale}\n{rings}\nsplice s 1,1\n")
}

#[test]
fn refusals_in_the_table() {
    let square = "outline 0,0 4,0 4,4 0,4 0,0";
    let many = format!("{square}{}", "\ncut-out 1,1 2,1 1,1".repeat(64));
    let long = format!("{square}\ncut-out{}", " 1,1".repeat(4098));
    let cases = [
        (with_rings("float", "1", "outline 0,0"), "refusal 1: there is no ring, or ring 0 has fewer than 2 points"),
        (with_rings("float", "1", &format!("{square}\ncut-out 1,1")), "refusal 1: ring 1 has fewer than 2 points"),
        (with_rings("float", "1", &many), "refusal 2: there are more than 64 rings"),
        (with_rings("float", "1", &long), "refusal 2: ring 1 has more than 4,097 points"),
        (
            with_rings("float", "1", "outline 0,0 4,0 4,4"),
            "refusal 4: ring 0 is not closed: its first and last point differ",
        ),
        (with_rings("float", "0", square), "refusal 5: the scale is not a finite number above 0"),
        (with_rings("float", "-2", square), "refusal 5: the scale is not a finite number above 0"),
    ];
    for (file, words) in cases {
        assert_eq!(refused(&file, BuildOptions::default(), &[]), format!("zone z: {words}"));
    }
}

/// Refusal 8 comes back where no room helps: here over 65,536 stripes are called for.
#[test]
fn refusal_8_in_the_table() {
    let dots = " 1955317097,2078181303".repeat(4094);
    let ring = format!("outline 1955317097,2078181303 1955317098,2078181303 1955317097,2078181304{dots}");
    let stripes = BuildOptions { stripes: true, tree: false, min_segments: 64 };
    let note = refused(&with_rings("float", "1", &ring), stripes, &[]);
    assert_eq!(note, "zone z: refusal 8: the room is too small for what is called for");
}

#[test]
fn refusal_9_in_the_table() {
    let file = with_rings("float", "1", "outline 0,0 4,0 4,4 0,4 0,0");
    let damage = |room, place, number| Damage { zone: "z".to_string(), room, place, number };
    let all = |stripes, tree| BuildOptions { stripes, tree, min_segments: 0 };
    // S packs to 04 00 01 01 01 00: the split byte
    let note = refused(&file, all(false, true), &[damage(Room::Bytes, 5, 2)]);
    assert_eq!(note, "zone z: refusal 9: the index is damaged at place 5");
    // no stripes
    let note = refused(&file, all(true, false), &[damage(Room::Table, 4, 0)]);
    assert_eq!(note, "zone z: refusal 9: the index is damaged at place 0");
    // the part of stripe 8 goes past the list, which has 66 numbers
    let note = refused(&file, all(true, false), &[damage(Room::Stripes, 17, 1000)]);
    assert_eq!(note, "zone z: refusal 9: the index is damaged at place 66");
}

#[test]
fn damage_that_cannot_be_done() {
    let board = read(with_rings("float", "1", "outline 0,0 4,0 4,4 0,0").as_bytes()).unwrap();
    let tell = |zone: &str, room, place, number| {
        let damage = Damage { zone: zone.to_string(), room, place, number };
        ask(&board, BuildOptions::default(), &[damage]).unwrap_err()
    };
    assert_eq!(tell("y", Room::List, 0, 0), "--damage: no zone y that has an index");
    // below the threshold there is no list
    assert_eq!(tell("z", Room::List, 0, 0), "--damage: place 0 is past the end of the room, which has 0 numbers");
    assert_eq!(tell("z", Room::Bytes, 3, 0), "--damage: place 3 is past the end of the room, which has 0 numbers");
    // the numbers of the table have 64 bits, those of the list 32
    let striped = BuildOptions { stripes: true, tree: false, min_segments: 0 };
    let large = |room| ask(&board, striped, &[Damage { zone: "z".to_string(), room, place: 0, number: 1 << 32 }]);
    assert_eq!(large(Room::List).unwrap_err(), "--damage: 4294967296 is no number of 32 bits");
    assert!(large(Room::Table).is_ok());
}

/// What the program says on standard error, with its exit status.
fn complaint(arguments: &[&str]) -> (Option<i32>, String) {
    let ran = formboard(arguments);
    assert!(ran.stdout.is_empty());
    (ran.status.code(), text(&ran.stderr).trim_end().to_string())
}

#[test]
fn command_lines() {
    let cases: [(&[&str], &str); 16] = [
        (&[], "expected a board file; --help tells more"),
        (&["--drow", "x"], "expected an option or a file, found \"--drow\""),
        (&["a.board", "b.board"], "expected one file, found \"b.board\" as well"),
        (&["--draw"], "--draw: expected a file to draw into behind it"),
        (&["--index", "rtree"], "--index: expected none, stripes, tree or both, found \"rtree\""),
        (&["--from", "few"], "--from: expected a number of segments, found \"few\""),
        (&["--damage", "z:list:1"], "--damage: expected ZONE:ROOM:PLACE:NUMBER, found \"z:list:1\""),
        (&["none.board"], "none.board: cannot be read: No such file or directory (os error 2)"),
        (&["--damage", "y:list:0:0", "engine-bay.board"], "--damage: no zone y that has an index"),
        (&["--format", "xml"], "--format: expected table, csv or json, found \"xml\""),
        (&["--format=", "x.board"], "--format: expected table, csv or json, found \"\""),
        (&["--rays=yes", "x.board"], "expected an option or a file, found \"--rays=yes\""),
        (&["--", "--version"], "--version: cannot be read: No such file or directory (os error 2)"),
        (
            &["--draw", "engine-bay.board", "engine-bay.board"],
            "--draw: engine-bay.board is the board itself, which is not written over",
        ),
        (
            &["--draw=./engine-bay.board", "engine-bay.board"],
            "--draw: ./engine-bay.board is the board itself, which is not written over",
        ),
        (
            &["--draw", "no/such/folder.svg", "--format=csv", "none.board"],
            "none.board: cannot be read: No such file or directory (os error 2)",
        ),
    ];
    for (arguments, said) in cases {
        assert_eq!(complaint(arguments), (Some(2), format!("formboard: {said}")));
    }
}

#[test]
fn a_bad_file_ends_with_its_line_number() {
    let file = env::temp_dir().join(format!("formboard-{}.board", std::process::id()));
    fs::write(&file, "# a board\nzone z moist\n").expect("the file can be written");
    let name = file.to_str().expect("a folder with a plain name");
    let said = complaint(&[name]);
    fs::remove_file(&file).expect("the file can be removed");
    let words = "line 2: expected a zone's kind: wet, dry or hot, found \"moist\"";
    assert_eq!(said, (Some(2), format!("formboard: {name}: {words}")));
}

#[test]
fn help_tells_all_options() {
    let ran = formboard(&["--help"]);
    assert!(ran.status.success());
    for word in [
        "--format",
        "--draw",
        "--index",
        "--from",
        "--rays",
        "--damage",
        "--version",
        "exit status",
        "cut-out",
        "sealed",
        "line number",
    ] {
        assert!(text(&ran.stdout).contains(word), "{word}");
    }
}

/// Numbers below a bound, the same at every run.
struct Dice(u64);

impl Dice {
    fn below(&mut self, bound: usize) -> usize {
        self.0 = self.0.wrapping_mul(6_364_136_223_846_793_005).wrapping_add(1_442_695_040_888_963_407);
        (self.0 >> 33) as usize % bound
    }
}

/// A board whose words were exchanged, cut or doubled at random is read and drawn, or gets an error that
/// names one of its lines. Nothing panics.
#[test]
fn spoilt_boards() {
    let good = format!(
        "board A b\n{ZONE}outline 0,0 9,0 9,9 0,9 0,0\ncut-out 1,1 2,1 2,2 1,1\nzone y hot\nedge excluded\nmode integer\nscale 1\n\
         outline 5,5 8,5 8,8\n5,5\nsplice s 3,1\nsplice t 5,7.5\nsplice u 2,1.5\n"
    );
    let odd = [
        "",
        "-",
        "#",
        "0",
        "-1",
        "1e9",
        "999999999999999999",
        "0.000000000000000001",
        "1,1",
        "-7,999999999999999999",
        "wet",
        "\u{e9}",
    ];
    let mut dice = Dice(1);
    let (mut fine, mut bad) = (0, 0);
    for _ in 0..1500 {
        let mut lines: Vec<Vec<String>> =
            good.lines().map(|line| line.split(' ').map(String::from).collect()).collect();
        for _ in 0..=dice.below(3) {
            let line = dice.below(lines.len());
            let word = dice.below(lines[line].len());
            match dice.below(5) {
                0 => lines[line][word] = odd[dice.below(odd.len())].to_string(),
                1 => lines[line].insert(word, odd[dice.below(odd.len())].to_string()),
                2 if lines[line].len() > 1 => drop(lines[line].remove(word)),
                3 if lines.len() > 1 => drop(lines.remove(line)),
                _ => lines.insert(line, lines[dice.below(lines.len())].clone()),
            }
        }
        let text: String = lines.iter().map(|words| words.join(" ") + "\n").collect();
        match read(text.as_bytes()) {
            Err(error) => {
                assert!((1..=lines.len() + 1).contains(&error.line), "{error}");
                bad += 1;
            }
            Ok(board) => {
                let said = ask(&board, BuildOptions::default(), &[]).expect("nothing is damaged");
                assert!(table(&board, &said).lines().count() >= board.splices.len() + 6);
                if fine % 8 == 0 {
                    assert!(draw(&board, &said.said, true).ends_with("</svg>\n"));
                }
                fine += 1;
            }
        }
    }
    assert!(fine > 100 && bad > 100, "{fine} {bad}");
}
