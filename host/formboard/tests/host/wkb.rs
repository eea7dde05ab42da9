//! A zone's outline out of a file of well-known binary, beside the board.

use crate::{file, run, text};
use std::env;
use std::fs;

/// H as GEOS wrote it, in the given byte order, in hexadecimal.
fn hexadecimal(order: &str) -> String {
    let files = file("oracle/geos/polygons.txt");
    let line = files.lines().find(|line| line.starts_with(&format!("H, {order}"))).expect("the file has it");
    line.rsplit('|').next().expect("hexadecimal").trim().to_string()
}

fn binary(digits: &str) -> Vec<u8> {
    (0..digits.len() / 2).map(|i| u8::from_str_radix(&digits[2 * i..2 * i + 2], 16).expect("digits")).collect()
}

#[test]
fn a_zone_out_of_a_file() {
    let folder = env::temp_dir().join(format!("formboard-wkb-{}", std::process::id()));
    fs::create_dir_all(&folder).expect("a folder");
    let start = "zone h wet\nedge excluded\nmode float\nscale 1\n";
    let splices = "splice out 5,5\nsplice in 1,1\n";
    let plain = format!("{start}outline 0,0 10,0 10,10 0,10 0,0\ncut-out 2,2 8,2 8,8 2,8 2,2\n{splices}");
    let files = [
        ("text.wkb", hexadecimal("big endian").into_bytes()),
        ("bytes.wkb", binary(&hexadecimal("little endian"))),
        ("cut.wkb", binary(&hexadecimal("little endian"))[..100].to_vec()),
    ];
    for (name, content) in &files {
        fs::write(folder.join(name), content).expect("a file");
    }
    let said = |name: &str, board: &str| {
        let at = folder.join(name);
        fs::write(&at, board).expect("a board");
        let ran = run(env!("CARGO_BIN_EXE_formboard"), &[at.to_str().expect("a name")]);
        (ran.status.code(), text(&ran.stdout).to_string(), text(&ran.stderr).to_string())
    };
    let expected = said("plain.board", &plain);
    assert_eq!(expected.2, "");
    assert_eq!(said("text.board", &format!("{start}wkb text.wkb\n{splices}")), expected);
    assert_eq!(said("bytes.board", &format!("{start}wkb bytes.wkb\n{splices}")), expected);
    let told = |file: &str| said("bad.board", &format!("{start}wkb {file}\n{splices}"));
    let (code, _, error) = told("cut.wkb");
    assert_eq!(code, Some(2));
    assert!(
        error.contains("line 5: expected a file with a polygon in well-known binary, found cut.wkb: refusal 10"),
        "{error}"
    );
    assert!(told("none.wkb").2.contains("none.wkb, which cannot be read"));
    fs::remove_dir_all(&folder).expect("the folder goes");
}
