//! The boards of the repository: their tables, drawings and lessons are what the host makes today.

use crate::{file, formboard, path, run, text};
use std::env;
use std::fs;

/// A board with the options that its picture is drawn with, and whether a splice is refused.
const PICTURES: [(&str, &[&str], i32); 5] = [
    ("engine-bay", &[], 0),
    ("lesson-border", &[], 0),
    ("lesson-index", &["--index", "stripes", "--damage", "fins:list:269:9999", "--rays"], 1),
    ("lesson-tests", &[], 0),
    ("lesson-decimal", &[], 0),
];

fn table(board: &str, options: &[&str], status: i32) -> String {
    let ran = formboard(&[options, &[&format!("{board}.board")]].concat());
    assert_eq!(ran.status.code(), Some(status), "{board}: {}", text(&ran.stderr));
    text(&ran.stdout).to_string()
}

#[test]
fn the_table_of_the_engine_bay() {
    assert_eq!(table("engine-bay", &[], 0), file("host/boards/engine-bay.table"));
}

/// The answers do not hang on the index.
#[test]
fn one_table_with_every_index() {
    for (board, ..) in PICTURES {
        let scanned = table(board, &["--index", "none"], 0);
        for index in ["stripes", "tree", "both"] {
            for from in ["0", "24", "64", "5000"] {
                assert_eq!(table(board, &["--index", index, "--from", from], 0), scanned, "{board} {index} {from}");
            }
        }
    }
}

#[test]
fn drawings_are_those_that_docs_show() {
    for (board, options, status) in PICTURES {
        let drawn = env::temp_dir().join(format!("{board}-{}.svg", std::process::id()));
        let name = drawn.to_str().expect("a folder with a plain name");
        table(board, &[options, &["--draw", name]].concat(), status);
        let svg = fs::read_to_string(&drawn).expect("the drawing was written");
        fs::remove_file(&drawn).expect("the drawing can be removed");
        assert!(svg == file(&format!("docs/pictures/{board}.svg")), "{board}: run `make pictures` and look at them");
    }
}

/// Each line of what is printed stands in the page, in order and without a gap, as a block of code.
fn shows(page: &str, printed: &str) {
    let block: String =
        printed.trim_end().lines().map(|line| format!("    {line}").trim_end().to_string() + "\n").collect();
    assert!(file(page).contains(&block), "{page} does not show:\n{block}");
}

/// The rows of a table, without title and count.
fn rows(table: &str) -> &str {
    table.split("\n\n").nth(1).expect("a table has rows")
}

#[test]
fn lessons_show_what_the_host_says() {
    shows("docs/lessons/1-the-border.md", rows(&table("lesson-border", &[], 0)));
    let (_, damage, status) = PICTURES[2];
    shows("docs/lessons/2-the-index.md", rows(&table("lesson-index", &["--index", "stripes"], 0)));
    shows("docs/lessons/2-the-index.md", rows(&table("lesson-index", damage, status)));
    let ran = run(env!("CARGO_BIN_EXE_one_number"), &["lesson-index.board"]);
    assert!(ran.status.success());
    shows("docs/lessons/2-the-index.md", text(&ran.stdout));
    shows("docs/lessons/3-the-two-tests.md", rows(&table("lesson-tests", &[], 0)));
    shows("docs/lessons/4-the-decimal.md", rows(&table("lesson-decimal", &[], 0)));
}

#[test]
fn pages_link_to_what_is_there() {
    for page in [
        "docs/BOARD.md",
        "docs/lessons/1-the-border.md",
        "docs/lessons/2-the-index.md",
        "docs/lessons/3-the-two-tests.md",
        "docs/lessons/4-the-decimal.md",
    ] {
        let folder = path(page).parent().expect("a page is in a folder").to_path_buf();
        for link in file(page).split("](").skip(1) {
            let link = link.split(')').next().expect("a link ends");
            assert!(link.starts_with("http") || folder.join(link).exists(), "{page}: {link}");
        }
    }
}
