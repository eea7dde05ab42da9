//! The answers as a table of text.

use crate::ask::{Answers, Part, Said};
use crate::board::Board;
use brothstitch::Mode;

/// The zones' names, in the board's order.
fn names(board: &Board, zones: &[usize]) -> String {
    zones.iter().map(|&z| board.zones[z].name.as_str()).collect::<Vec<_>>().join(", ")
}

pub fn part_word(part: Part) -> &'static str {
    match part {
        Part::Sealed => "sealed",
        Part::Unsealed => "unsealed",
        Part::None => "refused",
    }
}

/// What is to be known of a splice beside its part.
pub fn notes(board: &Board, said: &Said) -> Vec<String> {
    let mut notes = Vec::new();
    if let Err((zone, refusal)) = &said.held {
        notes.push(format!("zone {}: {refusal}", board.zones[*zone].name));
    }
    if !said.borders.is_empty() {
        notes.push(format!("on the border of {}", names(board, &said.borders)));
    }
    for &(zone, ring) in &said.rims {
        notes.push(format!("on the rim of cut-out {ring} of {}", board.zones[zone].name));
    }
    for &(zone, ring) in &said.written {
        let zone = &board.zones[zone];
        let line = match ring {
            0 => format!("the border of {}", zone.name),
            k => format!("the rim of cut-out {k} of {}", zone.name),
        };
        let asked = match zone.mode {
            Mode::Float => "in floats",
            Mode::Integer => "on its grid",
        };
        notes.push(format!("on {line} as written, not {asked}"));
    }
    notes
}

/// Columns as wide as their widest word, two blanks apart, the last as it comes.
fn columns(rows: &[Vec<String>]) -> String {
    let mut widest: Vec<usize> = Vec::new();
    for row in rows {
        widest.resize(row.len().max(widest.len()), 0);
        row.iter().zip(&mut widest).for_each(|(cell, w)| *w = (*w).max(cell.chars().count()));
    }
    let mut text = String::new();
    for row in rows {
        let cells: Vec<String> = row.iter().zip(&widest).map(|(cell, w)| format!("{cell:<w$}")).collect();
        text += cells.join("  ").trim_end();
        text.push('\n');
    }
    text
}

/// How many of the answers pass a test.
pub fn count(said: &[Said], test: impl Fn(&Said) -> bool) -> usize {
    said.iter().filter(|said| test(said)).count()
}

pub fn table(board: &Board, answers: &Answers) -> String {
    let said = &answers.said;
    let head = ["splice", "place", "held by", "part", "notes"].map(String::from).to_vec();
    let mut rows = vec![head.clone(), head.iter().map(|word| "-".repeat(word.len())).collect()];
    for (splice, said) in board.splices.iter().zip(said) {
        let held = match &said.held {
            Ok(zones) if !zones.is_empty() => names(board, zones),
            _ => "-".to_string(),
        };
        let part = part_word(said.part).to_string();
        rows.push(vec![splice.name.clone(), splice.place.to_string(), held, part, notes(board, said).join("; ")]);
    }
    let of = |part| count(said, |said| said.part == part);
    let marked = count(said, |said| !said.borders.is_empty() || !said.rims.is_empty());
    let (sealed, unsealed, refused) = (of(Part::Sealed), of(Part::Unsealed), of(Part::None));
    let all = said.len();
    let broken = match answers.faults.len() {
        0 => String::new(),
        1 => "; 1 zone is broken".to_string(),
        many => format!("; {many} zones are broken"),
    };
    format!(
        "{}\n\n{}\n{all} splices: {sealed} sealed, {unsealed} unsealed, {refused} refused; {marked} on a border or a rim{broken}\n",
        board.title,
        columns(&rows)
    )
}
