//! The answers for other programs: comma-separated lines, and JSON. docs/BOARD.md tells of both.

use crate::ask::{Answers, Said};
use crate::board::{Board, Splice};
use crate::table::{notes, part_word};
use std::fmt::Write;

fn zone_names<'a>(board: &'a Board, said: &'a Said) -> impl Iterator<Item = &'a str> {
    said.held.iter().flatten().map(|&z| board.zones[z].name.as_str())
}

/// A cell, in quotes where it has to be (RFC 4180).
fn cell(text: &str) -> String {
    if text.contains([',', '"', '\n', '\r']) {
        format!("\"{}\"", text.replace('"', "\"\""))
    } else {
        text.to_string()
    }
}

/// A line for each splice, under a line of names. Zones are set apart by blanks, which no name has.
pub fn csv(board: &Board, answers: &Answers) -> String {
    let mut out = "splice,x,y,zones,part,refused_by,refusal,place,notes\n".to_string();
    for (splice, said) in board.splices.iter().zip(&answers.said) {
        let zones = zone_names(board, said).collect::<Vec<_>>().join(" ");
        let (by, number, place) = match &said.held {
            Ok(_) => (String::new(), String::new(), String::new()),
            Err((z, refusal)) => {
                (board.zones[*z].name.clone(), refusal.number().to_string(), refusal.place().to_string())
            }
        };
        let notes = notes(board, said).join("; ");
        let (x, y) = (splice.place.x.to_string(), splice.place.y.to_string());
        let cells = [splice.name.as_str(), &x, &y, &zones, part_word(said.part), &by, &number, &place, &notes];
        out += &cells.map(cell).join(",");
        out.push('\n');
    }
    out
}

/// A text in quotes (RFC 8259).
fn quoted(text: &str) -> String {
    let mut out = "\"".to_string();
    for c in text.chars() {
        match c {
            '"' => out += "\\\"",
            '\\' => out += "\\\\",
            c if (c as u32) < 0x20 => {
                let _ = write!(out, "\\u{:04x}", c as u32);
            }
            c => out.push(c),
        }
    }
    out + "\""
}

fn list(items: impl Iterator<Item = String>) -> String {
    format!("[{}]", items.collect::<Vec<_>>().join(", "))
}

/// A ring that a splice lies on: 0 is the outline, cut-outs count from 1.
fn ring(board: &Board, (zone, ring): (usize, usize)) -> String {
    format!("{{\"zone\": {}, \"ring\": {ring}}}", quoted(&board.zones[zone].name))
}

fn splice_object(board: &Board, splice: &Splice, said: &Said) -> String {
    let refusal = match &said.held {
        Ok(_) => "null".to_string(),
        Err((z, refusal)) => format!(
            "{{\"zone\": {}, \"number\": {}, \"place\": {}, \"words\": {}}}",
            quoted(&board.zones[*z].name),
            refusal.number(),
            refusal.place(),
            quoted(&refusal.to_string())
        ),
    };
    let on = said.borders.iter().map(|&z| (z, 0)).chain(said.rims.iter().copied());
    format!(
        "{{\"splice\": {}, \"x\": {}, \"y\": {}, \"zones\": {}, \"part\": {}, \"on\": {}, \"written_on\": {}, \"notes\": {}, \"refusal\": {refusal}}}",
        quoted(&splice.name),
        splice.place.x,
        splice.place.y,
        list(zone_names(board, said).map(quoted)),
        quoted(part_word(said.part)),
        list(on.map(|at| ring(board, at))),
        list(said.written.iter().map(|&at| ring(board, at))),
        list(notes(board, said).iter().map(|note| quoted(note)))
    )
}

/// One object: the title, the broken zones, and the splices, one a line.
pub fn json(board: &Board, answers: &Answers) -> String {
    let faults = answers.faults.iter().map(|fault| {
        let (line, words) = fault.words(board);
        let (zone, refusal) = (quoted(&board.zones[fault.zone].name), fault.refusal);
        format!(
            "\n    {{\"zone\": {zone}, \"line\": {line}, \"number\": {}, \"place\": {}, \"words\": {}}}",
            refusal.number(),
            refusal.place(),
            quoted(&words)
        )
    });
    let splices = board
        .splices
        .iter()
        .zip(&answers.said)
        .map(|(splice, said)| format!("\n    {}", splice_object(board, splice, said)));
    format!(
        "{{\n  \"board\": {},\n  \"broken\": {},\n  \"splices\": {}\n}}\n",
        quoted(&board.title),
        list(faults),
        list(splices)
    )
}

#[cfg(test)]
mod tests {
    use super::{cell, quoted};

    #[test]
    fn what_needs_quotes() {
        assert_eq!(cell("plain; text"), "plain; text");
        assert_eq!(cell("a, \"b\""), "\"a, \"\"b\"\"\"");
        assert_eq!(quoted("a \"b\" \\ \u{1} \u{e9}"), "\"a \\\"b\\\" \\\\ \\u0001 \u{e9}\"");
    }
}
