//! Questions of docs/REPLAY.md on numbers and varints, answered by the Rust. Where the Rust has no
//! refusal and no lent room, the answer has those of docs/01-scope.md.

use crate::words::{bytes, float, number, refused, Words, Wrong};
use opened::open;

pub const HELP: &str = "\
next_up F | floor F | round F | sqrt F
read_uvarint BYTES AT END | append_uvarint ROOM AT N | uvarint_len N";

/// None where the question is of another file.
pub fn answer(question: &str) -> Result<Option<String>, Wrong> {
    let mut words = Words::of(question);
    let answer = match words.word("a question")? {
        "next_up" => float(open::next_up(words.float("x")?)),
        "floor" => number(words.float("x")?.floor() as i64 as u64),
        "round" => number(words.float("x")?.round() as i64 as u64),
        "sqrt" => float(words.float("x")?.sqrt()),
        "read_uvarint" => read(&words.bytes("bytes")?, words.place("place")?, words.place("end")?),
        "append_uvarint" => append(words.bytes("room")?, words.place("place")?, words.number("number")?),
        "uvarint_len" => number(encoded(words.number("number")?).len() as u64),
        _ => return Ok(None),
    };
    words.end()?;
    Ok(Some(answer))
}

/// The Rust reads to the end of its data, so it is given the part. It finds a number or none; a form that is loose, which it takes, has the model's
/// refusal 15 (CR 6).
fn read(data: &[u8], at: usize, end: usize) -> String {
    let part = &data[..end.min(data.len())];
    match (open::read_uvarint(part, at), model::varint::read(part, at)) {
        (Some(_), Err(no)) => {
            assert_eq!(no.0, 15, "the Rust reads what the model refuses otherwise");
            refused(no)
        }
        (Some((x, next)), Ok(_)) => format!("{} {}", number(x), number(next as u64)),
        (None, _) => refused((9, at as u64)),
    }
}

/// The Rust's bytes behind what stood before the place, and zeros; or refusal 8 and zeros only.
fn append(mut room: Vec<u8>, at: usize, x: u64) -> String {
    let written = encoded(x);
    let end = at.checked_add(written.len()).filter(|&end| end <= room.len());
    room[end.map_or(0, |_| at)..].fill(0);
    let Some(end) = end else { return format!("{} {}", refused((8, 0)), bytes(&room)) };
    room[at..end].copy_from_slice(&written);
    format!("{} {}", number(end as u64), bytes(&room))
}

fn encoded(x: u64) -> Vec<u8> {
    let mut out = Vec::new();
    open::append_uvarint(&mut out, x);
    out
}

#[cfg(test)]
mod tests {
    use super::*;

    /// The example of docs/REPLAY.md.
    #[test]
    fn the_example() {
        for (question, expected) in [
            ("next_up bff0000000000000", "bfefffffffffffff"),
            ("read_uvarint ac02 0 2", "000000000000012c 0000000000000002"),
            ("read_uvarint 8000 0 2", "refused 000000000000000f 0000000000000000"),
            ("read_uvarint 80808080808080808080 0 a", "refused 0000000000000009 0000000000000000"),
            ("append_uvarint ffffffff 1 12c", "0000000000000003 ffac0200"),
            ("append_uvarint ffff 1 12c", "refused 0000000000000008 0000000000000000 0000"),
            ("next_up 7ff8000000000000", "nan"),
        ] {
            assert_eq!(answer(question), Ok(Some(expected.into())), "{question}");
        }
        assert_eq!(answer("what 1"), Ok(None));
    }
}
