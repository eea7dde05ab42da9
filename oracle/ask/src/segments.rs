//! Questions of docs/REPLAY.md on boxes, segments and the whole-number test of a ring, answered by the
//! Rust. A ring that the Rust would take and 01 does not is refused as 01 says, by the model.

use crate::words::{number, refused, yes, Words, Wrong};
use opened::open::{self, Cast};
use opened::{I32Point, Point, Segment};

pub const HELP: &str = "\
raycast AX AY BX BY P | choose_quad BOX BOX
grid_ring COORDINATES POINTS X Y 0|1     eight digits a coordinate";

/// None where the question is of another file.
pub fn answer(question: &str) -> Result<Option<String>, Wrong> {
    let mut words = Words::of(question);
    let answer = match words.word("a question")? {
        "raycast" => raycast(&mut words)?,
        "choose_quad" => {
            let quadrant = open::choose_quad(words.rect()?, words.rect()?);
            quadrant.map_or("stays".into(), |q| number(q as u64))
        }
        "grid_ring" => grid_ring(&mut words)?,
        _ => return Ok(None),
    };
    words.end()?;
    Ok(Some(answer))
}

fn raycast(words: &mut Words) -> Result<String, Wrong> {
    let mut coordinate = || i32::try_from(words.whole("coordinate")?).map_err(|e| e.to_string()).map(f64::from);
    let a = Point { x: coordinate()?, y: coordinate()? };
    let b = Point { x: coordinate()?, y: coordinate()? };
    Ok(match open::raycast(&Segment { a, b }, words.point()?) {
        Cast::Neither => "neither",
        Cast::Inside => "inside",
        Cast::On => "on",
    }
    .into())
}

fn grid_ring(words: &mut Words) -> Result<String, Wrong> {
    let coords = words.coordinates("ring")?;
    let points = words.place("points")?;
    let (x, y) = (words.whole("x")?, words.whole("y")?);
    let edge = words.one_of("edge rule", &["0", "1"])? == 1;
    if let Err(no) = model::ring::ring_grid(&coords, points, x, y, edge) {
        return Ok(refused(no));
    }
    let ring: Vec<I32Point> = coords.chunks_exact(2).map(|c| Point { x: c[0], y: c[1] }).collect();
    Ok(yes(open::ring_test_integer(&ring, Point { x, y }, edge)))
}

#[cfg(test)]
mod tests {
    use super::*;

    /// The example of docs/REPLAY.md.
    #[test]
    fn the_example() {
        let zero = "0".repeat(8);
        for (question, expected) in [
            ("raycast 0 0 0 1 bff0000000000000 7ff8000000000000".to_string(), "inside"),
            ("raycast 0 0 fffffffffffffffe ffffffffffffffff bff0000000000000 bfe0000000000000".into(), "on"),
            (format!("choose_quad 0 0 {0} {0} 0 0 {1} {1}", "4024000000000000", "4014000000000000"), "stays"),
            (
                format!("choose_quad 0 0 {0} {0} {1} {1} {0} {0}", "4024000000000000", "4014000000000000"),
                "0000000000000001",
            ),
            (format!("grid_ring {zero}{zero}0000000200000000ffffffffffffffff{zero}{zero} 4 0 0 1"), "yes"),
            (format!("grid_ring {zero}{zero} 1 0 0 0"), "refused 0000000000000001 0000000000000000"),
        ] {
            assert_eq!(answer(&question), Ok(Some(expected.into())), "{question}");
        }
        assert_eq!(answer("next_up 0"), Ok(None));
    }
}
