//! Names on a crowded board: each stands at the first place that is free, or not at all.

use super::names::Name;
use super::page::{Box, FRAME};

/// Boxes by the squares of the page that they reach into, so that only near ones are looked at.
struct Squares {
    across: usize,
    squares: Vec<Vec<Box>>,
}

/// A square's side.
const SIDE: f64 = 6.0;

impl Squares {
    fn new() -> Squares {
        let count = |from: f64, to: f64| ((to - from) / SIDE) as usize + 1;
        let (across, down) = (count(FRAME.x0, FRAME.x1), count(FRAME.y0, FRAME.y1));
        Squares { across, squares: vec![Vec::new(); across * down] }
    }

    /// The squares that a box reaches into; what lies off the frame counts to the squares at its edge.
    fn of(&self, area: Box) -> impl Iterator<Item = usize> {
        let (across, down) = (self.across, self.squares.len() / self.across);
        let square = |v: f64, from: f64, count: usize| (((v - from) / SIDE).max(0.0) as usize).min(count - 1);
        let columns = square(area.x0, FRAME.x0, across)..=square(area.x1, FRAME.x0, across);
        let rows = square(area.y0, FRAME.y0, down)..=square(area.y1, FRAME.y0, down);
        rows.flat_map(move |row| columns.clone().map(move |column| row * across + column))
    }

    fn put(&mut self, area: Box) {
        for square in self.of(area) {
            self.squares[square].push(area);
        }
    }

    fn free(&self, area: Box) -> bool {
        self.of(area).all(|square| self.squares[square].iter().all(|other| area.shared(*other) == 0.0))
    }
}

/// The names that find room, clear of all marks, of names before them, and of what is drawn already.
pub fn crowded_names(names: &[Name], taken: &[Box]) -> Vec<Option<Box>> {
    let mut squares = Squares::new();
    taken.iter().copied().chain(names.iter().map(Name::mark)).for_each(|area| squares.put(area));
    let mut place = |name: &Name| {
        let area = name.near_boxes().find(|area| FRAME.holds(*area) && squares.free(*area))?;
        squares.put(area);
        Some(area)
    };
    names.iter().map(&mut place).collect()
}
