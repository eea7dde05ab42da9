//! The page, and where on it a place of the board goes. All lengths are millimetres of paper.

use crate::board::Board;

/// A4, lying.
pub const WIDTH: f64 = 297.0;
pub const HEIGHT: f64 = 210.0;

/// The frame that the board is drawn in.
pub const FRAME: Box = Box { x0: 21.0, y0: 24.0, x1: 219.0, y1: 190.0 };

/// Left edge of the legend.
pub const LEGEND: f64 = 226.0;

#[derive(Clone, Copy, Debug, PartialEq)]
pub struct At {
    pub x: f64,
    pub y: f64,
}

/// A box with its sides along the page's.
#[derive(Clone, Copy, Debug, PartialEq)]
pub struct Box {
    pub x0: f64,
    pub y0: f64,
    pub x1: f64,
    pub y1: f64,
}

impl Box {
    pub fn around(at: At, half_width: f64, half_height: f64) -> Box {
        Box { x0: at.x - half_width, y0: at.y - half_height, x1: at.x + half_width, y1: at.y + half_height }
    }

    pub fn grown(self, by: f64) -> Box {
        Box { x0: self.x0 - by, y0: self.y0 - by, x1: self.x1 + by, y1: self.y1 + by }
    }

    /// The box round two boxes.
    pub fn with(self, other: Box) -> Box {
        Box {
            x0: self.x0.min(other.x0),
            y0: self.y0.min(other.y0),
            x1: self.x1.max(other.x1),
            y1: self.y1.max(other.y1),
        }
    }

    pub fn middle(self) -> At {
        At { x: (self.x0 + self.x1) / 2.0, y: (self.y0 + self.y1) / 2.0 }
    }

    /// The area that two boxes share.
    pub fn shared(self, other: Box) -> f64 {
        let width = self.x1.min(other.x1) - self.x0.max(other.x0);
        let height = self.y1.min(other.y1) - self.y0.max(other.y0);
        width.max(0.0) * height.max(0.0)
    }

    pub fn holds(self, other: Box) -> bool {
        self.x0 <= other.x0 && self.y0 <= other.y0 && other.x1 <= self.x1 && other.y1 <= self.y1
    }

    /// The place of the box that is nearest to a place.
    pub fn nearest(self, at: At) -> At {
        At { x: at.x.clamp(self.x0, self.x1), y: at.y.clamp(self.y0, self.y1) }
    }
}

/// How the board is laid on the frame: x goes right and y goes up.
#[derive(Clone, Copy, Debug)]
pub struct View {
    middle: (f64, f64),
    /// Millimetres of paper for one of the board.
    pub factor: f64,
}

impl View {
    pub fn of(board: &Board) -> View {
        let rings = board.zones.iter().flat_map(|zone| &zone.rings).flat_map(|ring| &ring.places);
        let places = rings.chain(board.splices.iter().map(|splice| &splice.place)).map(|place| place.floats());
        let all: Vec<(f64, f64)> = places.collect();
        let span = |pick: fn(&(f64, f64)) -> f64| {
            let least = all.iter().map(pick).fold(f64::INFINITY, f64::min);
            let most = all.iter().map(pick).fold(f64::NEG_INFINITY, f64::max);
            ((least + most) / 2.0, most - least)
        };
        let ((x, width), (y, height)) = (span(|p| p.0), span(|p| p.1));
        let least = (width.max(height) / 1000.0).max(0.001);
        // a margin for marks and names
        let fit = |paper: f64, board: f64| (paper - 16.0) / board.max(least);
        let factor = fit(FRAME.x1 - FRAME.x0, width).min(fit(FRAME.y1 - FRAME.y0, height));
        View { middle: (x, y), factor }
    }

    pub fn at(&self, (x, y): (f64, f64)) -> At {
        let middle = FRAME.middle();
        At { x: middle.x + (x - self.middle.0) * self.factor, y: middle.y - (y - self.middle.1) * self.factor }
    }

    /// What of the board the frame shows: least and greatest x, then y.
    pub fn shown(&self) -> [(f64, f64); 2] {
        let half = |a: f64, b: f64| (b - a) / 2.0 / self.factor;
        let (w, h) = (half(FRAME.x0, FRAME.x1), half(FRAME.y0, FRAME.y1));
        [(self.middle.0 - w, self.middle.0 + w), (self.middle.1 - h, self.middle.1 + h)]
    }

    /// A step between grid lines that reads well: 1, 2 or 5 with zeros, at least so far apart on paper. The
    /// second number says how many decimals it has.
    pub fn step(&self, apart: f64) -> (f64, usize) {
        let least = apart / self.factor;
        let mut unit = 1.0;
        let mut decimals = 0;
        while unit > least && decimals < 9 {
            unit /= 10.0;
            decimals += 1;
        }
        while unit * 10.0 < least {
            unit *= 10.0;
        }
        let step = [1.0, 2.0, 5.0, 10.0].iter().map(|m| m * unit).find(|&step| step >= least);
        (step.unwrap_or(10.0 * unit), decimals)
    }
}

/// A length with at most two decimals, and without zeros that say nothing.
pub fn n(value: f64) -> String {
    let text = format!("{value:.2}");
    let text = text.trim_end_matches('0').trim_end_matches('.');
    if text == "-0" { "0" } else { text }.to_string()
}

/// Text as SVG takes it.
pub fn escaped(text: &str) -> String {
    let mut out = String::new();
    for c in text.chars() {
        match c {
            '&' => out += "&amp;",
            '<' => out += "&lt;",
            '>' => out += "&gt;",
            '"' => out += "&quot;",
            _ => out.push(c),
        }
    }
    out
}

/// How wide a text is at most, in a bold sans serif of that size.
pub fn text_width(text: &str, size: f64) -> f64 {
    let wide = |c: char| match c {
        'i' | 'j' | 'l' | 'I' | '.' | ',' | '-' | ' ' | 't' | 'f' | 'r' | '/' => 0.45,
        'W' => 1.13,
        'm' | 'w' | 'M' => 1.05,
        c if c.is_lowercase() || c.is_ascii_digit() => 0.68,
        _ => 0.78,
    };
    text.chars().map(wide).sum::<f64>() * size
}
