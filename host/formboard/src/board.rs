//! A board: zones and splices, as a board file gives them.

use crate::decimal::Decimal;
use brothstitch::{Edge, Mode};
use std::fmt;

#[derive(Clone, Copy, Debug, PartialEq, Eq, Hash)]
pub enum Kind {
    Wet,
    Dry,
    Hot,
}

impl Kind {
    pub const ALL: [Kind; 3] = [Kind::Wet, Kind::Dry, Kind::Hot];

    pub fn word(self) -> &'static str {
        match self {
            Kind::Wet => "wet",
            Kind::Dry => "dry",
            Kind::Hot => "hot",
        }
    }
}

pub fn edge_word(edge: Edge) -> &'static str {
    match edge {
        Edge::Excluded => "excluded",
        Edge::Allowed => "allowed",
    }
}

pub fn mode_word(mode: Mode) -> &'static str {
    match mode {
        Mode::Float => "float",
        Mode::Integer => "integer",
    }
}

/// A place in millimetres.
#[derive(Clone, Copy, Debug, PartialEq, Eq)]
pub struct Place {
    pub x: Decimal,
    pub y: Decimal,
}

impl Place {
    pub fn floats(self) -> (f64, f64) {
        (self.x.float(), self.y.float())
    }
}

impl fmt::Display for Place {
    fn fmt(&self, f: &mut fmt::Formatter) -> fmt::Result {
        write!(f, "{},{}", self.x, self.y)
    }
}

/// A ring of a zone, in millimetres for the drawing, and as the numbers that the library is lent.
#[derive(Clone, Debug, Default, PartialEq)]
pub struct Ring {
    /// The line of the file that begins it.
    pub line: usize,
    pub places: Vec<Place>,
    pub stored: Vec<(i32, i32)>,
}

#[derive(Clone, Debug, PartialEq)]
pub struct Zone {
    /// The line of the file that begins it.
    pub line: usize,
    pub name: String,
    pub kind: Kind,
    pub edge: Edge,
    pub mode: Mode,
    pub scale: Decimal,
    /// The outline, then its cut-outs.
    pub rings: Vec<Ring>,
}

#[derive(Clone, Debug, PartialEq)]
pub struct Splice {
    pub name: String,
    pub place: Place,
}

#[derive(Clone, Debug, PartialEq)]
pub struct Board {
    pub title: String,
    pub zones: Vec<Zone>,
    pub splices: Vec<Splice>,
}
