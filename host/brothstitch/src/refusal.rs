//! The refusals of docs/01-scope.md, in words.

use std::error::Error;
use std::fmt;

/// Why the library gave no answer. Rings are numbered from 0, the exterior first; a call on one ring
/// numbers it 0.
#[derive(Clone, Copy, Debug, PartialEq, Eq, Hash)]
pub enum Refusal {
    /// No ring at all (then the ring is 0), or a ring under 2 points.
    TooFew { ring: u64 },
    /// Over 64 rings.
    TooManyRings,
    /// A ring over 4,097 points.
    TooManyPoints { ring: u64 },
    /// The ring sizes do not add up to the coordinates lent.
    SizesDiffer,
    /// A ring's first and last point differ.
    NotClosed { ring: u64 },
    /// The scale is not finite, or not above 0.
    BadScale,
    /// A list was asked for at a height that is not finite.
    BadHeight,
    /// The lent room is too small for what the rules call for.
    NoRoom,
    /// The index is damaged where it was read: the place in the ring's own list, or among its bytes; 0 also
    /// where there is no stripe, or where a part of the index does not lie wholly in its room.
    Damaged { place: u64 },
    /// Well-known binary that ends in a field, or goes on behind the polygon: the first byte of that.
    Ends { byte: u64 },
    /// Well-known binary of another byte order than 0 or 1, or of another type than a polygon.
    Unknown { byte: u64 },
    /// A coordinate of well-known binary that is not a finite number, or not in i32, once it is scaled and rounded.
    Unstored { ring: u64 },
    /// A number in a tree's bytes is not in its shortest form, or is over 64 bits: the place of its first byte among the ring's own bytes.
    Loose { place: u64 },
}

/// The place that refusal 2 gives when there are too many rings.
const MOST_RINGS: u64 = 64;

impl Refusal {
    /// The refusal of a number and a place; none where the number is not one of the table's.
    pub fn of(number: u32, place: u64) -> Option<Refusal> {
        Some(match number {
            1 => Refusal::TooFew { ring: place },
            2 if place == MOST_RINGS => Refusal::TooManyRings,
            2 => Refusal::TooManyPoints { ring: place },
            3 => Refusal::SizesDiffer,
            4 => Refusal::NotClosed { ring: place },
            5 => Refusal::BadScale,
            7 => Refusal::BadHeight,
            8 => Refusal::NoRoom,
            9 => Refusal::Damaged { place },
            10 => Refusal::Ends { byte: place },
            11 => Refusal::Unknown { byte: place },
            12 => Refusal::Unstored { ring: place },
            15 => Refusal::Loose { place },
            _ => return None,
        })
    }

    pub fn number(self) -> u32 {
        match self {
            Refusal::TooFew { .. } => 1,
            Refusal::TooManyRings | Refusal::TooManyPoints { .. } => 2,
            Refusal::SizesDiffer => 3,
            Refusal::NotClosed { .. } => 4,
            Refusal::BadScale => 5,
            Refusal::BadHeight => 7,
            Refusal::NoRoom => 8,
            Refusal::Damaged { .. } => 9,
            Refusal::Ends { .. } => 10,
            Refusal::Unknown { .. } => 11,
            Refusal::Unstored { .. } => 12,
            Refusal::Loose { .. } => 15,
        }
    }

    pub fn place(self) -> u64 {
        match self {
            Refusal::TooManyRings => MOST_RINGS,
            Refusal::TooFew { ring } | Refusal::TooManyPoints { ring } | Refusal::NotClosed { ring } => ring,
            Refusal::Unstored { ring } => ring,
            Refusal::Damaged { place } | Refusal::Loose { place } => place,
            Refusal::Ends { byte } | Refusal::Unknown { byte } => byte,
            Refusal::SizesDiffer | Refusal::BadScale | Refusal::BadHeight | Refusal::NoRoom => 0,
        }
    }
}

impl fmt::Display for Refusal {
    fn fmt(&self, f: &mut fmt::Formatter) -> fmt::Result {
        write!(f, "refusal {}: ", self.number())?;
        match self {
            Refusal::TooFew { ring: 0 } => write!(f, "there is no ring, or ring 0 has fewer than 2 points"),
            Refusal::TooFew { ring } => write!(f, "ring {ring} has fewer than 2 points"),
            Refusal::TooManyRings => write!(f, "there are more than 64 rings"),
            Refusal::TooManyPoints { ring } => write!(f, "ring {ring} has more than 4,097 points"),
            Refusal::SizesDiffer => write!(f, "the ring sizes do not add up to the coordinates"),
            Refusal::NotClosed { ring } => write!(f, "ring {ring} is not closed: its first and last point differ"),
            Refusal::BadScale => write!(f, "the scale is not a finite number above 0"),
            Refusal::BadHeight => write!(f, "the height is not a finite number"),
            Refusal::NoRoom => write!(f, "the room is too small for what is called for"),
            Refusal::Damaged { place } => write!(f, "the index is damaged at place {place}"),
            Refusal::Ends { byte } => write!(f, "the binary ends in the field at byte {byte}, or goes on from there"),
            Refusal::Unknown { byte } => {
                write!(f, "the binary has a byte order or a type at byte {byte} that is not a polygon's")
            }
            Refusal::Unstored { ring } => {
                write!(f, "ring {ring} has a coordinate that, scaled and rounded, is not a number of 32 bits")
            }
            Refusal::Loose { place } => write!(f, "the tree's number at byte {place} is not in its shortest form"),
        }
    }
}

impl Error for Refusal {}

#[cfg(test)]
mod tests {
    use super::Refusal;

    #[test]
    fn numbers_and_places_come_back() {
        for number in [1, 2, 3, 4, 5, 7, 8, 9, 10, 11, 12, 15] {
            for place in [0, 1, 63, 64, 4096] {
                let refusal = Refusal::of(number, place).expect("a number of the table");
                assert_eq!(refusal.number(), number);
                // the table gives these the place 0
                let told = if matches!(number, 3 | 5 | 7 | 8) { 0 } else { place };
                assert_eq!(refusal.place(), told, "refusal {number}");
            }
        }
        // 6 is withdrawn, and given to nothing else
        for number in [0, 6, 13, 14, 16, 99, u32::MAX] {
            assert_eq!(Refusal::of(number, 0), None);
        }
    }

    #[test]
    fn every_refusal_in_words() {
        let words = [
            (1, 0, "refusal 1: there is no ring, or ring 0 has fewer than 2 points"),
            (1, 5, "refusal 1: ring 5 has fewer than 2 points"),
            (2, 64, "refusal 2: there are more than 64 rings"),
            (2, 3, "refusal 2: ring 3 has more than 4,097 points"),
            (3, 0, "refusal 3: the ring sizes do not add up to the coordinates"),
            (4, 1, "refusal 4: ring 1 is not closed: its first and last point differ"),
            (5, 0, "refusal 5: the scale is not a finite number above 0"),
            (7, 0, "refusal 7: the height is not a finite number"),
            (8, 0, "refusal 8: the room is too small for what is called for"),
            (9, 41, "refusal 9: the index is damaged at place 41"),
            (10, 13, "refusal 10: the binary ends in the field at byte 13, or goes on from there"),
            (11, 1, "refusal 11: the binary has a byte order or a type at byte 1 that is not a polygon's"),
            (12, 2, "refusal 12: ring 2 has a coordinate that, scaled and rounded, is not a number of 32 bits"),
            (15, 3, "refusal 15: the tree's number at byte 3 is not in its shortest form"),
        ];
        for (number, place, text) in words {
            assert_eq!(Refusal::of(number, place).expect("a number of the table").to_string(), text);
        }
    }
}
