//! The numbers of a ring's row in an index's table, by their place in the row: the names of include/brothstitch.h.

pub const SEGMENTS: usize = 0;
/// 1 if an index was asked for and the ring is below the threshold.
pub const UNDER: usize = 1;
/// Bit 0 stripes, bit 1 a tree.
pub const KINDS: usize = 2;
pub const STRIPES_START: usize = 3;
/// How many stripes; each is two numbers.
pub const STRIPES: usize = 4;
pub const LIST_START: usize = 5;
pub const ENTRIES: usize = 6;
/// Entries of the fullest stripe.
pub const FULLEST: usize = 7;
pub const BYTES_START: usize = 8;
pub const BYTES: usize = 9;
/// How many numbers a row has.
pub const NUMBERS: usize = 10;
