//! The inputs that the Rust and the Rattle library are both asked.
//!
//! Every subject has a file with the same three sources: its edges, a fixed list with each limit of
//! docs/01-scope.md and the values on both sides of it; random inputs; and damaged copies of good
//! ones. All of it follows from a seed, so a run can be made again, and each family of a run has
//! random numbers of its own, so a new family leaves the others' inputs as they were.
//!
//! Nothing here knows either side: no file of geometry-rs and no Rattle function is used.

pub mod boxes;
pub mod damage;
pub mod floats;
pub mod lent;
pub mod limits;
pub mod outlines;
pub mod points;
pub mod random;
pub mod rings;
pub mod segments;
pub mod varints;
pub mod wkb;

pub use random::Random;

/// The seed of every run that names no other.
pub const SEED: u64 = 0x0b4c_e53c_5370_0001;
