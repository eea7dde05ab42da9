//! The limits of docs/01-scope.md.

pub const RINGS: usize = 64;
pub const LEAST_POINTS: usize = 2;
pub const MOST_POINTS: usize = 4097;
pub const MOST_SEGMENTS: usize = MOST_POINTS - 1;
/// Where coordinates and place are from minus this to this, no product of the Rust's whole-number test wraps.
pub const UNWRAPPED: i32 = 1_073_741_823;
/// Q_MAX_ITEMS
pub const LEAF: usize = 12;
/// Q_MAX_DEPTH
pub const DEPTH: usize = 64;
pub const THRESHOLD: usize = 64;
pub const LEAST_STRIPES: usize = 32;
pub const MOST_STRIPES: usize = 65_536;
pub const VARINT_BYTES: usize = 10;
