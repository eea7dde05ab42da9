//! Whether a point lies in an outline with cut-outs: safe Rust over the proved library.
//!
//! The library stores nothing and allocates nothing; it works in room that it is lent. The types here
//! own that room. They decide nothing: every answer and every refusal is the library's.

/// The bare calls, for programs that lend rooms of their own.
pub mod c;
mod ffi;
mod outline;
mod refusal;
mod ring;
mod rooms;
pub mod row;

pub use outline::{Bounds, BuildOptions, Index, Outline, RingStats, StripeStats};
pub use refusal::Refusal;
pub use ring::{Ring, Stripes, Tree, Turn};

/// How a place is compared with the lines.
#[derive(Clone, Copy, Debug, PartialEq, Eq, Hash)]
pub enum Mode {
    /// In floats, each operation rounded once. Takes any stored coordinate, and uses an index.
    Float,
    /// The scaled place is rounded to whole numbers, then all is exact. Uses no index.
    Integer,
}

/// Whether a place on the outline's own border counts as held. The rim of a cut-out never puts a place
/// out, under either rule.
#[derive(Clone, Copy, Debug, PartialEq, Eq, Hash)]
pub enum Edge {
    Excluded,
    Allowed,
}

impl Mode {
    fn number(self) -> u32 {
        match self {
            Mode::Float => 0,
            Mode::Integer => 1,
        }
    }
}

impl Edge {
    fn number(self) -> u32 {
        match self {
            Edge::Excluded => 0,
            Edge::Allowed => 1,
        }
    }
}
