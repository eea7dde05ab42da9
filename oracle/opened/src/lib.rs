//! geometry-rs with the module open.rs behind it, which lets tests see its private items.
//!
//! build.rs puts the source's bytes, unchanged, and open.rs into one file; that file is the module
//! `source` here.

// Where it is published the source is a crate's root and says `crate::next_after`. Here it is a
// module, so the root has that name too, for the same trait.
mod next_after {
    pub(crate) use crate::source::open::NextAfter;
}

// #[path = ".."] mod source;
include!(concat!(env!("OUT_DIR"), "/source.rs"));

pub use source::*;
