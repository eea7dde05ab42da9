//! The Rattle library, through the C names of its crate `probe`, one file a layer. A slice goes over as
//! its pointer and its length. A call that can refuse answers 0 or the refusal's number; the rest comes
//! through pointers, for a refusal its place.
//!
//! Every function called here is proved to be total, and to read and write only what it is lent.

mod boxes;
mod numbers;
mod rings;
mod segments;
mod stripes;
mod varints;

pub use boxes::*;
pub use numbers::*;
pub use rings::*;
pub use segments::*;
pub use stripes::*;
pub use varints::*;

/// A refusal's number and place.
pub type Refusal = (u32, u64);

/// What a call that can refuse says: what comes with the answer, or the refusal.
fn said<T>(number: u32, place: usize, with: T) -> Result<T, Refusal> {
    if number == 0 {
        Ok(with)
    } else {
        Err((number, place as u64))
    }
}

/// A call with a refusal's place and one number more.
fn told(call: impl FnOnce(&mut usize, &mut u32) -> u32) -> Result<u32, Refusal> {
    let (mut place, mut with) = (usize::MAX, u32::MAX);
    let number = call(&mut place, &mut with);
    said(number, place, with)
}
