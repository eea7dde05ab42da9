//! Each call of the C interface as a safe function on slices: all of the unsafe code of this crate.
//!
//! The library is proved to take any numbers and any slices, to read and write only what it is lent, and
//! to set `value` at every call. So a call is safe as long as every slice goes over as its own pointer
//! and its own length, which is all that this file does.

use crate::ring::Turn;
use crate::{c, Refusal};

/// One ring as it is lent: its coordinates, two a point, and its point count.
#[derive(Clone, Copy)]
pub struct Lent<'a> {
    pub coords: &'a [i32],
    pub points: usize,
}

/// What a call says where it does not refuse.
pub struct Said {
    pub yes: bool,
    pub value: u64,
}

/// Makes the call, and reads what it returned: 0 or 1, or 100 and the refusal's number.
fn said(call: impl FnOnce(*mut u64) -> u32) -> Result<Said, Refusal> {
    let mut value = 0;
    match call(&mut value) {
        0 => Ok(Said { yes: false, value }),
        1 => Ok(Said { yes: true, value }),
        code => Err(refusal(code, value)),
    }
}

fn refusal(code: u32, value: u64) -> Refusal {
    code.checked_sub(100)
        .and_then(|number| Refusal::of(number, value))
        .unwrap_or_else(|| panic!("the library returned {code}, which its interface does not have"))
}

#[rustfmt::skip]
pub fn list_scan(ring: Lent, y: f64, out: &mut [u32]) -> Result<Said, Refusal> {
    said(|value| unsafe {
        c::brothstitch_list_scan(
            ring.coords.as_ptr(), ring.coords.len(), ring.points, y, out.as_mut_ptr(), out.len(), value,
        )
    })
}

/// A stripe index of one ring, whoever wrote it.
#[derive(Clone, Copy)]
pub struct LentStripes<'a> {
    pub least: f64,
    pub height: f64,
    pub stripes: &'a [u32],
    pub list: &'a [u32],
}

#[rustfmt::skip]
pub fn list_stripes(ring: Lent, index: LentStripes, y: f64, out: &mut [u32]) -> Result<Said, Refusal> {
    let LentStripes { least, height, stripes, list } = index;
    said(|value| unsafe {
        c::brothstitch_list_stripes(
            ring.coords.as_ptr(), ring.coords.len(), ring.points, least, height,
            stripes.as_ptr(), stripes.len(), list.as_ptr(), list.len(), y, out.as_mut_ptr(), out.len(), value,
        )
    })
}

#[rustfmt::skip]
pub fn list_tree(ring: Lent, bytes: &[u8], y: f64, out: &mut [u32]) -> Result<Said, Refusal> {
    said(|value| unsafe {
        c::brothstitch_list_tree(
            ring.coords.as_ptr(), ring.coords.len(), ring.points, bytes.as_ptr(), bytes.len(), y,
            out.as_mut_ptr(), out.len(), value,
        )
    })
}

#[rustfmt::skip]
pub fn ring_scan(ring: Lent, x: f64, y: f64, edge: u32) -> Result<Said, Refusal> {
    said(|value| unsafe {
        c::brothstitch_ring_scan(ring.coords.as_ptr(), ring.coords.len(), ring.points, x, y, edge, value)
    })
}

#[rustfmt::skip]
pub fn ring_stripes(ring: Lent, index: LentStripes, x: f64, y: f64, edge: u32) -> Result<Said, Refusal> {
    let LentStripes { least, height, stripes, list } = index;
    said(|value| unsafe {
        c::brothstitch_ring_stripes(
            ring.coords.as_ptr(), ring.coords.len(), ring.points, least, height,
            stripes.as_ptr(), stripes.len(), list.as_ptr(), list.len(), x, y, edge, value,
        )
    })
}

#[rustfmt::skip]
pub fn ring_tree(ring: Lent, bytes: &[u8], x: f64, y: f64, edge: u32) -> Result<Said, Refusal> {
    said(|value| unsafe {
        c::brothstitch_ring_tree(
            ring.coords.as_ptr(), ring.coords.len(), ring.points, bytes.as_ptr(), bytes.len(), x, y, edge, value,
        )
    })
}

#[rustfmt::skip]
pub fn ring_grid(ring: Lent, x: i64, y: i64, edge: u32) -> Result<Said, Refusal> {
    said(|value| unsafe {
        c::brothstitch_ring_grid(ring.coords.as_ptr(), ring.coords.len(), ring.points, x, y, edge, value)
    })
}

pub fn turn(ring: Lent) -> Result<Turn, Refusal> {
    let mut value = 0;
    match unsafe { c::brothstitch_turn(ring.coords.as_ptr(), ring.coords.len(), ring.points, &mut value) } {
        0 => Ok(Turn::Clockwise),
        1 => Ok(Turn::Anticlockwise),
        2 => Ok(Turn::None),
        code => Err(refusal(code, value)),
    }
}

/// The rooms of a stripe build: least and height go to `span`, the four statistics to `stats`.
pub struct StripeRooms<'a> {
    pub stripes: &'a mut [u32],
    pub list: &'a mut [u32],
    pub span: &'a mut [f64; 2],
    pub stats: &'a mut [u64; 4],
}

#[rustfmt::skip]
pub fn build_stripes(ring: Lent, threshold: usize, rooms: StripeRooms) -> Result<Said, Refusal> {
    let StripeRooms { stripes, list, span, stats } = rooms;
    said(|value| unsafe {
        c::brothstitch_build_stripes(
            ring.coords.as_ptr(), ring.coords.len(), ring.points, threshold,
            stripes.as_mut_ptr(), stripes.len(), list.as_mut_ptr(), list.len(),
            span.as_mut_ptr(), span.len(), stats.as_mut_ptr(), stats.len(), value,
        )
    })
}

#[rustfmt::skip]
pub fn build_tree(ring: Lent, threshold: usize, bytes: &mut [u8], work: &mut [u32]) -> Result<Said, Refusal> {
    said(|value| unsafe {
        c::brothstitch_build_tree(
            ring.coords.as_ptr(), ring.coords.len(), ring.points, threshold,
            bytes.as_mut_ptr(), bytes.len(), work.as_mut_ptr(), work.len(), value,
        )
    })
}

/// All rings of an outline: the point count of each, and their coordinates one after the other.
#[derive(Clone, Copy)]
pub struct LentRings<'a> {
    pub sizes: &'a [u32],
    pub coords: &'a [i32],
}

#[rustfmt::skip]
pub fn make(rings: LentRings, scale: f64, mode: u32, boxes: &mut [i32]) -> Result<Said, Refusal> {
    said(|value| unsafe {
        c::brothstitch_make(
            rings.sizes.as_ptr(), rings.sizes.len(), rings.coords.as_ptr(), rings.coords.len(), scale, mode,
            boxes.as_mut_ptr(), boxes.len(), value,
        )
    })
}

/// Reads an outline from well-known binary; answers how many rings and how many numbers there are.
#[rustfmt::skip]
pub fn read_wkb(bytes: &[u8], scale: f64, sizes: &mut [u32], coords: &mut [i32]) -> Result<(u64, u64), Refusal> {
    let mut numbers = 0;
    let told = said(|value| unsafe {
        c::brothstitch_read_wkb(
            bytes.as_ptr(), bytes.len(), scale, sizes.as_mut_ptr(), sizes.len(), coords.as_mut_ptr(), coords.len(),
            &mut numbers, value,
        )
    });
    told.map(|told| (told.value, numbers))
}

/// The rooms of a build of all rings.
pub struct IndexRooms<'a> {
    pub table: &'a mut [u64],
    pub spans: &'a mut [f64],
    pub stripes: &'a mut [u32],
    pub list: &'a mut [u32],
    pub bytes: &'a mut [u8],
    pub work: &'a mut [u32],
}

#[rustfmt::skip]
pub fn build(rings: LentRings, options: u32, threshold: usize, rooms: IndexRooms) -> Result<Said, Refusal> {
    let IndexRooms { table, spans, stripes, list, bytes, work } = rooms;
    said(|value| unsafe {
        c::brothstitch_build(
            rings.sizes.as_ptr(), rings.sizes.len(), rings.coords.as_ptr(), rings.coords.len(), options, threshold,
            table.as_mut_ptr(), table.len(), spans.as_mut_ptr(), spans.len(),
            stripes.as_mut_ptr(), stripes.len(), list.as_mut_ptr(), list.len(),
            bytes.as_mut_ptr(), bytes.len(), work.as_mut_ptr(), work.len(), value,
        )
    })
}

/// The indexes of all rings, whoever wrote them.
#[derive(Clone, Copy)]
pub struct LentIndex<'a> {
    pub table: &'a [u64],
    pub spans: &'a [f64],
    pub stripes: &'a [u32],
    pub list: &'a [u32],
    pub bytes: &'a [u8],
}

/// What is asked of an outline.
#[derive(Clone, Copy)]
pub struct Asked {
    pub scale: f64,
    pub mode: u32,
    pub x: f64,
    pub y: f64,
    pub edge: u32,
}

#[rustfmt::skip]
pub fn inside(rings: LentRings, boxes: &[i32], index: LentIndex, asked: Asked) -> Result<Said, Refusal> {
    let LentIndex { table, spans, stripes, list, bytes } = index;
    let Asked { scale, mode, x, y, edge } = asked;
    said(|value| unsafe {
        c::brothstitch_inside(
            rings.sizes.as_ptr(), rings.sizes.len(), rings.coords.as_ptr(), rings.coords.len(),
            boxes.as_ptr(), boxes.len(), scale, mode,
            table.as_ptr(), table.len(), spans.as_ptr(), spans.len(),
            stripes.as_ptr(), stripes.len(), list.as_ptr(), list.len(),
            bytes.as_ptr(), bytes.len(), x, y, edge, value,
        )
    })
}

#[rustfmt::skip]
pub fn inside_plain(rings: LentRings, asked: Asked) -> Result<Said, Refusal> {
    let Asked { scale, mode, x, y, edge } = asked;
    said(|value| unsafe {
        c::brothstitch_inside_plain(
            rings.sizes.as_ptr(), rings.sizes.len(), rings.coords.as_ptr(), rings.coords.len(), scale, mode,
            x, y, edge, value,
        )
    })
}
