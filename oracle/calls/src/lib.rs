//! The library's C interface (include/brothstitch.h), called on slices and with the model's types, so that
//! one question can be put to both. Every function called here is proved to be total, and to read and
//! write only what it is lent.

use model::outline::{Asked, Indexes, Options, Rings, Rooms};
use model::ring::Turn;
use model::stripes::Index;
use model::{Answer, Count, No};

#[rustfmt::skip]
mod c {
    extern "C" {
        pub fn brothstitch_list_scan(
            coords: *const i32, coords_len: usize, points: usize, y: f64, out: *mut u32, out_len: usize, value: *mut u64,
        ) -> u32;
        pub fn brothstitch_list_stripes(
            coords: *const i32, coords_len: usize, points: usize, least: f64, height: f64, stripes: *const u32,
            stripes_len: usize, list: *const u32, list_len: usize, y: f64, out: *mut u32, out_len: usize, value: *mut u64,
        ) -> u32;
        pub fn brothstitch_list_tree(
            coords: *const i32, coords_len: usize, points: usize, bytes: *const u8, bytes_len: usize, y: f64, out: *mut u32,
            out_len: usize, value: *mut u64,
        ) -> u32;
        pub fn brothstitch_ring_scan(
            coords: *const i32, coords_len: usize, points: usize, x: f64, y: f64, edge: u32, value: *mut u64,
        ) -> u32;
        pub fn brothstitch_ring_stripes(
            coords: *const i32, coords_len: usize, points: usize, least: f64, height: f64, stripes: *const u32,
            stripes_len: usize, list: *const u32, list_len: usize, x: f64, y: f64, edge: u32, value: *mut u64,
        ) -> u32;
        pub fn brothstitch_ring_tree(
            coords: *const i32, coords_len: usize, points: usize, bytes: *const u8, bytes_len: usize, x: f64, y: f64,
            edge: u32, value: *mut u64,
        ) -> u32;
        pub fn brothstitch_ring_grid(
            coords: *const i32, coords_len: usize, points: usize, x: i64, y: i64, edge: u32, value: *mut u64,
        ) -> u32;
        pub fn brothstitch_turn(coords: *const i32, coords_len: usize, points: usize, value: *mut u64) -> u32;
        pub fn brothstitch_build_stripes(
            coords: *const i32, coords_len: usize, points: usize, threshold: usize, stripes: *mut u32, stripes_len: usize,
            list: *mut u32, list_len: usize, span: *mut f64, span_len: usize, stats: *mut u64, stats_len: usize,
            value: *mut u64,
        ) -> u32;
        pub fn brothstitch_build_tree(
            coords: *const i32, coords_len: usize, points: usize, threshold: usize, bytes: *mut u8, bytes_len: usize,
            work: *mut u32, work_len: usize, value: *mut u64,
        ) -> u32;
        pub fn brothstitch_make(
            sizes: *const u32, sizes_len: usize, coords: *const i32, coords_len: usize, scale: f64, mode: u32,
            boxes: *mut i32, boxes_len: usize, value: *mut u64,
        ) -> u32;
        pub fn brothstitch_read_wkb(
            bytes: *const u8, bytes_len: usize, scale: f64, sizes: *mut u32, sizes_len: usize, coords: *mut i32,
            coords_len: usize, numbers: *mut u64, value: *mut u64,
        ) -> u32;
        pub fn brothstitch_build(
            sizes: *const u32, sizes_len: usize, coords: *const i32, coords_len: usize, options: u32, threshold: usize,
            table: *mut u64, table_len: usize, spans: *mut f64, spans_len: usize, stripes: *mut u32, stripes_len: usize,
            list: *mut u32, list_len: usize, bytes: *mut u8, bytes_len: usize, work: *mut u32, work_len: usize,
            value: *mut u64,
        ) -> u32;
        pub fn brothstitch_inside(
            sizes: *const u32, sizes_len: usize, coords: *const i32, coords_len: usize, boxes: *const i32, boxes_len: usize,
            scale: f64, mode: u32, table: *const u64, table_len: usize, spans: *const f64, spans_len: usize,
            stripes: *const u32, stripes_len: usize, list: *const u32, list_len: usize, bytes: *const u8, bytes_len: usize,
            x: f64, y: f64, edge: u32, value: *mut u64,
        ) -> u32;
        pub fn brothstitch_inside_plain(
            sizes: *const u32, sizes_len: usize, coords: *const i32, coords_len: usize, scale: f64, mode: u32,
            x: f64, y: f64, edge: u32, value: *mut u64,
        ) -> u32;
    }
}

/// What a call says: yes or built, and its value; or a refusal's number and place.
pub type Said = Result<(bool, u64), No>;

/// The same of the model's answers.
pub fn answer(model: Answer) -> Said {
    model.map(|yes| (yes, 0))
}

pub fn count(model: Count) -> Said {
    model.map(|n| (false, n))
}

/// Of a build of one ring: nothing under the threshold.
pub fn built(model: Result<Option<u64>, No>) -> Said {
    model.map(|n| (n.is_some(), n.unwrap_or(0)))
}

/// What a call returns, and its value. A call has to set the value, whatever it was.
fn returned(call: impl FnOnce(*mut u64) -> u32) -> (u32, u64) {
    let mut value = 0x5a5a_5a5a_5a5a_5a5a;
    (call(&mut value), value)
}

fn said(call: impl FnOnce(*mut u64) -> u32) -> Said {
    match returned(call) {
        (0, value) => Ok((false, value)),
        (1, value) => Ok((true, value)),
        (n, value) => Err((n.wrapping_sub(100), value)),
    }
}

/// One ring, lent as its coordinates and its point count.
#[derive(Clone, Copy, Debug)]
pub struct Lent<'a> {
    pub coords: &'a [i32],
    pub points: usize,
}

pub fn list_scan(Lent { coords, points }: Lent, y: f64, out: &mut [u32]) -> Said {
    said(|value| unsafe {
        c::brothstitch_list_scan(coords.as_ptr(), coords.len(), points, y, out.as_mut_ptr(), out.len(), value)
    })
}

#[rustfmt::skip]
pub fn list_stripes(Lent { coords, points }: Lent, index: &Index, y: f64, out: &mut [u32]) -> Said {
    let &Index { least, height, stripes, list } = index;
    said(|value| unsafe {
        c::brothstitch_list_stripes(
            coords.as_ptr(), coords.len(), points, least, height, stripes.as_ptr(), stripes.len(), list.as_ptr(),
            list.len(), y, out.as_mut_ptr(), out.len(), value,
        )
    })
}

#[rustfmt::skip]
pub fn list_tree(Lent { coords, points }: Lent, bytes: &[u8], y: f64, out: &mut [u32]) -> Said {
    said(|value| unsafe {
        c::brothstitch_list_tree(
            coords.as_ptr(), coords.len(), points, bytes.as_ptr(), bytes.len(), y, out.as_mut_ptr(), out.len(), value,
        )
    })
}

pub fn ring_scan(Lent { coords, points }: Lent, [x, y]: [f64; 2], edge: u32) -> Said {
    said(|value| unsafe { c::brothstitch_ring_scan(coords.as_ptr(), coords.len(), points, x, y, edge, value) })
}

#[rustfmt::skip]
pub fn ring_stripes(Lent { coords, points }: Lent, index: &Index, [x, y]: [f64; 2], edge: u32) -> Said {
    let &Index { least, height, stripes, list } = index;
    said(|value| unsafe {
        c::brothstitch_ring_stripes(
            coords.as_ptr(), coords.len(), points, least, height, stripes.as_ptr(), stripes.len(), list.as_ptr(),
            list.len(), x, y, edge, value,
        )
    })
}

#[rustfmt::skip]
pub fn ring_tree(Lent { coords, points }: Lent, bytes: &[u8], [x, y]: [f64; 2], edge: u32) -> Said {
    said(|value| unsafe {
        c::brothstitch_ring_tree(
            coords.as_ptr(), coords.len(), points, bytes.as_ptr(), bytes.len(), x, y, edge, value,
        )
    })
}

pub fn ring_grid(Lent { coords, points }: Lent, [x, y]: [i64; 2], edge: u32) -> Said {
    said(|value| unsafe { c::brothstitch_ring_grid(coords.as_ptr(), coords.len(), points, x, y, edge, value) })
}

/// The turn and the value, or a refusal's number and place.
pub fn turn(Lent { coords, points }: Lent) -> Result<(Turn, u64), No> {
    match returned(|value| unsafe { c::brothstitch_turn(coords.as_ptr(), coords.len(), points, value) }) {
        (0, value) => Ok((Turn::Clockwise, value)),
        (1, value) => Ok((Turn::Anticlockwise, value)),
        (2, value) => Ok((Turn::None, value)),
        (n, value) => Err((n.wrapping_sub(100), value)),
    }
}

/// The rooms of a ring's stripes.
pub struct Striped<'a> {
    pub stripes: &'a mut [u32],
    pub list: &'a mut [u32],
    pub span: &'a mut [f64],
    pub stats: &'a mut [u64],
}

#[rustfmt::skip]
pub fn build_stripes(Lent { coords, points }: Lent, threshold: usize, rooms: Striped) -> Said {
    let Striped { stripes, list, span, stats } = rooms;
    said(|value| unsafe {
        c::brothstitch_build_stripes(
            coords.as_ptr(), coords.len(), points, threshold, stripes.as_mut_ptr(), stripes.len(), list.as_mut_ptr(),
            list.len(), span.as_mut_ptr(), span.len(), stats.as_mut_ptr(), stats.len(), value,
        )
    })
}

#[rustfmt::skip]
pub fn build_tree(Lent { coords, points }: Lent, threshold: usize, bytes: &mut [u8], work: &mut [u32]) -> Said {
    said(|value| unsafe {
        c::brothstitch_build_tree(
            coords.as_ptr(), coords.len(), points, threshold, bytes.as_mut_ptr(), bytes.len(), work.as_mut_ptr(),
            work.len(), value,
        )
    })
}

#[rustfmt::skip]
pub fn make(Rings { sizes, coords }: Rings, scale: f64, mode: u32, boxes: &mut [i32]) -> Said {
    said(|value| unsafe {
        c::brothstitch_make(
            sizes.as_ptr(), sizes.len(), coords.as_ptr(), coords.len(), scale, mode, boxes.as_mut_ptr(), boxes.len(),
            value,
        )
    })
}

#[rustfmt::skip]
pub fn build(Rings { sizes, coords }: Rings, options: u32, threshold: usize, rooms: Rooms) -> Said {
    let Rooms { table, spans, stripes, list, bytes, work } = rooms;
    said(|value| unsafe {
        c::brothstitch_build(
            sizes.as_ptr(), sizes.len(), coords.as_ptr(), coords.len(), options, threshold, table.as_mut_ptr(),
            table.len(), spans.as_mut_ptr(), spans.len(), stripes.as_mut_ptr(), stripes.len(), list.as_mut_ptr(),
            list.len(), bytes.as_mut_ptr(), bytes.len(), work.as_mut_ptr(), work.len(), value,
        )
    })
}

/// Reads an outline; the numbers that it tells of come behind what it says.
#[rustfmt::skip]
pub fn read_wkb(bytes: &[u8], scale: f64, sizes: &mut [u32], coords: &mut [i32]) -> (Said, u64) {
    let mut numbers = u64::MAX;
    let told = said(|value| unsafe {
        c::brothstitch_read_wkb(
            bytes.as_ptr(), bytes.len(), scale, sizes.as_mut_ptr(), sizes.len(), coords.as_mut_ptr(), coords.len(),
            &mut numbers, value,
        )
    });
    (told, numbers)
}

/// The bits of the options: 1 for stripes, 2 for trees.
pub fn bits(options: Options) -> u32 {
    u32::from(options.stripes) + 2 * u32::from(options.tree)
}

#[rustfmt::skip]
pub fn inside(Rings { sizes, coords }: Rings, boxes: &[i32], asked: Asked, indexes: &Indexes) -> Said {
    let Asked { scale, integer, edge, x, y } = asked;
    let &Indexes { table, spans, stripes, list, bytes } = indexes;
    said(|value| unsafe {
        c::brothstitch_inside(
            sizes.as_ptr(), sizes.len(), coords.as_ptr(), coords.len(), boxes.as_ptr(), boxes.len(), scale,
            u32::from(integer), table.as_ptr(), table.len(), spans.as_ptr(), spans.len(), stripes.as_ptr(),
            stripes.len(), list.as_ptr(), list.len(), bytes.as_ptr(), bytes.len(), x, y, u32::from(edge), value,
        )
    })
}

#[rustfmt::skip]
pub fn inside_plain(Rings { sizes, coords }: Rings, asked: Asked) -> Said {
    let Asked { scale, integer, edge, x, y } = asked;
    said(|value| unsafe {
        c::brothstitch_inside_plain(
            sizes.as_ptr(), sizes.len(), coords.as_ptr(), coords.len(), scale, u32::from(integer), x, y,
            u32::from(edge), value,
        )
    })
}
