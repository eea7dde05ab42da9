//! The C interface as include/brothstitch.h declares it. tests/declarations.rs holds the two, and the
//! library's source, against each other.
//!
//! A call is safe when every pointer leads to as many numbers as the length behind it says, what is
//! written overlaps nothing else that is lent, and `value` leads to one number.

#[rustfmt::skip]
extern "C" {
    pub fn brothstitch_list_scan(
        coords: *const i32, coords_len: usize, points: usize, y: f64,
        out: *mut u32, out_len: usize, value: *mut u64,
    ) -> u32;
    pub fn brothstitch_list_stripes(
        coords: *const i32, coords_len: usize, points: usize, least: f64, height: f64,
        stripes: *const u32, stripes_len: usize, list: *const u32, list_len: usize, y: f64,
        out: *mut u32, out_len: usize, value: *mut u64,
    ) -> u32;
    pub fn brothstitch_list_tree(
        coords: *const i32, coords_len: usize, points: usize, bytes: *const u8, bytes_len: usize, y: f64,
        out: *mut u32, out_len: usize, value: *mut u64,
    ) -> u32;
    pub fn brothstitch_ring_scan(
        coords: *const i32, coords_len: usize, points: usize, x: f64, y: f64, edge: u32, value: *mut u64,
    ) -> u32;
    pub fn brothstitch_ring_stripes(
        coords: *const i32, coords_len: usize, points: usize, least: f64, height: f64,
        stripes: *const u32, stripes_len: usize, list: *const u32, list_len: usize,
        x: f64, y: f64, edge: u32, value: *mut u64,
    ) -> u32;
    pub fn brothstitch_ring_tree(
        coords: *const i32, coords_len: usize, points: usize, bytes: *const u8, bytes_len: usize,
        x: f64, y: f64, edge: u32, value: *mut u64,
    ) -> u32;
    pub fn brothstitch_ring_grid(
        coords: *const i32, coords_len: usize, points: usize, x: i64, y: i64, edge: u32, value: *mut u64,
    ) -> u32;
    pub fn brothstitch_turn(coords: *const i32, coords_len: usize, points: usize, value: *mut u64) -> u32;
    pub fn brothstitch_build_stripes(
        coords: *const i32, coords_len: usize, points: usize, threshold: usize,
        stripes: *mut u32, stripes_len: usize, list: *mut u32, list_len: usize,
        span: *mut f64, span_len: usize, stats: *mut u64, stats_len: usize, value: *mut u64,
    ) -> u32;
    pub fn brothstitch_build_tree(
        coords: *const i32, coords_len: usize, points: usize, threshold: usize,
        bytes: *mut u8, bytes_len: usize, work: *mut u32, work_len: usize, value: *mut u64,
    ) -> u32;
    pub fn brothstitch_make(
        sizes: *const u32, sizes_len: usize, coords: *const i32, coords_len: usize, scale: f64, mode: u32,
        boxes: *mut i32, boxes_len: usize, value: *mut u64,
    ) -> u32;
    pub fn brothstitch_read_wkb(
        bytes: *const u8, bytes_len: usize, scale: f64, sizes: *mut u32, sizes_len: usize,
        coords: *mut i32, coords_len: usize, numbers: *mut u64, value: *mut u64,
    ) -> u32;
    pub fn brothstitch_build(
        sizes: *const u32, sizes_len: usize, coords: *const i32, coords_len: usize,
        options: u32, threshold: usize,
        table: *mut u64, table_len: usize, spans: *mut f64, spans_len: usize,
        stripes: *mut u32, stripes_len: usize, list: *mut u32, list_len: usize,
        bytes: *mut u8, bytes_len: usize, work: *mut u32, work_len: usize, value: *mut u64,
    ) -> u32;
    pub fn brothstitch_inside(
        sizes: *const u32, sizes_len: usize, coords: *const i32, coords_len: usize,
        boxes: *const i32, boxes_len: usize, scale: f64, mode: u32,
        table: *const u64, table_len: usize, spans: *const f64, spans_len: usize,
        stripes: *const u32, stripes_len: usize, list: *const u32, list_len: usize,
        bytes: *const u8, bytes_len: usize, x: f64, y: f64, edge: u32, value: *mut u64,
    ) -> u32;
    pub fn brothstitch_inside_plain(
        sizes: *const u32, sizes_len: usize, coords: *const i32, coords_len: usize, scale: f64, mode: u32,
        x: f64, y: f64, edge: u32, value: *mut u64,
    ) -> u32;
}
