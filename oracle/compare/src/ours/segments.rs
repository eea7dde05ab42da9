use super::{told, Refusal};
use cases::lent::Lent;
use cases::rings::Corner;
use cases::segments::Ends;
use model::ring::Ray;

mod c {
    extern "C" {
        pub fn probe_raycast(ax: i32, ay: i32, bx: i32, by: i32, x: f64, y: f64) -> u32;
        pub fn probe_cross_sign(ax: i32, ay: i32, bx: i32, by: i32, px: i32, py: i32) -> u32;
        pub fn probe_grid_test(ax: i32, ay: i32, bx: i32, by: i32, x: i64, y: i64) -> u32;
        #[rustfmt::skip]
        pub fn probe_grid_ring(
            coords: *const i32,
            len: usize,
            points: usize,
            x: i64,
            y: i64,
            edge: bool,
            place: &mut usize,
            said: &mut u32,
        ) -> u32;
    }
}

fn ray(number: u32) -> Ray {
    match number {
        0 => Ray::Neither,
        1 => Ray::Inside,
        2 => Ray::On,
        _ => unreachable!("a test of a segment says 0, 1 or 2"),
    }
}

pub fn raycast([a, b]: Ends, [x, y]: [f64; 2]) -> Ray {
    ray(unsafe { c::probe_raycast(a[0], a[1], b[0], b[1], x, y) })
}

/// -1, 0 or 1.
pub fn cross_sign([a, b]: Ends, [px, py]: Corner) -> i32 {
    unsafe { c::probe_cross_sign(a[0], a[1], b[0], b[1], px, py) as i32 - 1 }
}

pub fn grid_test([a, b]: Ends, [x, y]: [i64; 2]) -> Ray {
    ray(unsafe { c::probe_grid_test(a[0], a[1], b[0], b[1], x, y) })
}

pub fn grid_ring(ring: &Lent, [x, y]: [i64; 2], edge: bool) -> Result<bool, Refusal> {
    let Lent { coords, points } = ring;
    told(|place, with| unsafe { c::probe_grid_ring(coords.as_ptr(), coords.len(), *points, x, y, edge, place, with) })
        .map(|yes| yes == 1)
}
