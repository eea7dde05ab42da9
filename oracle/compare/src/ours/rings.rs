use super::{said, told, Refusal};
use cases::lent::Lent;
use model::ring::Turn;

mod c {
    extern "C" {
        #[rustfmt::skip]
        pub fn probe_scan(
            coords: *const i32,
            len: usize,
            points: usize,
            y: f64,
            out: *mut u32,
            out_len: usize,
            value: &mut usize,
        ) -> u32;
        pub fn probe_turn(coords: *const i32, len: usize, points: usize, place: &mut usize, said: &mut u32) -> u32;
    }
}

/// How many were listed.
pub fn scan(ring: &Lent, y: f64, out: &mut [u32]) -> Result<u64, Refusal> {
    let Lent { coords, points } = ring;
    let mut value = usize::MAX;
    let number =
        unsafe { c::probe_scan(coords.as_ptr(), coords.len(), *points, y, out.as_mut_ptr(), out.len(), &mut value) };
    said(number, value, value as u64)
}

pub fn turn(ring: &Lent) -> Result<Turn, Refusal> {
    let Lent { coords, points } = ring;
    let said = told(|place, with| unsafe { c::probe_turn(coords.as_ptr(), coords.len(), *points, place, with) });
    said.map(|number| match number {
        0 => Turn::Clockwise,
        1 => Turn::Anticlockwise,
        2 => Turn::None,
        other => panic!("the library has no turn {other}"),
    })
}
