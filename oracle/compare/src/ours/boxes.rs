use cases::boxes::Box4;
use cases::rings::Corner;

mod c {
    extern "C" {
        pub fn probe_contains_point(x0: f64, y0: f64, x1: f64, y1: f64, x: f64, y: f64) -> bool;
        #[rustfmt::skip]
        pub fn probe_intersects_rect(x0: f64, y0: f64, x1: f64, y1: f64, u0: f64, v0: f64, u1: f64, v1: f64) -> bool;
        pub fn probe_corner(x0: f64, y0: f64, x1: f64, y1: f64, which: u32, x: &mut f64, y: &mut f64);
        #[rustfmt::skip]
        pub fn probe_side(
            x0: f64,
            y0: f64,
            x1: f64,
            y1: f64,
            which: u32,
            ax: &mut f64,
            ay: &mut f64,
            bx: &mut f64,
            by: &mut f64,
        );
        #[rustfmt::skip]
        pub fn probe_segment_at(
            x0: f64,
            y0: f64,
            x1: f64,
            y1: f64,
            index: i64,
            ax: &mut f64,
            ay: &mut f64,
            bx: &mut f64,
            by: &mut f64,
        );
        #[rustfmt::skip]
        pub fn probe_choose_quad(x0: f64, y0: f64, x1: f64, y1: f64, u0: f64, v0: f64, u1: f64, v1: f64) -> usize;
        #[rustfmt::skip]
        pub fn probe_quad_bounds(
            x0: f64,
            y0: f64,
            x1: f64,
            y1: f64,
            q: usize,
            u0: &mut f64,
            v0: &mut f64,
            u1: &mut f64,
            v1: &mut f64,
        );
        #[rustfmt::skip]
        pub fn probe_segment_rect(
            ax: i32,
            ay: i32,
            bx: i32,
            by: i32,
            x0: &mut f64,
            y0: &mut f64,
            x1: &mut f64,
            y1: &mut f64,
        );
        pub fn probe_i32_point(ax: i32, ay: i32, x: &mut f64, y: &mut f64);
    }
}

/// What a call writes to two or to four references. They start as what no call is asked for.
fn two(call: impl FnOnce(&mut f64, &mut f64)) -> [f64; 2] {
    let [mut x, mut y] = [1.5e-7; 2];
    call(&mut x, &mut y);
    [x, y]
}

fn four(call: impl FnOnce(&mut f64, &mut f64, &mut f64, &mut f64)) -> [f64; 4] {
    let [mut a, mut b, mut c, mut d] = [1.5e-7; 4];
    call(&mut a, &mut b, &mut c, &mut d);
    [a, b, c, d]
}

pub fn contains_point([x0, y0, x1, y1]: Box4, [x, y]: [f64; 2]) -> bool {
    unsafe { c::probe_contains_point(x0, y0, x1, y1, x, y) }
}

pub fn intersects_rect([x0, y0, x1, y1]: Box4, [u0, v0, u1, v1]: Box4) -> bool {
    unsafe { c::probe_intersects_rect(x0, y0, x1, y1, u0, v0, u1, v1) }
}

/// 0 north-west, 1 south-west, 2 south-east, 3 north-east.
pub fn corner([x0, y0, x1, y1]: Box4, which: u32) -> [f64; 2] {
    two(|x, y| unsafe { c::probe_corner(x0, y0, x1, y1, which, x, y) })
}

/// 0 south, 1 east, 2 north, 3 west.
pub fn side([x0, y0, x1, y1]: Box4, which: u32) -> [f64; 4] {
    four(|ax, ay, bx, by| unsafe { c::probe_side(x0, y0, x1, y1, which, ax, ay, bx, by) })
}

pub fn segment_at([x0, y0, x1, y1]: Box4, index: i64) -> [f64; 4] {
    four(|ax, ay, bx, by| unsafe { c::probe_segment_at(x0, y0, x1, y1, index, ax, ay, bx, by) })
}

/// The quadrant; none where the segment stays.
pub fn choose_quad([x0, y0, x1, y1]: Box4, [u0, v0, u1, v1]: Box4) -> Option<usize> {
    let q = unsafe { c::probe_choose_quad(x0, y0, x1, y1, u0, v0, u1, v1) };
    Some(q).filter(|&q| q != 4)
}

pub fn quad_bounds([x0, y0, x1, y1]: Box4, q: usize) -> Box4 {
    four(|u0, v0, u1, v1| unsafe { c::probe_quad_bounds(x0, y0, x1, y1, q, u0, v0, u1, v1) })
}

pub fn segment_rect([ax, ay]: Corner, [bx, by]: Corner) -> Box4 {
    four(|x0, y0, x1, y1| unsafe { c::probe_segment_rect(ax, ay, bx, by, x0, y0, x1, y1) })
}

pub fn i32_point([ax, ay]: Corner) -> [f64; 2] {
    two(|x, y| unsafe { c::probe_i32_point(ax, ay, x, y) })
}
