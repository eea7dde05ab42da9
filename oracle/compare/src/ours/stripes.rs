use super::{said, told, Refusal};
use cases::lent::Lent;
use model::stripes::{Built, Index};

mod c {
    extern "C" {
        pub fn probe_stripe_of(y: f64, least: f64, height: f64, stripes: usize) -> usize;
        #[rustfmt::skip]
        pub fn probe_build_stripes(
            coords: *const i32,
            len: usize,
            points: usize,
            threshold: usize,
            room: *mut u32,
            room_len: usize,
            list: *mut u32,
            list_len: usize,
            place: &mut usize,
            least: &mut f64,
            height: &mut f64,
            segments: &mut usize,
            stripes: &mut usize,
            entries: &mut usize,
            fullest: &mut usize,
        ) -> u32;
        #[rustfmt::skip]
        pub fn probe_list_stripes(
            coords: *const i32,
            len: usize,
            points: usize,
            least: f64,
            height: f64,
            stripes: *const u32,
            stripes_len: usize,
            list: *const u32,
            list_len: usize,
            y: f64,
            out: *mut u32,
            out_len: usize,
            place: &mut usize,
            count: &mut usize,
        ) -> u32;
        #[rustfmt::skip]
        pub fn probe_test_stripes(
            coords: *const i32,
            len: usize,
            points: usize,
            least: f64,
            height: f64,
            stripes: *const u32,
            stripes_len: usize,
            list: *const u32,
            list_len: usize,
            x: f64,
            y: f64,
            edge: bool,
            place: &mut usize,
            said: &mut u32,
        ) -> u32;
    }
}

pub fn stripe_of(y: f64, least: f64, height: f64, stripes: usize) -> usize {
    unsafe { c::probe_stripe_of(y, least, height, stripes) }
}

/// A ring under the threshold has no stripes.
pub fn build_stripes(ring: &Lent, threshold: usize, room: &mut [u32], list: &mut [u32]) -> Built {
    let Lent { coords, points } = ring;
    let (mut place, mut least, mut height) = (usize::MAX, f64::NAN, f64::NAN);
    let [mut segments, mut stripes, mut entries, mut fullest] = [usize::MAX; 4];
    #[rustfmt::skip]
    let number = unsafe {
        c::probe_build_stripes(
            coords.as_ptr(), coords.len(), *points, threshold, room.as_mut_ptr(), room.len(), list.as_mut_ptr(),
            list.len(), &mut place, &mut least, &mut height, &mut segments, &mut stripes, &mut entries, &mut fullest,
        )
    };
    let stats = [segments, stripes, entries, fullest].map(|n| n as u32);
    said(number, place, (stripes > 0).then_some((least, height, stats)))
}

pub fn list_stripes(ring: &Lent, index: &Index, y: f64, out: &mut [u32]) -> Result<u64, Refusal> {
    let (Lent { coords, points }, Index { least, height, stripes, list }) = (ring, index);
    let (mut place, mut count) = (usize::MAX, usize::MAX);
    #[rustfmt::skip]
    let number = unsafe {
        c::probe_list_stripes(
            coords.as_ptr(), coords.len(), *points, *least, *height, stripes.as_ptr(), stripes.len(), list.as_ptr(),
            list.len(), y, out.as_mut_ptr(), out.len(), &mut place, &mut count,
        )
    };
    said(number, place, count as u64)
}

pub fn test_stripes(ring: &Lent, index: &Index, [x, y]: [f64; 2], edge: bool) -> Result<bool, Refusal> {
    let (Lent { coords, points }, Index { least, height, stripes, list }) = (ring, index);
    #[rustfmt::skip]
    let call = |place: &mut usize, with: &mut u32| unsafe {
        c::probe_test_stripes(
            coords.as_ptr(), coords.len(), *points, *least, *height, stripes.as_ptr(), stripes.len(), list.as_ptr(),
            list.len(), x, y, edge, place, with,
        )
    };
    told(call).map(|yes| yes == 1)
}
