use super::{said, Refusal};

mod c {
    extern "C" {
        pub fn probe_uvarint_len(x: u64) -> usize;
        pub fn probe_read_uvarint(
            src: *const u8,
            src_len: usize,
            at: usize,
            end: usize,
            place: &mut usize,
            value: &mut u64,
        ) -> u32;
        pub fn probe_append_uvarint(out: *mut u8, out_len: usize, at: usize, x: u64, place: &mut usize) -> u32;
    }
}

pub fn uvarint_len(x: u64) -> usize {
    unsafe { c::probe_uvarint_len(x) }
}

/// The number and the place past it.
pub fn read_uvarint(src: &[u8], at: usize, end: usize) -> Result<(u64, usize), Refusal> {
    let (mut place, mut value) = (0, 0);
    let number = unsafe { c::probe_read_uvarint(src.as_ptr(), src.len(), at, end, &mut place, &mut value) };
    said(number, place, (value, place))
}

/// The place past the bytes.
pub fn append_uvarint(out: &mut [u8], at: usize, x: u64) -> Result<usize, Refusal> {
    let mut place = 0;
    let number = unsafe { c::probe_append_uvarint(out.as_mut_ptr(), out.len(), at, x, &mut place) };
    said(number, place, place)
}
