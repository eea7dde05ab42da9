//! One number of a packed tree.

use crate::{damaged, No};
use cases::limits;

/// The number that starts at a place of a part, and the place past it. First 9: it ends early or reaches an
/// eleventh byte. Then 15 (CR 6): it has not as many bytes as its bits need, seven a byte and one at least, or it is
/// over 64 bits.
pub fn read(part: &[u8], at: usize) -> Result<(u64, usize), No> {
    let field = part.get(at..).unwrap_or_default();
    let last = field.iter().take(limits::VARINT_BYTES).position(|&byte| byte < 128).ok_or(damaged(at))?;
    let value = field[..=last].iter().rev().fold(0_u128, |value, &byte| value * 128 + u128::from(byte % 128));
    let bits = u128::BITS - value.leading_zeros();
    if bits > u64::BITS || last + 1 != bits.div_ceil(7).max(1) as usize {
        return Err((15, at as u64));
    }
    Ok((value as u64, at + last + 1))
}

#[cfg(test)]
mod tests {
    use super::read;

    /// 01's sample sheet, as CR 6 amends it.
    #[test]
    fn the_sheet() {
        let nine_and = |last: u8| [&[0xff; 9][..], &[last]].concat();
        assert_eq!(read(&[0xac, 2], 0), Ok((300, 2)));
        assert_eq!(read(&[0], 0), Ok((0, 1)));
        assert_eq!(read(&[0x80, 0], 0), Err((15, 0)));
        assert_eq!(read(&[7, 0x81, 0x80, 0], 1), Err((15, 1)));
        assert_eq!(read(&nine_and(1), 0), Ok((u64::MAX, 10)));
        for last in [0, 2, 0x7f] {
            assert_eq!(read(&nine_and(last), 0), Err((15, 0)));
        }
        assert_eq!(read(&[0x80; 10], 0), Err((9, 0)));
        assert_eq!(read(&[0x80; 11], 0), Err((9, 0)));
        assert_eq!(read(&nine_and(0x80), 0), Err((9, 0)));
        assert_eq!(read(&[], 5), Err((9, 5)));
    }
}
