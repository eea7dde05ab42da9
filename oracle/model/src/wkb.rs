//! CR 1 of docs/01-scope.md: an outline out of well-known binary (OGC 06-103r4), read field by field.

use crate::{No, NO_ROOM};

/// What is read: the doubles of each ring, one point after the other.
pub type Shape = Vec<Vec<[f64; 2]>>;

/// What is left to read, and how its numbers are written.
struct Reader<'a> {
    bytes: &'a [u8],
    at: usize,
    big: bool,
}

impl Reader<'_> {
    /// The next field: its first byte's place and its number; one that is cut is 10.
    fn field(&mut self, width: usize) -> Result<(u64, u64), No> {
        let start = self.at;
        let field = self.bytes.get(start..).and_then(|rest| rest.get(..width)).ok_or((10, start as u64))?;
        let fold = |n: u64, b: &u8| n << 8 | u64::from(*b);
        self.at += width;
        Ok((start as u64, if self.big { field.iter().fold(0, fold) } else { field.iter().rev().fold(0, fold) }))
    }

    fn double(&mut self) -> Result<f64, No> {
        Ok(f64::from_bits(self.field(8)?.1))
    }
}

/// The shape of the bytes, or 10 or 11.
pub fn shape(bytes: &[u8]) -> Result<Shape, No> {
    let mut reader = Reader { bytes, at: 0, big: false };
    match reader.field(1)? {
        (_, 0) => reader.big = true,
        (_, 1) => {}
        (place, _) => return Err((11, place)),
    }
    let (place, kind) = reader.field(4)?;
    if kind != 3 {
        return Err((11, place));
    }
    let mut shape = Vec::new();
    for _ in 0..reader.field(4)?.1 {
        let mut ring = Vec::new();
        for _ in 0..reader.field(4)?.1 {
            ring.push([reader.double()?, reader.double()?]);
        }
        shape.push(ring);
    }
    if reader.at < bytes.len() {
        return Err((10, reader.at as u64));
    }
    Ok(shape)
}

/// A double as it is stored; none where it cannot be.
fn stored(x: f64, scale: f64) -> Option<i32> {
    let scaled = x * scale;
    scaled.is_finite().then(|| scaled.round() as i64).and_then(|n| i32::try_from(n).ok())
}

/// Rules 1, 2, 12 and 4, each over all rings before the next; the stored rings.
fn judged(shape: &Shape, scale: f64) -> Result<Vec<Vec<[i32; 2]>>, No> {
    if shape.is_empty() {
        return Err((1, 0));
    }
    if let Some(k) = shape.iter().position(|ring| ring.len() < 2) {
        return Err((1, k as u64));
    }
    if shape.len() > 64 {
        return Err((2, 64));
    }
    if let Some(k) = shape.iter().position(|ring| ring.len() > 4097) {
        return Err((2, k as u64));
    }
    let mut rings = Vec::new();
    for (k, ring) in shape.iter().enumerate() {
        let numbers: Option<Vec<[i32; 2]>> =
            ring.iter().map(|&[x, y]| Some([stored(x, scale)?, stored(y, scale)?])).collect();
        rings.push(numbers.ok_or((12, k as u64))?);
    }
    match rings.iter().position(|ring| ring.first() != ring.last()) {
        Some(k) => Err((4, k as u64)),
        None => Ok(rings),
    }
}

/// How many rings and numbers there are; both go to the rooms, with zeros behind them.
pub fn read(bytes: &[u8], scale: f64, sizes: &mut [u32], coords: &mut [i32]) -> Result<(u64, u64), No> {
    if !(scale.is_finite() && scale > 0.0) {
        return Err((5, 0));
    }
    let rings = judged(&shape(bytes)?, scale)?;
    let numbers: Vec<i32> = rings.iter().flatten().flatten().copied().collect();
    sizes.fill(0);
    coords.fill(0);
    if sizes.len() < rings.len() || coords.len() < numbers.len() {
        return Err(NO_ROOM);
    }
    sizes.iter_mut().zip(&rings).for_each(|(size, ring)| *size = ring.len() as u32);
    coords[..numbers.len()].copy_from_slice(&numbers);
    Ok((rings.len() as u64, numbers.len() as u64))
}

#[cfg(test)]
mod tests {
    use super::{read, shape, stored};

    fn hex(text: &str) -> Vec<u8> {
        let digits: Vec<u8> = text.bytes().filter(u8::is_ascii_hexdigit).collect();
        digits.chunks(2).map(|two| u8::from_str_radix(std::str::from_utf8(two).unwrap(), 16).unwrap()).collect()
    }

    #[test]
    fn places_of_10_and_11() {
        let cases = [
            ("", (10, 0)),
            ("02", (11, 0)),
            ("01 07", (10, 1)),
            ("01 07000000", (11, 1)),
            ("01 03000000 01000000 01000000 0000000000000000", (10, 21)),
            ("01 03000000 00000000 00", (10, 9)),
            ("01 03000000 FFFFFFFF", (10, 9)),
            ("00 00000003 00000001 FFFFFFFF", (10, 13)),
        ];
        for (text, no) in cases {
            assert_eq!(shape(&hex(text)), Err(no), "{text}");
        }
        assert_eq!(read(&hex("01 03000000 00000000"), 1.0, &mut [], &mut []), Err((1, 0)));
    }

    #[test]
    fn halves_go_away_from_zero() {
        assert_eq!([0.5, -0.5, 1.5, 2.5, -0.0].map(|x| stored(x, 1.0)), [1, -1, 2, 3, 0].map(Some));
        assert_eq!([2147483647.4, -2147483648.4].map(|x| stored(x, 1.0)), [i32::MAX, i32::MIN].map(Some));
        assert_eq!([2147483647.5, -2147483648.5, f64::NAN, f64::INFINITY].map(|x| stored(x, 1.0)), [None; 4]);
        assert_eq!([214748364.7, -214748364.8].map(|x| stored(x, 10.0)), [i32::MAX, i32::MIN].map(Some));
        assert_eq!(stored(f64::MAX, 10.0), None);
    }
}
