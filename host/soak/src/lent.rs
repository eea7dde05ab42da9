//! The slices of one call, each in a buffer of its own between two guard zones.

use std::fmt::Debug;

/// The numbers that slices are made of.
pub trait Number: Copy + Debug + 'static {
    fn of(bits: u64) -> Self;
    /// Two numbers are the same when their bits are: a NaN equals itself, and 0 is not -0.
    fn bits(self) -> u64;
}

macro_rules! whole {
    ($($t:ty),*) => {$(
        impl Number for $t {
            fn of(bits: u64) -> Self {
                bits as $t
            }
            fn bits(self) -> u64 {
                self as u64
            }
        }
    )*};
}
whole!(u8, u32, i32, u64);

impl Number for f64 {
    fn of(bits: u64) -> Self {
        f64::from_bits(bits)
    }
    fn bits(self) -> u64 {
        self.to_bits()
    }
}

/// A row that shows at each place whether it was touched.
pub fn pattern<T: Number>(mark: u64, n: usize) -> Vec<T> {
    (0..n as u64).map(|i| T::of((mark ^ i).wrapping_mul(0x9e37_79b9_7f4a_7c15).rotate_left(23))).collect()
}

/// What is wrong with a call.
pub type Fault = String;

/// The content of a room.
#[derive(Clone, Debug, PartialEq, Eq)]
pub struct Content {
    pub name: &'static str,
    pub bits: Vec<u64>,
}

impl Content {
    pub fn of<T: Number>(name: &'static str, row: &[T]) -> Self {
        Content { name, bits: row.iter().map(|x| x.bits()).collect() }
    }
}

trait Buffer {
    /// Both guard zones are whole, and what is lent for reading only is unchanged.
    fn whole(&self) -> Result<(), Fault>;
    /// What is in a room; none for what is lent for reading.
    fn content(&self) -> Option<Content>;
}

struct Guarded<T> {
    name: &'static str,
    block: Vec<T>,
    /// How many numbers each guard zone has.
    zone: usize,
    mark: u64,
    /// What must be found unchanged.
    read_only: Option<Vec<T>>,
}

impl<T: Number> Guarded<T> {
    fn new(name: &'static str, content: &[T], zone: usize, mark: u64) -> Self {
        // no more than the slice where there are no zones, so that valgrind sees its ends
        let mut block = Vec::with_capacity(content.len() + 2 * zone);
        let guard = pattern(mark, 2 * zone);
        block.extend_from_slice(&guard[..zone]);
        block.extend_from_slice(content);
        block.extend_from_slice(&guard[zone..]);
        Guarded { name, block, zone, mark, read_only: None }
    }

    fn lent(&self) -> &[T] {
        &self.block[self.zone..self.block.len() - self.zone]
    }
}

/// The first place where two rows differ.
pub fn differ<T: Number>(a: &[T], b: &[T]) -> Option<usize> {
    (0..a.len().max(b.len())).find(|&i| a.get(i).map(|x| x.bits()) != b.get(i).map(|x| x.bits()))
}

impl<T: Number> Buffer for Guarded<T> {
    fn whole(&self) -> Result<(), Fault> {
        let (name, n) = (self.name, self.lent().len());
        let guard: Vec<T> = pattern(self.mark, 2 * self.zone);
        if let Some(i) = differ(&self.block[..self.zone], &guard[..self.zone]) {
            return Err(format!("{name}: the guard {} numbers before its {n} was written", self.zone - i));
        }
        if let Some(i) = differ(&self.block[self.zone + n..], &guard[self.zone..]) {
            return Err(format!("{name}: the guard at {}, past its {n} numbers, was written", n + i));
        }
        match self.read_only.as_ref().and_then(|before| differ(before, self.lent())) {
            Some(i) => Err(format!("{name}: number {i} was written, and is lent for reading")),
            None => Ok(()),
        }
    }

    fn content(&self) -> Option<Content> {
        self.read_only.is_none().then(|| Content::of(self.name, self.lent()))
    }
}

/// How slices are lent.
#[derive(Clone, Copy, Debug)]
pub struct Lending {
    /// How many numbers each guard zone has. With 0 each slice is a heap block of its own.
    pub zone: usize,
}

/// A slice as C takes it.
#[derive(Clone, Copy)]
pub struct Slice<P> {
    pub ptr: P,
    pub len: usize,
}

/// The slices that one call is lent.
pub struct Slices {
    lending: Lending,
    mark: u64,
    buffers: Vec<Box<dyn Buffer>>,
}

impl Slices {
    pub fn new(lending: Lending, mark: u64) -> Self {
        Slices { lending, mark, buffers: Vec::new() }
    }

    /// Where the slice starts; every other empty one leads nowhere.
    fn keep<T: Number>(&mut self, mut buffer: Guarded<T>) -> Slice<*mut T> {
        let len = buffer.lent().len();
        let nowhere = len == 0 && buffer.mark % 2 == 0;
        let ptr =
            if nowhere { std::ptr::null_mut() } else { buffer.block.as_mut_ptr().wrapping_add(self.lending.zone) };
        self.buffers.push(Box::new(buffer));
        Slice { ptr, len }
    }

    fn buffer<T: Number>(&mut self, name: &'static str, content: &[T]) -> Guarded<T> {
        self.mark = self.mark.wrapping_mul(0xd134_2543_de82_ef95).wrapping_add(1).rotate_left(17);
        Guarded::new(name, content, self.lending.zone, self.mark)
    }

    pub fn read<T: Number>(&mut self, name: &'static str, content: &[T]) -> Slice<*const T> {
        let mut buffer = self.buffer(name, content);
        buffer.read_only = Some(content.to_vec());
        let Slice { ptr, len } = self.keep(buffer);
        Slice { ptr, len }
    }

    pub fn room<T: Number>(&mut self, name: &'static str, content: &[T]) -> Slice<*mut T> {
        let buffer = self.buffer(name, content);
        self.keep(buffer)
    }

    /// Where the call puts its value; no answer of the library is what stands there before.
    pub fn value(&mut self) -> *mut u64 {
        self.room("value", &[0x5eed_5eed_5eed_5eed_u64]).ptr
    }

    /// Takes all slices back: guards and what was lent for reading are whole. Gives what the rooms hold, in
    /// the order in which they were lent.
    pub fn back(self) -> Result<Vec<Content>, Fault> {
        for buffer in &self.buffers {
            buffer.whole()?;
        }
        Ok(self.buffers.iter().filter_map(|b| b.content()).collect())
    }
}

#[cfg(test)]
mod tests {
    use super::*;

    fn slices() -> Slices {
        Slices::new(Lending { zone: 4 }, 7)
    }

    #[test]
    fn untouched_slices_come_back() {
        let mut s = slices();
        s.read("coords", &[1_i32, 2]);
        s.room("out", &[3_u32, 4]);
        s.room("spans", &[f64::NAN]);
        let back = s.back().expect("nothing was touched");
        assert_eq!(back, [Content::of("out", &[3_u32, 4]), Content::of("spans", &[f64::NAN])]);
    }

    #[test]
    fn every_write_outside_is_seen() {
        for at in (-4..0).chain(2..6) {
            let mut s = slices();
            let out = s.room("out", &[3_u32, 4]);
            unsafe { *out.ptr.offset(at) ^= 1 };
            assert!(s.back().is_err(), "at {at}");
        }
    }

    #[test]
    fn writing_what_is_lent_for_reading_is_seen() {
        let mut s = slices();
        let coords = s.read("coords", &[1_i32, 2]);
        unsafe { *coords.ptr.cast_mut() = 9 };
        assert_eq!(s.back(), Err("coords: number 0 was written, and is lent for reading".to_string()));
    }
}
