//! The words of a question, taken one after the other.

use opened::{I32Point, Point, Rect};

/// What was expected and what stood there.
pub type Wrong = String;

pub struct Words<'a> {
    rest: std::str::SplitWhitespace<'a>,
}

impl<'a> Words<'a> {
    pub fn of(line: &'a str) -> Self {
        Words { rest: line.split_whitespace() }
    }

    pub fn word(&mut self, what: &str) -> Result<&'a str, Wrong> {
        self.rest.next().ok_or_else(|| format!("{what} is missing"))
    }

    pub fn end(mut self) -> Result<(), Wrong> {
        match self.rest.next() {
            None => Ok(()),
            Some(word) => Err(format!("nothing more was expected, not {word}")),
        }
    }

    /// A number of up to sixteen hexadecimal digits, in lower case.
    pub fn number(&mut self, what: &str) -> Result<u64, Wrong> {
        let word = self.word(what)?;
        let good = word.len() <= 16 && word.bytes().all(|b| matches!(b, b'0'..=b'9' | b'a'..=b'f'));
        let number = u64::from_str_radix(word, 16).ok().filter(|_| good);
        number.ok_or_else(|| format!("{what}: up to sixteen hexadecimal digits were expected, not {word}"))
    }

    pub fn place(&mut self, what: &str) -> Result<usize, Wrong> {
        self.number(what).map(|n| n as usize)
    }

    /// A whole number, by its two's complement.
    pub fn whole(&mut self, what: &str) -> Result<i64, Wrong> {
        self.number(what).map(|n| n as i64)
    }

    /// A float, by its bits.
    pub fn float(&mut self, what: &str) -> Result<f64, Wrong> {
        self.number(what).map(f64::from_bits)
    }

    /// Bytes, two hexadecimal digits each; a hyphen for none.
    pub fn bytes(&mut self, what: &str) -> Result<Vec<u8>, Wrong> {
        let word = self.word(what)?;
        if word == "-" {
            return Ok(Vec::new());
        }
        let wrong = || format!("{what}: pairs of hexadecimal digits were expected, not {word}");
        if word.len() % 2 != 0 || !word.is_ascii() {
            return Err(wrong());
        }
        (0..word.len()).step_by(2).map(|i| u8::from_str_radix(&word[i..i + 2], 16).map_err(|_| wrong())).collect()
    }

    /// Coordinates, eight digits each, by their two's complement; a hyphen for none.
    pub fn coordinates(&mut self, what: &str) -> Result<Vec<i32>, Wrong> {
        let bytes = self.bytes(what)?;
        if bytes.len() % 4 != 0 {
            return Err(format!("{what}: eight digits a coordinate were expected"));
        }
        Ok(bytes.chunks_exact(4).map(|b| i32::from_be_bytes([b[0], b[1], b[2], b[3]])).collect())
    }

    pub fn point(&mut self) -> Result<Point, Wrong> {
        Ok(Point { x: self.float("x")?, y: self.float("y")? })
    }

    pub fn rect(&mut self) -> Result<Rect, Wrong> {
        Ok(Rect { min: self.point()?, max: self.point()? })
    }

    /// A place `X,Y` of whole numbers, in decimal: a corner, or a place of any i64.
    pub fn corner<T: std::str::FromStr>(&mut self) -> Result<Point<T>, Wrong> {
        let word = self.word("X,Y")?;
        let corner = word.split_once(',').and_then(|(x, y)| Some(Point { x: x.parse().ok()?, y: y.parse().ok()? }));
        corner.ok_or_else(|| format!("X,Y was expected, not {word}"))
    }

    /// Corners up to the end of the question or to a slash.
    pub fn ring(&mut self) -> Result<Vec<I32Point>, Wrong> {
        let mut ring = vec![self.corner()?];
        loop {
            match self.rest.clone().next() {
                None => return Ok(ring),
                Some("/") => {
                    self.rest.next();
                    return Ok(ring);
                }
                Some(_) => ring.push(self.corner()?),
            }
        }
    }

    /// One or more rings with a slash between two.
    pub fn rings(&mut self) -> Result<Vec<Vec<I32Point>>, Wrong> {
        let mut rings = vec![self.ring()?];
        while self.rest.clone().next().is_some() {
            rings.push(self.ring()?);
        }
        Ok(rings)
    }

    /// One of the words of a list, as its number in it.
    pub fn one_of(&mut self, what: &str, list: &[&str]) -> Result<usize, Wrong> {
        let word = self.word(what)?;
        list.iter().position(|&w| w == word).ok_or_else(|| format!("{what}: one of {list:?} was expected, not {word}"))
    }
}

// How answers are written.

pub fn number(n: u64) -> String {
    format!("{n:016x}")
}

pub fn float(x: f64) -> String {
    if x.is_nan() {
        return "nan".into();
    }
    number(x.to_bits())
}

pub fn bytes(bytes: &[u8]) -> String {
    if bytes.is_empty() {
        return "-".into();
    }
    bytes.iter().map(|b| format!("{b:02x}")).collect()
}

pub fn coordinates(row: &[i32]) -> String {
    bytes(&row.iter().flat_map(|z| z.to_be_bytes()).collect::<Vec<u8>>())
}

pub fn refused((n, place): (u32, u64)) -> String {
    format!("refused {} {}", number(u64::from(n)), number(place))
}

pub fn yes(b: bool) -> String {
    if b { "yes" } else { "no" }.into()
}
