//! Decimals as a board file writes them, kept exactly.

use std::fmt;

/// Digits beyond these are not read, so that the product of two decimals can be held.
pub const MOST_DIGITS: usize = 18;

/// `digits` divided by ten to the power `places`.
#[derive(Clone, Copy, Debug, PartialEq, Eq)]
pub struct Decimal {
    digits: i128,
    places: u32,
}

/// Why a decimal times the scale is not a stored number.
#[derive(Clone, Copy, Debug, PartialEq, Eq)]
pub enum NotStored {
    NotWhole(Decimal),
    TooLarge(Decimal),
}

impl Decimal {
    /// An optional minus, digits, and optionally a point and digits; none for anything else.
    pub fn parse(text: &str) -> Option<Decimal> {
        let (minus, rest) = text.strip_prefix('-').map_or((false, text), |rest| (true, rest));
        let (whole, part) = match rest.split_once('.') {
            Some((_, "")) => return None,
            Some(both) => both,
            None => (rest, ""),
        };
        let digits = || whole.bytes().chain(part.bytes());
        let plain = digits().all(|b| b.is_ascii_digit());
        if whole.is_empty() || !plain || whole.len() + part.len() > MOST_DIGITS {
            return None;
        }
        let size = digits().fold(0, |n, b| 10 * n + i128::from(b - b'0'));
        Some(Decimal { digits: if minus { -size } else { size }, places: part.len() as u32 })
    }

    /// The nearest float.
    pub fn float(self) -> f64 {
        self.to_string().parse().expect("a decimal is a float's text")
    }

    fn times(self, other: Decimal) -> Decimal {
        Decimal { digits: self.digits * other.digits, places: self.places + other.places }
    }

    /// Two decimals times the scale as whole numbers over one power of ten, as small as it can be; none where the
    /// numbers would be too long.
    pub fn scaled_pair(x: Decimal, y: Decimal, scale: Decimal) -> Option<([i128; 2], i128)> {
        let pair = [x.times(scale).short(), y.times(scale).short()];
        let places = pair[0].places.max(pair[1].places);
        let unit = 10_i128.checked_pow(places)?;
        let whole = |d: Decimal| d.digits.checked_mul(10_i128.checked_pow(places - d.places)?);
        Some(([whole(pair[0])?, whole(pair[1])?], unit))
    }

    /// Without zeros at its end.
    fn short(mut self) -> Decimal {
        while self.places > 0 && self.digits % 10 == 0 {
            self.digits /= 10;
            self.places -= 1;
        }
        self
    }

    /// This times the scale as a stored number, with nothing rounded.
    pub fn stored(self, scale: Decimal) -> Result<i32, NotStored> {
        let product = self.times(scale);
        let unit = 10_i128.pow(product.places);
        if product.digits % unit != 0 {
            return Err(NotStored::NotWhole(product));
        }
        i32::try_from(product.digits / unit).map_err(|_| NotStored::TooLarge(product))
    }
}

impl fmt::Display for Decimal {
    /// Without zeros that say nothing.
    fn fmt(&self, f: &mut fmt::Formatter) -> fmt::Result {
        let unit = 10_u128.pow(self.places);
        let size = self.digits.unsigned_abs();
        let minus = if self.digits < 0 { "-" } else { "" };
        write!(f, "{minus}{}", size / unit)?;
        let part = format!("{:0width$}", size % unit, width = self.places as usize);
        match part.trim_end_matches('0') {
            "" => Ok(()),
            part => write!(f, ".{part}"),
        }
    }
}

#[cfg(test)]
mod tests {
    use super::{Decimal, NotStored};

    fn d(text: &str) -> Decimal {
        Decimal::parse(text).expect(text)
    }

    #[test]
    fn what_is_a_decimal() {
        for (text, shown) in
            [("0", "0"), ("-0", "0"), ("12.50", "12.5"), ("-0.05", "-0.05"), ("007", "7"), ("3.0", "3")]
        {
            assert_eq!(d(text).to_string(), shown);
        }
        for text in
            ["", "-", ".", "5.", ".5", "1e3", "+1", "--1", "1,5", "0x1", "inf", "nan", "1.2.3", "1234567890123456789"]
        {
            assert_eq!(Decimal::parse(text), None, "{text}");
        }
    }

    #[test]
    fn stored_exactly_or_not() {
        assert_eq!(d("12.5").stored(d("10")), Ok(125));
        assert_eq!(d("-12.5").stored(d("0.4")), Ok(-5));
        assert!(matches!(d("12.34").stored(d("10")), Err(NotStored::NotWhole(p)) if p.to_string() == "123.4"));
        assert_eq!(d("2147483647").stored(d("1")), Ok(i32::MAX));
        assert_eq!(d("-2147483648").stored(d("1")), Ok(i32::MIN));
        assert!(matches!(d("2147483648").stored(d("1")), Err(NotStored::TooLarge(_))));
        let most = d("999999999999999999");
        assert!(matches!(most.stored(most), Err(NotStored::TooLarge(_))));
    }

    #[test]
    fn nearest_float() {
        assert_eq!(d("0.1").float(), 0.1);
        assert_eq!(d("-1073.741823").float(), -1073.741823);
    }
}
