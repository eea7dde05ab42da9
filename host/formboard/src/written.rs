//! Whether a splice lies on a ring as the file writes it: in whole numbers, with nothing rounded. The answers are the
//! library's, in floats or on its grid; this only tells where what is written and what is asked part.

use crate::board::{Place, Ring};
use crate::decimal::Decimal;

/// A place times a zone's scale, exactly: whole numbers over a power of ten.
#[derive(Clone, Copy, Debug)]
pub struct Written {
    x: i128,
    y: i128,
    unit: i128,
    /// The height in floats, to pass over lines that are far from it.
    about: f64,
}

impl Written {
    /// None where the decimals are too long to be multiplied exactly.
    pub fn of(place: Place, scale: Decimal) -> Option<Written> {
        let ([x, y], unit) = Decimal::scaled_pair(place.x, place.y, scale)?;
        Some(Written { x, y, unit, about: place.y.float() * scale.float() })
    }

    /// Whether it lies on a line of the ring. Where the numbers grow too long to tell, it says no.
    pub fn on(&self, ring: &Ring) -> bool {
        ring.stored.windows(2).any(|ends| {
            let (low, high) = (ends[0].1.min(ends[1].1), ends[0].1.max(ends[1].1));
            f64::from(low) - 1.0 <= self.about
                && self.about <= f64::from(high) + 1.0
                && self.on_line(ends[0], ends[1]) == Some(true)
        })
    }

    fn on_line(&self, a: (i32, i32), b: (i32, i32)) -> Option<bool> {
        let whole = |v: i32| i128::from(v).checked_mul(self.unit);
        let (ax, ay, bx, by) = (whole(a.0)?, whole(a.1)?, whole(b.0)?, whole(b.1)?);
        let within = |v: i128, p: i128, q: i128| p.min(q) <= v && v <= p.max(q);
        if !within(self.x, ax, bx) || !within(self.y, ay, by) {
            return Some(false);
        }
        let (dx, dy) = (i128::from(b.0) - i128::from(a.0), i128::from(b.1) - i128::from(a.1));
        Some(dx.checked_mul(self.y - ay)? == dy.checked_mul(self.x - ax)?)
    }
}

#[cfg(test)]
mod tests {
    use super::Written;
    use crate::board::{Place, Ring};
    use crate::decimal::Decimal;

    fn on(x: &str, y: &str, scale: &str, stored: &[(i32, i32)]) -> bool {
        let d = |text: &str| Decimal::parse(text).expect(text);
        let ring = Ring { stored: stored.to_vec(), ..Ring::default() };
        Written::of(Place { x: d(x), y: d(y) }, d(scale)).is_some_and(|place| place.on(&ring))
    }

    #[test]
    fn on_a_line_as_written() {
        let box_of = [(0, 0), (110, 0), (110, 220), (0, 220), (0, 0)];
        for (x, y) in [("1.1", "1"), ("0.5", "2.2"), ("1.1", "2.2"), ("0", "0"), ("1.10", "0.001")] {
            assert!(on(x, y, "100", &box_of), "{x},{y}");
        }
        for (x, y) in [("1.1", "2.21"), ("1.0999999999999999", "1"), ("0.5", "1"), ("-0.1", "0")] {
            assert!(!on(x, y, "100", &box_of), "{x},{y}");
        }
        let slanted = [(0, 0), (3, 1), (0, 0)];
        assert!(on("1.5", "0.5", "1", &slanted) && on("0.3", "0.1", "1", &slanted));
        assert!(!on("1", "0.33333333333333333", "1", &slanted));
    }

    /// Decimals whose product can't be held are not told to lie on a line.
    #[test]
    fn too_long_to_tell() {
        let far = [(i32::MIN, 0), (i32::MAX, 1), (i32::MIN, 0)];
        assert!(!on("0.00000000000000001", "0.5", "0.00000000000000001", &far));
    }
}
