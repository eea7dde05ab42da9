//! A zone's rings out of a file of well-known binary: the bytes as they are, or as hexadecimal text, as databases print them.

use crate::board::{Place, Ring};
use crate::decimal::Decimal;
use brothstitch::{Mode, Outline};
use std::fs;
use std::path::Path;

/// The bytes that hexadecimal text stands for; none where the file is no such text. A polygon's bytes never are: they start with
/// 0 or 1, which is no letter or digit.
fn from_text(file: &[u8]) -> Option<Vec<u8>> {
    let text = std::str::from_utf8(file).ok()?.trim();
    let digits: Vec<u32> =
        text.strip_prefix("\\x").unwrap_or(text).chars().map(|c| c.to_digit(16)).collect::<Option<_>>()?;
    (digits.len() % 2 == 0 && !digits.is_empty()).then(|| digits.chunks(2).map(|d| (16 * d[0] + d[1]) as u8).collect())
}

/// A stored number in millimetres, for the drawing: the decimal nearest to it that is short enough.
fn millimetres(stored: i32, scale: f64) -> Option<Decimal> {
    let about = f64::from(stored) / scale;
    (0..=9).rev().find_map(|places| Decimal::parse(&format!("{about:.places$}")))
}

/// The rings of a polygon; the library reads it, and what it refuses is told in its words.
pub fn rings(file: &[u8], scale: Decimal, mode: Mode, line: usize) -> Result<Vec<Ring>, String> {
    let bytes = from_text(file).unwrap_or_else(|| file.to_vec());
    let outline = Outline::from_wkb(&bytes, scale.float(), mode).map_err(|refusal| refusal.to_string())?;
    let ring = |k| {
        let stored: Vec<(i32, i32)> = outline.ring(k).coords().chunks(2).map(|two| (two[0], two[1])).collect();
        let place = |&(x, y): &(i32, i32)| {
            let both = (millimetres(x, scale.float())?, millimetres(y, scale.float())?);
            Some(Place { x: both.0, y: both.1 })
        };
        let places: Option<Vec<Place>> = stored.iter().map(place).collect();
        Ok(Ring { places: places.ok_or("a place of more than 18 digits in millimetres")?, stored, line })
    };
    (0..outline.rings()).map(ring).collect()
}

/// The same from a file's name, which is looked up in the board's folder.
pub fn rings_of(folder: &Path, name: &str, scale: Decimal, mode: Mode, line: usize) -> Result<Vec<Ring>, String> {
    let file = fs::read(folder.join(name)).map_err(|error| format!("{name}, which cannot be read: {error}"))?;
    rings(&file, scale, mode, line).map_err(|refusal| format!("{name}: {refusal}"))
}

#[cfg(test)]
mod tests {
    use super::rings;
    use crate::decimal::Decimal;
    use brothstitch::Mode;

    /// What GEOS wrote; the comparison reads the same file.
    const FILES: &str = include_str!("../../../oracle/geos/polygons.txt");

    fn hex_of(name: &str) -> &str {
        let line = FILES.lines().find(|line| line.starts_with(name)).expect("the file has it");
        line.rsplit('|').next().expect("hexadecimal").trim()
    }

    fn binary(text: &str) -> Vec<u8> {
        super::from_text(text.as_bytes()).expect("hexadecimal")
    }

    #[test]
    fn binary_and_text_of_either_order() {
        let scale = Decimal::parse("1").expect("a scale");
        let square = vec![(0, 0), (10, 0), (10, 10), (0, 10), (0, 0)];
        for name in ["S, little endian", "S, big endian"] {
            let text = hex_of(name);
            let files = [binary(text), text.into(), text.to_lowercase().into(), format!("\\x{text}\n").into()];
            for file in files {
                let rings = rings(&file, scale, Mode::Float, 1).expect("a polygon");
                assert_eq!(rings.iter().map(|ring| &ring.stored).collect::<Vec<_>>(), [&square]);
                assert_eq!(rings[0].places[2].to_string(), "10,10");
            }
        }
    }

    #[test]
    fn every_file_of_geos_is_an_outline() {
        for line in FILES.lines().filter(|line| !line.starts_with('#')) {
            let text = line.rsplit('|').next().expect("hexadecimal").trim();
            for scale in ["1", "10", "0.5", "1000"] {
                let scale = Decimal::parse(scale).expect("a scale");
                let read = rings(text.as_bytes(), scale, Mode::Float, 1);
                assert!(read.as_ref().is_ok_and(|rings| !rings.is_empty()), "{line:.40}: {read:?}");
            }
        }
    }

    #[test]
    fn refusals_are_told() {
        let scale = Decimal::parse("1").expect("a scale");
        let told = |file: &[u8]| rings(file, scale, Mode::Float, 1).expect_err("no polygon");
        let good = binary(hex_of("S, little endian"));
        assert!(told(&good[..50]).starts_with("refusal 10"));
        assert!(told(b"POLYGON((0 0))").starts_with("refusal 11"));
        assert!(told(b"").starts_with("refusal 10"));
        let mut open = good.clone();
        open[20] = 0x40;
        assert!(told(&open).starts_with("refusal 4"));
    }
}
