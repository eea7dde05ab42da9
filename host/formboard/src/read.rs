//! Reads a board file. Its line form is docs/BOARD.md.

use crate::board::{Board, Kind, Place, Ring, Splice, Zone};
use crate::decimal::{Decimal, NotStored, MOST_DIGITS};
use crate::wkb;
use brothstitch::{Edge, Mode};
use std::collections::HashMap;
use std::error::Error;
use std::fmt;
use std::path::{Path, PathBuf};

/// Why a file is not a board.
#[derive(Clone, Debug, PartialEq, Eq)]
pub struct ReadError {
    /// Counted from 1.
    pub line: usize,
    pub expected: String,
    pub found: String,
}

impl fmt::Display for ReadError {
    fn fmt(&self, f: &mut fmt::Formatter) -> fmt::Result {
        write!(f, "line {}: expected {}, found {}", self.line, self.expected, self.found)
    }
}

impl Error for ReadError {}

type Read<T> = Result<T, ReadError>;

const MOST_NAME: usize = 20;
const MOST_TITLE: usize = 60;
const KEYWORDS: &str = "board, zone, edge, mode, scale, outline, cut-out, wkb or splice";

/// A line's words, without its comment.
struct Line<'a> {
    number: usize,
    text: &'a str,
    words: Vec<&'a str>,
}

impl<'a> Line<'a> {
    fn of(number: usize, text: &'a str) -> Line<'a> {
        let text = comment_cut(text).trim();
        Line { number, text, words: text.split_whitespace().collect() }
    }

    fn error<T>(&self, expected: impl Into<String>, found: impl Into<String>) -> Read<T> {
        Err(ReadError { line: self.number, expected: expected.into(), found: found.into() })
    }

    /// The one word behind the keyword.
    fn only(&self, what: &str) -> Read<&'a str> {
        match self.words[1..] {
            [word] => Ok(word),
            [] => self.error(what, "the end of the line"),
            [_, more, ..] => self.error(format!("{what} and nothing behind it"), quoted(more)),
        }
    }

    /// The two words behind the keyword.
    fn two(&self, first: &str, second: &str) -> Read<(&'a str, &'a str)> {
        match self.words[1..] {
            [a, b] => Ok((a, b)),
            [] => self.error(first, "the end of the line"),
            [_] => self.error(second, "the end of the line"),
            [_, _, more, ..] => self.error(format!("{first}, {second} and nothing behind them"), quoted(more)),
        }
    }

    fn name(&self, word: &str) -> Read<String> {
        let plain = |c: char| c.is_alphanumeric() || "-_./".contains(c);
        if !word.chars().all(plain) || word.chars().count() > MOST_NAME {
            let expected =
                format!("a name of at most {MOST_NAME} letters, digits, hyphens, underlines, dots and slashes");
            return self.error(expected, quoted(word));
        }
        Ok(word.to_string())
    }

    fn decimal(&self, word: &str, what: &str) -> Read<Decimal> {
        Decimal::parse(word).map_or_else(
            || self.error(format!("{what} as a decimal of at most {MOST_DIGITS} digits"), quoted(word)),
            Ok,
        )
    }

    fn place(&self, word: &str) -> Read<Place> {
        let Some((x, y)) = word.split_once(',') else {
            return self.error("a place X,Y in millimetres", quoted(word));
        };
        Ok(Place { x: self.decimal(x, "the X of a place")?, y: self.decimal(y, "the Y of a place")? })
    }

    fn stored(&self, value: Decimal, scale: Decimal) -> Read<i32> {
        value.stored(scale).or_else(|not| {
            let (expected, product) = match not {
                NotStored::NotWhole(product) => ("a whole number".to_string(), product),
                NotStored::TooLarge(product) => (format!("from {} to {}", i32::MIN, i32::MAX), product),
            };
            let expected = format!("a coordinate that times the scale {scale} is {expected}");
            self.error(expected, format!("{value}, which makes {product}"))
        })
    }
}

/// What stands before a comment: a `#` at the start of the line or behind a blank.
fn comment_cut(text: &str) -> &str {
    let starts = |(at, _): &(usize, &str)| text[..*at].chars().next_back().is_none_or(char::is_whitespace);
    let comment = text.match_indices('#').find(starts);
    comment.map_or(text, |(at, _)| &text[..at])
}

/// What stood there, short and in one line.
fn quoted(word: &str) -> String {
    let shown: String = word.chars().take(40).flat_map(char::escape_debug).collect();
    let more = if word.chars().count() > 40 { ".." } else { "" };
    format!("\"{shown}{more}\"")
}

/// A zone whose lines are being read.
struct Open {
    line: usize,
    name: String,
    kind: Kind,
    edge: Option<Edge>,
    mode: Option<Mode>,
    scale: Option<Decimal>,
    rings: Vec<Ring>,
    /// The rings are those of a file, which is all of the zone's outline.
    from_file: bool,
}

impl Open {
    /// What is still to be said before the outline.
    fn missing(&self) -> Vec<&'static str> {
        let all = [(self.edge.is_none(), "edge"), (self.mode.is_none(), "mode"), (self.scale.is_none(), "scale")];
        all.iter().filter(|(lacks, _)| *lacks).map(|&(_, word)| word).collect()
    }
}

#[derive(Default)]
struct Reader {
    title: Option<String>,
    zones: Vec<Zone>,
    splices: Vec<Splice>,
    /// The names of splices, and the lines where they stand.
    used: HashMap<String, usize>,
    open: Option<Open>,
    /// Where files that the board names are looked up.
    folder: PathBuf,
}

impl Reader {
    fn line(&mut self, line: &Line) -> Read<()> {
        let Some(&first) = line.words.first() else {
            return Ok(());
        };
        match first {
            "board" => self.board(line),
            "zone" => self.zone(line),
            "edge" | "mode" | "scale" => self.setting(line, first),
            "outline" | "cut-out" => self.ring(line, first == "outline"),
            "wkb" => self.wkb(line),
            "splice" => self.splice(line),
            _ if first.starts_with(|c: char| c.is_ascii_digit() || c == '-' || c == '.') => {
                self.more(line, &line.words)
            }
            _ => line.error(format!("{KEYWORDS}, or a place that goes on with a ring"), quoted(first)),
        }
    }

    fn board(&mut self, line: &Line) -> Read<()> {
        if self.title.is_some() || self.open.is_some() || !self.zones.is_empty() || !self.splices.is_empty() {
            return line.error("the board's title once, before all else", quoted(line.text));
        }
        let title = line.text["board".len()..].trim();
        if title.is_empty() {
            return line.error("the board's title", "the end of the line");
        }
        if title.chars().count() > MOST_TITLE || title.chars().any(char::is_control) {
            return line.error(format!("a title of at most {MOST_TITLE} printable characters"), quoted(title));
        }
        self.title = Some(title.to_string());
        Ok(())
    }

    fn zone(&mut self, line: &Line) -> Read<()> {
        self.close(line.number, &quoted(line.words[0]))?;
        let (name, kind) = line.two("a zone's name", "its kind (wet, dry or hot)")?;
        let name = line.name(name)?;
        if let Some(zone) = self.zones.iter().find(|zone| zone.name == name) {
            let found = format!("{}, used in line {}", quoted(&name), zone.line);
            return line.error("a zone's name that is not used yet", found);
        }
        let Some(kind) = Kind::ALL.into_iter().find(|k| k.word() == kind) else {
            return line.error("a zone's kind: wet, dry or hot", quoted(kind));
        };
        let (rings, from_file) = (Vec::new(), false);
        self.open = Some(Open { line: line.number, name, kind, edge: None, mode: None, scale: None, rings, from_file });
        Ok(())
    }

    fn setting(&mut self, line: &Line, keyword: &str) -> Read<()> {
        let Some(open) = self.open.as_mut() else {
            return line.error(format!("a zone before its {keyword}"), quoted(line.text));
        };
        if !open.missing().contains(&keyword) {
            return line
                .error(format!("one {keyword} for zone {}", open.name), format!("a second, {}", quoted(line.text)));
        }
        match keyword {
            "edge" => {
                open.edge = Some(match line.only("an edge rule: excluded or allowed")? {
                    "excluded" => Edge::Excluded,
                    "allowed" => Edge::Allowed,
                    word => return line.error("an edge rule: excluded or allowed", quoted(word)),
                });
            }
            "mode" => {
                open.mode = Some(match line.only("a mode: float or integer")? {
                    "float" => Mode::Float,
                    "integer" => Mode::Integer,
                    word => return line.error("a mode: float or integer", quoted(word)),
                });
            }
            _ => open.scale = Some(line.decimal(line.only("a scale")?, "a scale")?),
        }
        Ok(())
    }

    fn ring(&mut self, line: &Line, outline: bool) -> Read<()> {
        let keyword = line.words[0];
        let Some(open) = self.open.as_mut() else {
            return line.error(format!("a zone before its {keyword}"), quoted(line.text));
        };
        let missing = open.missing();
        if let Some(word) = missing.first() {
            return line.error(format!("the {word} of zone {} before its rings", open.name), quoted(keyword));
        }
        if open.from_file {
            return line.error(format!("no ring for zone {} beside its wkb file", open.name), quoted(keyword));
        }
        match (outline, open.rings.is_empty()) {
            (true, false) => {
                return line.error(format!("one outline for zone {}", open.name), "a second outline");
            }
            (false, true) => {
                return line.error(format!("the outline of zone {} before its cut-outs", open.name), quoted(keyword));
            }
            _ => open.rings.push(Ring { line: line.number, ..Ring::default() }),
        }
        if line.words.len() < 2 {
            return line.error("the ring's places X,Y", "the end of the line");
        }
        self.more(line, &line.words[1..])
    }

    /// The outline and its cut-outs out of a file of well-known binary.
    fn wkb(&mut self, line: &Line) -> Read<()> {
        let Some(open) = self.open.as_mut() else {
            return line.error("a zone before its wkb", quoted(line.text));
        };
        let (Some(scale), Some(mode), []) = (open.scale, open.mode, &open.missing()[..]) else {
            return line
                .error(format!("the {} of zone {} before its rings", open.missing()[0], open.name), quoted("wkb"));
        };
        if !open.rings.is_empty() {
            return line.error(format!("one outline for zone {}", open.name), "a second outline");
        }
        let name = line.only("a file of well-known binary")?;
        open.rings = wkb::rings_of(&self.folder, name, scale, mode, line.number)
            .or_else(|found| line.error("a file with a polygon in well-known binary", found))?;
        open.from_file = true;
        Ok(())
    }

    /// Places of the ring that was begun.
    fn more(&mut self, line: &Line, words: &[&str]) -> Read<()> {
        let own = self.open.as_mut().filter(|open| !open.from_file);
        let begun = own.and_then(|open| Some((open.scale?, open.rings.last_mut()?)));
        let Some((scale, ring)) = begun else {
            return line
                .error(format!("{KEYWORDS} (no ring is begun that a place could go on with)"), quoted(words[0]));
        };
        for word in words {
            let place = line.place(word)?;
            ring.stored.push((line.stored(place.x, scale)?, line.stored(place.y, scale)?));
            ring.places.push(place);
        }
        Ok(())
    }

    fn splice(&mut self, line: &Line) -> Read<()> {
        self.close(line.number, &quoted(line.words[0]))?;
        let (name, place) = line.two("a splice's name", "its place X,Y")?;
        let name = line.name(name)?;
        if let Some(used) = self.used.insert(name.clone(), line.number) {
            return line
                .error("a splice's name that is not used yet", format!("{}, used in line {used}", quoted(&name)));
        }
        let place = line.place(place)?;
        self.splices.push(Splice { name, place });
        Ok(())
    }

    /// Ends the zone that is open, if one is.
    fn close(&mut self, line: usize, found: &str) -> Read<()> {
        let Some(open) = self.open.take() else {
            return Ok(());
        };
        let Open { line: begun, name, kind, edge: Some(edge), mode: Some(mode), scale: Some(scale), rings, .. } = open
        else {
            let expected = format!("{} and outline of zone {}", open.missing().join(", "), open.name);
            return Err(ReadError { line, expected, found: found.to_string() });
        };
        if rings.is_empty() {
            let expected = format!("the outline of zone {name}");
            return Err(ReadError { line, expected, found: found.to_string() });
        }
        self.zones.push(Zone { line: begun, name, kind, edge, mode, scale, rings });
        Ok(())
    }
}

/// What some editors put before a text in UTF-8.
const BYTE_ORDER_MARK: &[u8] = b"\xEF\xBB\xBF";

/// Reads a board from a file's bytes; files that it names are looked up where the program runs.
pub fn read(bytes: &[u8]) -> Read<Board> {
    read_in(bytes, Path::new(""))
}

/// The same with a folder for the files that it names.
pub fn read_in(bytes: &[u8], folder: &Path) -> Read<Board> {
    let bytes = bytes.strip_prefix(BYTE_ORDER_MARK).unwrap_or(bytes);
    let mut reader = Reader { folder: folder.to_path_buf(), ..Reader::default() };
    let mut last = 0;
    for (k, bytes) in bytes.split(|&b| b == b'\n').enumerate() {
        last = k + 1;
        let text = std::str::from_utf8(bytes).map_err(|error| {
            let at = error.valid_up_to();
            let found = format!("the byte {:02X} at place {} of the line", bytes[at], at + 1);
            ReadError { line: last, expected: "text in UTF-8".to_string(), found }
        })?;
        reader.line(&Line::of(last, text))?;
    }
    let end = "the end of the file";
    reader.close(last, end)?;
    if reader.zones.is_empty() {
        return Err(ReadError { line: last, expected: "at least one zone".to_string(), found: end.to_string() });
    }
    Ok(Board {
        title: reader.title.unwrap_or_else(|| "Board".to_string()),
        zones: reader.zones,
        splices: reader.splices,
    })
}
