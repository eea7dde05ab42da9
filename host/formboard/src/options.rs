//! The command line.

use crate::ask::{Damage, Room};
use brothstitch::BuildOptions;

pub const HELP: &str = "\
formboard: which zones of a form board hold each splice

usage: formboard [options] FILE

Reads a board from FILE (- is standard input), asks the proved library which
zones hold each splice, and prints a table: splice, place, the zones that hold
it, and its part. A splice that a wet zone holds gets a sealed part, any other
an unsealed one. If a zone refuses to answer, the splice gets no part, and the
table says which zone refused and why. Every broken zone is named once, with
its line, on standard error.

options (a value may also stand behind a =, as in --format=csv):
  --format FORM      table (default), csv or json
  --check            print what is worth a second look instead: broken zones,
                     zones that overlap, shared lines that neither zone holds
                     or both hold, splices less than a unit from a line
  --draw OUT         also draw the board as SVG (A4, landscape) into the file OUT,
                     which is never the board itself
  --index KIND       the index to ask through: none, stripes, tree or both
                     (default: tree). The answers are the same with each.
  --from SEGMENTS    build it for rings of at least so many segments (default: 64)
  --rays             draw the line along which a ring test counts crossings
  --damage ZONE:ROOM:PLACE:NUMBER
                     overwrite one number of a zone's index before asking, to see
                     it refused. ROOM is table, stripes, list or bytes; places
                     count from 0. May be given more than once.
  --help             print this
  --version          print the version
  --                 what follows is the file, whatever it begins with

The file, a line at a time (docs/BOARD.md has all of it):
  board TITLE               once, first; may be left out
  zone NAME KIND            KIND is wet, dry or hot; then, for this zone:
    edge excluded|allowed   whether a splice on its border is held
    mode float|integer      how places are compared with its lines
    scale S                 stored whole numbers are millimetres times S
    outline X,Y X,Y ..      the first place again at the end
    cut-out X,Y X,Y ..      any number of them
  splice NAME X,Y           in millimetres, as decimals
  # a comment; a line that starts with a place goes on with the ring above it

exit status:
  0  every zone was taken and every splice got its part; --check found nothing
  1  a zone or a splice was refused (table and drawing are made all the same);
     --check found something
  2  the command line or the file cannot be read, or an output cannot be written;
     for a file the message has the line number, what was expected, and what
     stood there. A reader that closes the pipe early is no error.
";

pub const VERSION: &str = concat!("formboard ", env!("CARGO_PKG_VERSION"), "\n");

/// How the answers are printed.
#[derive(Clone, Copy, Debug, PartialEq, Eq)]
pub enum Format {
    Table,
    Csv,
    Json,
}

/// What the command line asks for.
#[derive(Clone, Debug, PartialEq, Eq)]
pub struct Options {
    pub file: String,
    pub format: Format,
    pub draw: Option<String>,
    pub build: BuildOptions,
    pub rays: bool,
    pub check: bool,
    pub damages: Vec<Damage>,
}

#[derive(Clone, Debug, PartialEq, Eq)]
pub enum Command {
    Help,
    Version,
    Run(Options),
}

fn damage(text: &str) -> Option<Damage> {
    let parts: Vec<&str> = text.split(':').collect();
    let [zone, room, place, number] = parts[..] else {
        return None;
    };
    let room = match room {
        "table" => Room::Table,
        "stripes" => Room::Stripes,
        "list" => Room::List,
        "bytes" => Room::Bytes,
        _ => return None,
    };
    Some(Damage { zone: zone.to_string(), room, place: place.parse().ok()?, number: number.parse().ok()? })
}

/// The value of an option: behind a = in the same word, or the next word.
struct Value<'a, 'b> {
    option: &'b str,
    inline: Option<&'b str>,
    rest: &'a mut std::slice::Iter<'b, String>,
}

impl<'b> Value<'_, 'b> {
    fn of(&mut self, what: &str) -> Result<&'b str, String> {
        match self.inline.take() {
            Some(value) => Ok(value),
            None => {
                let next = self.rest.next().map(String::as_str);
                next.ok_or_else(|| format!("{}: expected {what} behind it", self.option))
            }
        }
    }

    /// One of some words.
    fn one_of<T: Copy>(&mut self, words: &[(&str, T)]) -> Result<T, String> {
        let names: Vec<&str> = words.iter().map(|(name, _)| *name).collect();
        let (last, first) = names.split_last().expect("there are words");
        let what = format!("{} or {last}", first.join(", "));
        let value = self.of(&what)?;
        let found = words.iter().find(|(name, _)| *name == value).map(|&(_, meant)| meant);
        found.ok_or_else(|| format!("{}: expected {what}, found \"{value}\"", self.option))
    }
}

impl Options {
    fn plain() -> Options {
        let build = BuildOptions::default();
        Options {
            file: String::new(),
            format: Format::Table,
            draw: None,
            build,
            rays: false,
            check: false,
            damages: Vec::new(),
        }
    }

    /// An option that takes a value; false where there is no such option.
    fn valued(&mut self, value: &mut Value) -> Result<bool, String> {
        match value.option {
            "--format" => {
                let words = [("table", Format::Table), ("csv", Format::Csv), ("json", Format::Json)];
                self.format = value.one_of(&words)?;
            }
            "--draw" => self.draw = Some(value.of("a file to draw into")?.to_string()),
            "--index" => {
                let words = [
                    ("none", (false, false)),
                    ("stripes", (true, false)),
                    ("tree", (false, true)),
                    ("both", (true, true)),
                ];
                (self.build.stripes, self.build.tree) = value.one_of(&words)?;
            }
            "--from" => {
                let word = value.of("a number of segments")?;
                let read = word.parse().map_err(|_| format!("--from: expected a number of segments, found \"{word}\""));
                self.build.min_segments = read?;
            }
            "--damage" => {
                let word = value.of("ZONE:ROOM:PLACE:NUMBER")?;
                let read =
                    damage(word).ok_or_else(|| format!("--damage: expected ZONE:ROOM:PLACE:NUMBER, found \"{word}\""));
                self.damages.push(read?);
            }
            _ => return Ok(false),
        }
        Ok(true)
    }
}

/// Reads the arguments behind the program's name.
pub fn parse(arguments: &[String]) -> Result<Command, String> {
    let mut file: Option<&str> = None;
    let mut options = Options::plain();
    let mut rest = arguments.iter();
    let mut only_files = false;
    while let Some(argument) = rest.next() {
        if !only_files && argument.starts_with('-') && argument != "-" {
            let (option, inline) = match argument.split_once('=') {
                Some((option, value)) if option.starts_with("--") => (option, Some(value)),
                _ => (argument.as_str(), None),
            };
            match (option, inline) {
                ("--", None) => only_files = true,
                ("--help" | "-h", None) => return Ok(Command::Help),
                ("--version" | "-V", None) => return Ok(Command::Version),
                ("--rays", None) => options.rays = true,
                ("--check", None) => options.check = true,
                _ => {
                    let mut value = Value { option, inline, rest: &mut rest };
                    if !options.valued(&mut value)? {
                        return Err(format!("expected an option or a file, found \"{argument}\""));
                    }
                }
            }
            continue;
        }
        if file.is_some() {
            return Err(format!("expected one file, found \"{argument}\" as well"));
        }
        file = Some(argument);
    }
    options.file = file.ok_or("expected a board file; --help tells more")?.to_string();
    Ok(Command::Run(options))
}
