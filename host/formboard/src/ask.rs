//! Asks the library about every splice. No answer is worked out here.

use crate::board::{Board, Kind, Place, Ring, Zone};
use crate::written::Written;
use brothstitch::{BuildOptions, Edge, Outline, Refusal};

/// One number of a zone's index, overwritten before the questions: for lessons.
#[derive(Clone, Debug, PartialEq, Eq)]
pub struct Damage {
    pub zone: String,
    pub room: Room,
    pub place: usize,
    pub number: u64,
}

/// A room of an index.
#[derive(Clone, Copy, Debug, PartialEq, Eq)]
pub enum Room {
    Table,
    Stripes,
    List,
    Bytes,
}

/// The part that a splice gets.
#[derive(Clone, Copy, Debug, PartialEq, Eq)]
pub enum Part {
    Sealed,
    Unsealed,
    /// A zone refused, so nothing is known.
    None,
}

/// What the library said about a splice. Zones are numbered as in the board.
#[derive(Clone, Debug, PartialEq, Eq)]
pub struct Said {
    /// The zones that hold it, or the first that refused.
    pub held: Result<Vec<usize>, (usize, Refusal)>,
    /// The zones on whose outline it lies.
    pub borders: Vec<usize>,
    /// The cut-outs on whose rim it lies: zone and ring.
    pub rims: Vec<(usize, usize)>,
    /// The rings on which it lies as it is written, and not as it is asked: zone and ring.
    pub written: Vec<(usize, usize)>,
    pub part: Part,
}

/// A zone that the library refused as a whole, before any question.
#[derive(Clone, Copy, Debug, PartialEq, Eq)]
pub struct Fault {
    pub zone: usize,
    pub refusal: Refusal,
}

/// What the library said of a board.
#[derive(Clone, Debug, PartialEq, Eq)]
pub struct Answers {
    /// One for each splice.
    pub said: Vec<Said>,
    /// One for each zone that was refused.
    pub faults: Vec<Fault>,
}

impl Answers {
    /// Whether every zone was taken and every splice got its part.
    pub fn all_well(&self) -> bool {
        self.faults.is_empty() && self.said.iter().all(|said| said.part != Part::None)
    }
}

impl Fault {
    /// The line of the file and the words that say what is wrong there.
    pub fn words(self, board: &Board) -> (usize, String) {
        let zone = &board.zones[self.zone];
        let ring = match self.refusal {
            Refusal::TooFew { ring } | Refusal::TooManyPoints { ring } | Refusal::NotClosed { ring } => ring,
            _ => return (zone.line, format!("zone {}: {}", zone.name, self.refusal)),
        };
        let k = usize::try_from(ring).unwrap_or(usize::MAX);
        let line = zone.rings.get(k).map_or(zone.line, |ring| ring.line);
        (line, format!("zone {}, {}: {}", zone.name, ring_word(k), self.refusal))
    }
}

/// A ring in the file's words.
pub fn ring_word(k: usize) -> String {
    match k {
        0 => "its outline".to_string(),
        k => format!("its cut-out {k}"),
    }
}

/// A zone as the library is asked about it.
struct Asked {
    edge: Edge,
    outline: Outline,
    /// Each ring as an outline of its own, to learn whether a splice is on it.
    alone: Vec<Outline>,
}

fn outline_of(zone: &Zone, rings: &[Ring]) -> Result<Outline, Refusal> {
    let stored: Vec<&[(i32, i32)]> = rings.iter().map(|ring| ring.stored.as_slice()).collect();
    Outline::new(&stored, zone.scale.float(), zone.mode)
}

impl Asked {
    fn of(zone: &Zone, options: BuildOptions) -> Result<Asked, Refusal> {
        let mut outline = outline_of(zone, &zone.rings)?;
        outline.build(options)?;
        let alone = zone.rings.iter().map(|ring| Asked::alone(zone, ring)).collect::<Result<_, _>>()?;
        Ok(Asked { edge: zone.edge, outline, alone })
    }

    /// A ring as an outline of its own. Where stripes can't be built for it, it is scanned; the answers are the same.
    fn alone(zone: &Zone, ring: &Ring) -> Result<Outline, Refusal> {
        let mut outline = outline_of(zone, std::slice::from_ref(ring))?;
        let stripes = BuildOptions { stripes: true, tree: false, ..BuildOptions::default() };
        match outline.build(stripes) {
            Ok(()) | Err(Refusal::NoRoom) => Ok(outline),
            Err(refusal) => Err(refusal),
        }
    }

    /// The rings that a place is on: those whose answer hangs on the edge rule.
    fn on(&self, x: f64, y: f64) -> Result<Vec<usize>, Refusal> {
        let mut on = Vec::new();
        for (k, ring) in self.alone.iter().enumerate() {
            if ring.contains(x, y, Edge::Excluded)? != ring.contains(x, y, Edge::Allowed)? {
                on.push(k);
            }
        }
        Ok(on)
    }
}

/// Why a number could not be overwritten.
fn damage(asked: &mut Asked, damage: &Damage) -> Result<(), String> {
    let Damage { room, place, number, .. } = *damage;
    let index = asked.outline.index_mut();
    let past = |len: usize| format!("--damage: place {place} is past the end of the room, which has {len} numbers");
    let row = match room {
        Room::Table => {
            let len = index.table.len();
            *index.table.get_mut(place).ok_or_else(|| past(len))? = number;
            return Ok(());
        }
        Room::Stripes => &mut index.stripes,
        Room::List => &mut index.list,
        Room::Bytes => {
            let len = index.bytes.len();
            let byte = index.bytes.get_mut(place).ok_or_else(|| past(len))?;
            *byte = u8::try_from(number).map_err(|_| format!("--damage: {number} is no byte"))?;
            return Ok(());
        }
    };
    let len = row.len();
    let old = row.get_mut(place).ok_or_else(|| past(len))?;
    *old = u32::try_from(number).map_err(|_| format!("--damage: {number} is no number of 32 bits"))?;
    Ok(())
}

/// Asks every zone about every splice, in the board's order.
pub fn ask(board: &Board, options: BuildOptions, damages: &[Damage]) -> Result<Answers, String> {
    let mut zones: Vec<Result<Asked, Refusal>> = board.zones.iter().map(|zone| Asked::of(zone, options)).collect();
    for d in damages {
        let k = board.zones.iter().position(|zone| zone.name == d.zone);
        match k.and_then(|k| zones[k].as_mut().ok()) {
            Some(asked) => damage(asked, d)?,
            None => return Err(format!("--damage: no zone {} that has an index", d.zone)),
        }
    }
    let said = board.splices.iter().map(|splice| say(board, &zones, splice.place)).collect();
    let refused =
        |(zone, asked): (usize, &Result<Asked, Refusal>)| asked.as_ref().err().map(|&refusal| Fault { zone, refusal });
    Ok(Answers { said, faults: zones.iter().enumerate().filter_map(refused).collect() })
}

/// The rings of a zone on which a place lies as it is written.
fn written(zone: &Zone, place: Place) -> impl Iterator<Item = usize> + '_ {
    let exact = Written::of(place, zone.scale);
    (0..zone.rings.len()).filter(move |&k| exact.is_some_and(|exact| exact.on(&zone.rings[k])))
}

fn say(board: &Board, zones: &[Result<Asked, Refusal>], place: Place) -> Said {
    let (x, y) = place.floats();
    let mut said =
        Said { held: Ok(Vec::new()), borders: Vec::new(), rims: Vec::new(), written: Vec::new(), part: Part::None };
    for (z, zone) in zones.iter().enumerate() {
        let answer = zone.as_ref().map_err(|&refusal| refusal).and_then(|asked| {
            let on = asked.on(x, y)?;
            Ok((asked.outline.contains(x, y, asked.edge)?, on))
        });
        match (answer, &mut said.held) {
            (Ok((holds, on)), held) => {
                said.borders.extend(on.iter().filter(|&&k| k == 0).map(|_| z));
                said.rims.extend(on.iter().filter(|&&k| k > 0).map(|&k| (z, k)));
                said.written.extend(written(&board.zones[z], place).filter(|k| !on.contains(k)).map(|k| (z, k)));
                if let (Ok(all), true) = (held, holds) {
                    all.push(z);
                }
            }
            (Err(refusal), held @ Ok(_)) => *held = Err((z, refusal)),
            (Err(_), Err(_)) => {}
        }
    }
    said.part = match &said.held {
        Err(_) => Part::None,
        Ok(all) if all.iter().any(|&z| board.zones[z].kind == Kind::Wet) => Part::Sealed,
        Ok(_) => Part::Unsealed,
    };
    said
}
