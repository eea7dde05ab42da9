//! A whole outline: an exterior and its cut-outs, a scale and a mode, and the indexes of its rings.

use crate::ffi::{self, Asked, IndexRooms, LentIndex, LentRings};
use crate::ring::Ring;
use crate::rooms::Room;
use crate::row;
use crate::{Edge, Mode, Refusal};

/// Which indexes are built, and from how many segments on.
#[derive(Clone, Copy, Debug, PartialEq, Eq)]
pub struct BuildOptions {
    pub stripes: bool,
    pub tree: bool,
    pub min_segments: usize,
}

impl BuildOptions {
    pub const DEFAULT_MIN_SEGMENTS: usize = 64;

    fn bits(self) -> u32 {
        u32::from(self.stripes) + 2 * u32::from(self.tree)
    }
}

impl Default for BuildOptions {
    fn default() -> Self {
        BuildOptions { stripes: false, tree: true, min_segments: Self::DEFAULT_MIN_SEGMENTS }
    }
}

/// The indexes of all rings as the library wrote them: ten numbers a ring in the table, two in `spans`,
/// and what the table points into. The numbers may be changed at will: a question takes any, and tells
/// damage where it reads it. An empty index is none: each ring is then scanned.
#[derive(Clone, Debug, Default, PartialEq)]
pub struct Index {
    pub table: Vec<u64>,
    pub spans: Vec<f64>,
    pub stripes: Vec<u32>,
    pub list: Vec<u32>,
    pub bytes: Vec<u8>,
}

/// The statistics of a ring's stripes.
#[derive(Clone, Copy, Debug, PartialEq, Eq)]
pub struct StripeStats {
    pub segments: u64,
    pub stripes: u64,
    /// Numbers of the list, of all stripes.
    pub entries: u64,
    /// Numbers of the stripe that has most.
    pub fullest: u64,
}

impl StripeStats {
    pub(crate) fn of([segments, stripes, entries, fullest]: [u64; 4]) -> Self {
        StripeStats { segments, stripes, entries, fullest }
    }
}

/// What a build did for a ring.
#[derive(Clone, Copy, Debug, PartialEq, Eq)]
pub struct RingStats {
    pub segments: u64,
    /// An index was asked for, and the ring has too few segments.
    pub below_threshold: bool,
    pub stripes: Option<StripeStats>,
    pub tree: bool,
}

/// A ring's box.
#[derive(Clone, Copy, Debug, PartialEq, Eq)]
pub struct Bounds {
    pub min: (i32, i32),
    pub max: (i32, i32),
}

/// An outline that the library accepted. It owns its coordinates, the box of each ring, and the indexes. The
/// boxes are the record that the library made of these coordinates, and nothing here changes the one without
/// the other: a question believes its record as it stands, and one that is another outline's would be no
/// refusal and a wrong answer.
#[derive(Clone, Debug, PartialEq)]
pub struct Outline {
    sizes: Vec<u32>,
    coords: Vec<i32>,
    scale: f64,
    mode: Mode,
    boxes: Vec<i32>,
    index: Index,
}

impl Outline {
    pub const MAX_RINGS: usize = 64;
    pub const MIN_POINTS: usize = 2;
    pub const MAX_POINTS: usize = 4097;

    /// An outline of rings, the exterior first; each ring's first point stands again at its end.
    pub fn new<R: AsRef<[(i32, i32)]>>(rings: &[R], scale: f64, mode: Mode) -> Result<Outline, Refusal> {
        let sizes = rings.iter().map(|ring| u32::try_from(ring.as_ref().len()).unwrap_or(u32::MAX)).collect();
        let coords = rings.iter().flat_map(|ring| ring.as_ref().iter().flat_map(|&(x, y)| [x, y])).collect();
        Outline::from_numbers(sizes, coords, scale, mode)
    }

    /// The same from the point count of each ring, and all coordinates one after the other.
    pub fn from_numbers(sizes: Vec<u32>, coords: Vec<i32>, scale: f64, mode: Mode) -> Result<Outline, Refusal> {
        // a longer row of sizes is refused as too many rings, before any room is looked at
        let mut boxes = vec![0; 4 * sizes.len().min(Outline::MAX_RINGS)];
        ffi::make(LentRings { sizes: &sizes, coords: &coords }, scale, mode.number(), &mut boxes)?;
        Ok(Outline { sizes, coords, scale, mode, boxes, index: Index::default() })
    }

    /// The same from a polygon in well-known binary (OGC 06-103r4), of either byte order; docs/WKB.md has its fields. Each
    /// coordinate is multiplied by the scale once and rounded to the nearest whole number, halves away from zero.
    pub fn from_wkb(bytes: &[u8], scale: f64, mode: Mode) -> Result<Outline, Refusal> {
        // a point takes 16 bytes and has two numbers, so this is never too little
        let (mut sizes, mut coords) = (vec![0; Outline::MAX_RINGS], vec![0; bytes.len() / 8]);
        let (rings, numbers) = ffi::read_wkb(bytes, scale, &mut sizes, &mut coords)?;
        sizes.truncate(rings as usize);
        coords.truncate(numbers as usize);
        Outline::from_numbers(sizes, coords, scale, mode)
    }

    /// Builds the indexes that the options ask for, in place of those that were there. Room that proves
    /// too small is doubled and the library asked again. Refusal 8 comes back where no room helps, or where
    /// the lists would pass 2^24 numbers.
    pub fn build(&mut self, options: BuildOptions) -> Result<(), Refusal> {
        let (rings, points) = (self.sizes.len(), self.coords.len() / 2);
        let most = Room::most(rings, points, options.stripes, options.tree);
        let mut room = Room::first(rings, points, options.stripes, options.tree);
        loop {
            match self.build_in(room, options) {
                Err(Refusal::NoRoom) => room = room.grown(most).ok_or(Refusal::NoRoom)?,
                built => return built.map(|index| self.index = index),
            }
        }
    }

    fn build_in(&self, room: Room, options: BuildOptions) -> Result<Index, Refusal> {
        let rings = self.sizes.len();
        let mut index = Index {
            table: vec![0; row::NUMBERS * rings],
            spans: vec![0.0; 2 * rings],
            stripes: vec![0; room.stripes],
            list: vec![0; room.list],
            bytes: vec![0; room.bytes],
        };
        let rooms = IndexRooms {
            table: &mut index.table,
            spans: &mut index.spans,
            stripes: &mut index.stripes,
            list: &mut index.list,
            bytes: &mut index.bytes,
            work: &mut vec![0; room.work],
        };
        ffi::build(self.lent(), options.bits(), options.min_segments, rooms)?;
        let used = |column: usize| {
            index.table.chunks_exact(row::NUMBERS).map(|numbers| numbers[column] as usize).sum::<usize>()
        };
        let (stripes, list, bytes) = (2 * used(row::STRIPES), used(row::ENTRIES), used(row::BYTES));
        index.stripes.truncate(stripes);
        index.list.truncate(list);
        index.bytes.truncate(bytes);
        Ok(index)
    }

    fn lent(&self) -> LentRings<'_> {
        LentRings { sizes: &self.sizes, coords: &self.coords }
    }

    /// Whether the outline holds a place: a place without scale, which the library multiplies.
    pub fn contains(&self, x: f64, y: f64, edge: Edge) -> Result<bool, Refusal> {
        let Index { table, spans, stripes, list, bytes } = &self.index;
        let index = LentIndex { table, spans, stripes, list, bytes };
        let asked = Asked { scale: self.scale, mode: self.mode.number(), x, y, edge: edge.number() };
        ffi::inside(self.lent(), &self.boxes, index, asked).map(|said| said.yes)
    }

    /// The same by the points alone: neither the boxes nor the index is looked at, and every ring is scanned.
    /// It is what [`Outline::contains`] answers with an index that was built from these rings, or with none;
    /// so it tells whether an index that came from elsewhere can be relied on at a place.
    pub fn contains_plain(&self, x: f64, y: f64, edge: Edge) -> Result<bool, Refusal> {
        let asked = Asked { scale: self.scale, mode: self.mode.number(), x, y, edge: edge.number() };
        ffi::inside_plain(self.lent(), asked).map(|said| said.yes)
    }

    pub fn scale(&self) -> f64 {
        self.scale
    }

    pub fn mode(&self) -> Mode {
        self.mode
    }

    /// How many rings there are, the exterior among them.
    pub fn rings(&self) -> usize {
        self.sizes.len()
    }

    /// Ring k, the exterior being 0. Panics where there is none.
    pub fn ring(&self, k: usize) -> Ring<'_> {
        let start: usize = self.sizes[..k].iter().map(|&size| 2 * size as usize).sum();
        Ring::new(&self.coords[start..start + 2 * self.sizes[k] as usize])
    }

    /// The box of ring k. Panics where there is none.
    pub fn bounds(&self, k: usize) -> Bounds {
        let four = &self.boxes[4 * k..4 * k + 4];
        Bounds { min: (four[0], four[1]), max: (four[2], four[3]) }
    }

    pub fn index(&self) -> &Index {
        &self.index
    }

    /// The index, to be carried elsewhere or changed. It need not be good: see [`Index`].
    pub fn index_mut(&mut self) -> &mut Index {
        &mut self.index
    }

    /// What the last build did for ring k; none before a build.
    pub fn stats(&self, k: usize) -> Option<RingStats> {
        let numbers = self.index.table.get(row::NUMBERS * k..row::NUMBERS * (k + 1))?;
        let [segments, stripes, entries, fullest] =
            [row::SEGMENTS, row::STRIPES, row::ENTRIES, row::FULLEST].map(|column| numbers[column]);
        let four = StripeStats { segments, stripes, entries, fullest };
        Some(RingStats {
            segments,
            below_threshold: numbers[row::UNDER] == 1,
            stripes: (numbers[row::KINDS] & 1 == 1).then_some(four),
            tree: numbers[row::KINDS] & 2 == 2,
        })
    }
}

#[cfg(test)]
mod tests {
    use super::{Bounds, BuildOptions, Outline, StripeStats};
    use crate::{Edge, Mode, Refusal};

    type Points = Vec<(i32, i32)>;

    fn square(from: i32, to: i32) -> Points {
        vec![(from, from), (to, from), (to, to), (from, to), (from, from)]
    }

    /// 01's S, and H, which has a cut-out.
    fn sheet(mode: Mode) -> [Outline; 2] {
        let rings = [square(0, 10), square(2, 8)];
        [Outline::new(&rings[..1], 1.0, mode).unwrap(), Outline::new(&rings, 1.0, mode).unwrap()]
    }

    fn every_option() -> impl Iterator<Item = BuildOptions> {
        (0..4).map(|bits| BuildOptions { stripes: bits & 1 == 1, tree: bits & 2 == 2, min_segments: 0 })
    }

    #[test]
    fn the_sample_sheet() {
        let cases = [
            (0, 5.0, 5.0, true, true),
            (0, 11.0, 5.0, false, false),
            (0, 0.0, 5.0, false, true),
            (0, f64::NAN, 5.0, false, false),
            (0, 5.0, f64::INFINITY, false, false),
            (1, 5.0, 5.0, false, false),
            (1, 1.0, 1.0, true, true),
            (1, 2.0, 5.0, true, true),
        ];
        for mode in [Mode::Float, Mode::Integer] {
            for options in every_option() {
                let mut outlines = sheet(mode);
                for outline in &mut outlines {
                    outline.build(options).unwrap();
                }
                for (k, x, y, excluded, allowed) in cases {
                    assert_eq!(
                        outlines[k].contains(x, y, Edge::Excluded),
                        Ok(excluded),
                        "{mode:?} {options:?} {x} {y}"
                    );
                    assert_eq!(outlines[k].contains(x, y, Edge::Allowed), Ok(allowed), "{mode:?} {options:?} {x} {y}");
                    assert_eq!(outlines[k].contains_plain(x, y, Edge::Excluded), Ok(excluded), "{mode:?} {x} {y}");
                    assert_eq!(outlines[k].contains_plain(x, y, Edge::Allowed), Ok(allowed), "{mode:?} {x} {y}");
                }
            }
        }
        let [s, _] = sheet(Mode::Integer);
        assert_eq!(s.contains(9.5, 5.0, Edge::Excluded), Ok(false));
        assert_eq!(s.contains(9.5, 5.0, Edge::Allowed), Ok(true));
        assert_eq!(s.contains(-0.5, 5.0, Edge::Allowed), Ok(false));
    }

    /// A record that is not the outline's own is believed: the boxes of zeros put (5, 5) out of S.
    #[test]
    fn a_record_of_another_outline() {
        let [mut s, _] = sheet(Mode::Float);
        s.boxes.fill(0);
        assert_eq!(s.contains(5.0, 5.0, Edge::Excluded), Ok(false));
        assert_eq!(s.contains_plain(5.0, 5.0, Edge::Excluded), Ok(true));
    }

    #[test]
    fn places_are_scaled() {
        let outline = Outline::new(&[square(0, 10)], 10.0, Mode::Float).unwrap();
        assert_eq!(outline.contains(0.5, 0.5, Edge::Excluded), Ok(true));
        assert_eq!(outline.contains(5.0, 5.0, Edge::Excluded), Ok(false));
    }

    #[test]
    fn what_an_outline_tells() {
        let [_, h] = sheet(Mode::Integer);
        assert_eq!((h.rings(), h.scale(), h.mode()), (2, 1.0, Mode::Integer));
        assert_eq!(h.bounds(1), Bounds { min: (2, 2), max: (8, 8) });
        assert_eq!(h.ring(1).coords(), [2, 2, 8, 2, 8, 8, 2, 8, 2, 2]);
        assert_eq!(h.stats(0), None);
    }

    #[test]
    fn statistics() {
        let [_, mut h] = sheet(Mode::Float);
        h.build(BuildOptions { stripes: true, tree: true, min_segments: 4 }).unwrap();
        for k in 0..2 {
            let stats = h.stats(k).unwrap();
            assert_eq!((stats.segments, stats.below_threshold, stats.tree), (4, false, true));
            assert_eq!(stats.stripes, Some(StripeStats { segments: 4, stripes: 32, entries: 66, fullest: 3 }));
        }
        assert_eq!((h.index().stripes.len(), h.index().list.len(), h.index().bytes.len()), (128, 132, 12));
        h.build(BuildOptions::default()).unwrap();
        let stats = h.stats(1).unwrap();
        assert_eq!((stats.segments, stats.below_threshold, stats.tree, stats.stripes), (4, true, false, None));
        assert!(h.index().stripes.is_empty() && h.index().list.is_empty() && h.index().bytes.is_empty());
    }

    #[test]
    fn refusals_of_an_outline() {
        let made = |rings: &[Points], scale, mode| Outline::new(rings, scale, mode).err();
        assert_eq!(made(&[], 1.0, Mode::Float), Some(Refusal::TooFew { ring: 0 }));
        assert_eq!(made(&[square(0, 9), vec![(1, 1)]], 1.0, Mode::Float), Some(Refusal::TooFew { ring: 1 }));
        assert_eq!(made(&vec![square(0, 9); 65], 1.0, Mode::Float), Some(Refusal::TooManyRings));
        let long = vec![(0, 0); 4098];
        assert_eq!(made(&[square(0, 9), long], 1.0, Mode::Float), Some(Refusal::TooManyPoints { ring: 1 }));
        let open = vec![(0, 0), (1, 1), (2, 0)];
        assert_eq!(made(&[open], 1.0, Mode::Float), Some(Refusal::NotClosed { ring: 0 }));
        for scale in [0.0, -1.0, f64::NAN, f64::INFINITY] {
            assert_eq!(made(&[square(0, 9)], scale, Mode::Float), Some(Refusal::BadScale));
        }
        let widest = vec![(i32::MIN, i32::MIN), (i32::MAX, i32::MIN), (i32::MAX, i32::MAX), (i32::MIN, i32::MIN)];
        for mode in [Mode::Float, Mode::Integer] {
            assert_eq!(made(&[square(0, 9), widest.clone()], 1.0, mode), None);
        }
        let differ = Outline::from_numbers(vec![4], vec![0; 10], 1.0, Mode::Float);
        assert_eq!(differ, Err(Refusal::SizesDiffer));
    }

    #[test]
    fn damage_is_told_where_it_is_read() {
        let [_, mut h] = sheet(Mode::Float);
        h.build(BuildOptions { stripes: true, tree: false, min_segments: 0 }).unwrap();
        // the first number of the exterior's stripe 3 (heights from 0.9375 to 1.25)
        let place = h.index().stripes[2 * 3] as usize;
        h.index_mut().list[place] = 4;
        assert_eq!(h.contains(1.0, 1.0, Edge::Allowed), Err(Refusal::Damaged { place: place as u64 }));
        assert_eq!(h.contains(1.0, 1.5, Edge::Allowed), Ok(true));
        h.index_mut().stripes.clear();
        assert_eq!(h.contains(1.0, 1.5, Edge::Allowed), Err(Refusal::Damaged { place: 0 }));
        assert_eq!(h.contains_plain(1.0, 1.5, Edge::Allowed), Ok(true));
        h.index_mut().table.clear();
        assert_eq!(h.contains(1.0, 1.0, Edge::Allowed), Ok(true));
    }

    /// A tiny triangle far away, whose rounded area is 256 units, with its last point repeated: it calls for
    /// over 65,536 stripes, and no room helps.
    #[test]
    fn room_that_no_growing_cures() {
        let (x, y) = (1_955_317_097, 2_078_181_303);
        let mut ring = vec![(x, y), (x + 1, y), (x, y + 1)];
        ring.resize(4097, (x, y));
        let mut outline = Outline::new(&[ring], 1.0, Mode::Float).unwrap();
        let stripes = BuildOptions { stripes: true, tree: false, min_segments: 0 };
        assert_eq!(outline.build(stripes), Err(Refusal::NoRoom));
        assert_eq!(outline.stats(0), None);
        assert_eq!(outline.contains(x.into(), y.into(), Edge::Allowed), Ok(true));
    }
}
