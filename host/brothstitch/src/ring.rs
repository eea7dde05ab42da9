//! One ring: lists, the ring test, the turn, and its two indexes.

use crate::ffi::{self, Lent, LentStripes, StripeRooms};
use crate::outline::StripeStats;
use crate::rooms::Room;
use crate::{Edge, Refusal};

/// A ring that is lent: two coordinates a point, the first point again at the end. Nothing is checked
/// here; every call checks the ring for itself.
#[derive(Clone, Copy, Debug)]
pub struct Ring<'a> {
    coords: &'a [i32],
    points: usize,
}

/// Which way a ring turns, by the sign of its exact area.
#[derive(Clone, Copy, Debug, PartialEq, Eq)]
pub enum Turn {
    /// The area is above zero.
    Anticlockwise,
    /// The area is below zero.
    Clockwise,
    /// The area is 0: the ring is one point, is squeezed to a line, or goes as far round one way as the other.
    None,
}

/// A ring's stripes. The numbers may be changed at will: a search takes any, and tells damage that it
/// meets. Not all change is damage: every two numbers of `stripes` count as a stripe, and the height is shared
/// out over all of them, so zeros pushed behind those that were built put a height into the wrong stripe, and
/// segments are missed with no refusal.
#[derive(Clone, Debug, PartialEq)]
pub struct Stripes {
    pub least: f64,
    pub height: f64,
    /// Two numbers a stripe: where its part of the list starts, and how many numbers it has.
    pub stripes: Vec<u32>,
    /// Segment numbers.
    pub list: Vec<u32>,
    pub stats: StripeStats,
}

/// A ring's packed tree. The bytes may be changed at will, as those of [`Stripes`].
#[derive(Clone, Debug, PartialEq, Eq)]
pub struct Tree {
    pub bytes: Vec<u8>,
}

impl Stripes {
    fn lent(&self) -> LentStripes<'_> {
        LentStripes { least: self.least, height: self.height, stripes: &self.stripes, list: &self.list }
    }
}

/// Lists into room for so many numbers.
fn listed(most: usize, call: impl FnOnce(&mut [u32]) -> Result<ffi::Said, Refusal>) -> Result<Vec<u32>, Refusal> {
    let mut out = vec![0; most];
    let said = call(&mut out)?;
    out.truncate(said.value as usize);
    Ok(out)
}

impl<'a> Ring<'a> {
    /// A ring of as many points as there are pairs.
    pub fn new(coords: &'a [i32]) -> Ring<'a> {
        Ring { coords, points: coords.len() / 2 }
    }

    /// A ring that is said to have so many points.
    pub fn with_points(coords: &'a [i32], points: usize) -> Ring<'a> {
        Ring { coords, points }
    }

    fn lent(self) -> Lent<'a> {
        Lent { coords: self.coords, points: self.points }
    }

    pub fn coords(self) -> &'a [i32] {
        self.coords
    }

    /// The segments whose closed height range holds y, by rising number.
    pub fn list(self, y: f64) -> Result<Vec<u32>, Refusal> {
        listed(self.coords.len() / 2, |out| ffi::list_scan(self.lent(), y, out))
    }

    /// The same by stripes. A damaged list may name a segment more than once, so its length is the room.
    pub fn list_by_stripes(self, index: &Stripes, y: f64) -> Result<Vec<u32>, Refusal> {
        listed(index.list.len(), |out| ffi::list_stripes(self.lent(), index.lent(), y, out))
    }

    /// The same by the packed tree, in the order of its nodes. A segment takes a byte at least.
    pub fn list_by_tree(self, index: &Tree, y: f64) -> Result<Vec<u32>, Refusal> {
        listed(index.bytes.len(), |out| ffi::list_tree(self.lent(), &index.bytes, y, out))
    }

    /// Whether the ring holds a place, in floats and without scale.
    pub fn contains(self, x: f64, y: f64, edge: Edge) -> Result<bool, Refusal> {
        ffi::ring_scan(self.lent(), x, y, edge.number()).map(|said| said.yes)
    }

    pub fn contains_by_stripes(self, index: &Stripes, x: f64, y: f64, edge: Edge) -> Result<bool, Refusal> {
        ffi::ring_stripes(self.lent(), index.lent(), x, y, edge.number()).map(|said| said.yes)
    }

    pub fn contains_by_tree(self, index: &Tree, x: f64, y: f64, edge: Edge) -> Result<bool, Refusal> {
        ffi::ring_tree(self.lent(), &index.bytes, x, y, edge.number()).map(|said| said.yes)
    }

    /// Whether the ring holds a whole-number place, exactly.
    pub fn contains_whole(self, x: i64, y: i64, edge: Edge) -> Result<bool, Refusal> {
        ffi::ring_grid(self.lent(), x, y, edge.number()).map(|said| said.yes)
    }

    /// The ring's turn. Backwards it is the opposite one, or none again.
    pub fn turn(self) -> Result<Turn, Refusal> {
        ffi::turn(self.lent())
    }

    /// The ring's stripes; none where it has fewer segments than the threshold.
    pub fn build_stripes(self, threshold: usize) -> Result<Option<Stripes>, Refusal> {
        let points = self.coords.len() / 2;
        let most = Room::most(1, points, true, false);
        let mut room = Room::first(1, points, true, false);
        loop {
            match self.build_stripes_in(room, threshold) {
                Err(Refusal::NoRoom) => room = room.grown(most).ok_or(Refusal::NoRoom)?,
                built => return built,
            }
        }
    }

    fn build_stripes_in(self, room: Room, threshold: usize) -> Result<Option<Stripes>, Refusal> {
        let (mut stripes, mut list) = (vec![0; room.stripes], vec![0; room.list]);
        let (mut span, mut stats) = ([0.0; 2], [0; 4]);
        let rooms = StripeRooms { stripes: &mut stripes, list: &mut list, span: &mut span, stats: &mut stats };
        if !ffi::build_stripes(self.lent(), threshold, rooms)?.yes {
            return Ok(None);
        }
        let [least, height] = span;
        let stats = StripeStats::of(stats);
        stripes.truncate(2 * stats.stripes as usize);
        list.truncate(stats.entries as usize);
        Ok(Some(Stripes { least, height, stripes, list, stats }))
    }

    /// The ring's packed tree; none where it has fewer segments than the threshold.
    pub fn build_tree(self, threshold: usize) -> Result<Option<Tree>, Refusal> {
        let points = self.coords.len() / 2;
        let most = Room::most(1, points, false, true);
        let mut room = Room::first(1, points, false, true);
        loop {
            let (mut bytes, mut work) = (vec![0; room.bytes], vec![0; room.work]);
            match ffi::build_tree(self.lent(), threshold, &mut bytes, &mut work) {
                Err(Refusal::NoRoom) => room = room.grown(most).ok_or(Refusal::NoRoom)?,
                Err(refusal) => return Err(refusal),
                Ok(said) if !said.yes => return Ok(None),
                Ok(said) => {
                    bytes.truncate(said.value as usize);
                    return Ok(Some(Tree { bytes }));
                }
            }
        }
    }
}

#[cfg(test)]
mod tests {
    use super::{Ring, Turn};
    use crate::{Edge, Refusal};

    const SQUARE: [i32; 10] = [0, 0, 10, 0, 10, 10, 0, 10, 0, 0];

    #[test]
    fn lists_of_the_square() {
        let ring = Ring::new(&SQUARE);
        let stripes = ring.build_stripes(0).unwrap().unwrap();
        let tree = ring.build_tree(0).unwrap().unwrap();
        for (y, all) in [(0.0, vec![0, 1, 3]), (10.0, vec![1, 2, 3]), (5.0, vec![1, 3]), (-1.0, vec![])] {
            assert_eq!(ring.list(y).unwrap(), all);
            assert_eq!(ring.list_by_stripes(&stripes, y).unwrap(), all);
            assert_eq!(ring.list_by_tree(&tree, y).unwrap(), all);
        }
        assert_eq!(ring.list(f64::NAN), Err(Refusal::BadHeight));
    }

    #[test]
    fn indexes_of_the_square() {
        let ring = Ring::new(&SQUARE);
        let stripes = ring.build_stripes(0).unwrap().unwrap();
        assert_eq!([stripes.least, stripes.height], [0.0, 10.0]);
        let stats = stripes.stats;
        assert_eq!([stats.segments, stats.stripes, stats.entries, stats.fullest], [4, 32, 66, 3]);
        assert_eq!((stripes.stripes.len(), stripes.list.len()), (64, 66));
        assert_eq!(ring.build_tree(0).unwrap().unwrap().bytes, [4, 0, 1, 1, 1, 0]);
        assert_eq!(ring.build_stripes(5).unwrap(), None);
        assert_eq!(ring.build_tree(5).unwrap(), None);
    }

    #[test]
    fn ring_tests_of_the_square() {
        let ring = Ring::new(&SQUARE);
        let stripes = ring.build_stripes(0).unwrap().unwrap();
        let tree = ring.build_tree(0).unwrap().unwrap();
        for (x, y, out, on) in [(5, 5, true, true), (11, 5, false, false), (0, 5, false, true), (10, 10, false, true)] {
            for (edge, held) in [(Edge::Excluded, out), (Edge::Allowed, on)] {
                let (u, v) = (f64::from(x), f64::from(y));
                assert_eq!(ring.contains(u, v, edge), Ok(held));
                assert_eq!(ring.contains_by_stripes(&stripes, u, v, edge), Ok(held));
                assert_eq!(ring.contains_by_tree(&tree, u, v, edge), Ok(held));
                assert_eq!(ring.contains_whole(x.into(), y.into(), edge), Ok(held));
            }
        }
    }

    #[test]
    fn turns() {
        assert_eq!(Ring::new(&SQUARE).turn(), Ok(Turn::Anticlockwise));
        assert_eq!(Ring::new(&[0, 0, 0, 10, 10, 10, 0, 0]).turn(), Ok(Turn::Clockwise));
        assert_eq!(Ring::new(&[0, 0, 5, 5, 0, 0]).turn(), Ok(Turn::None));
        assert_eq!(Ring::new(&[7, -3, 7, -3]).turn(), Ok(Turn::None));
        // an eight: as much one way as the other
        assert_eq!(Ring::new(&[0, 0, 2, 2, 2, 0, 0, 2, 0, 0]).turn(), Ok(Turn::None));
        // one unit of area between products of 2^64
        let (low, high) = (i32::MIN, i32::MAX);
        let thin = [low, low, high, high - 1, high - 1, high - 2, low, low];
        assert_eq!(Ring::new(&thin).turn(), Ok(Turn::Clockwise));
        let back = [low, low, high - 1, high - 2, high, high - 1, low, low];
        assert_eq!(Ring::new(&back).turn(), Ok(Turn::Anticlockwise));
    }

    #[test]
    fn refusals_of_a_ring() {
        assert_eq!(Ring::new(&[]).turn(), Err(Refusal::TooFew { ring: 0 }));
        assert_eq!(Ring::new(&[0, 0, 1, 1]).turn(), Err(Refusal::NotClosed { ring: 0 }));
        assert_eq!(Ring::with_points(&SQUARE, 4).turn(), Err(Refusal::SizesDiffer));
        let long = vec![0; 2 * 4098];
        assert_eq!(Ring::new(&long).turn(), Err(Refusal::TooManyPoints { ring: 0 }));
    }

    /// The triangle under the diagonal of the whole range: places on it and one unit beside it.
    #[test]
    fn whole_places_over_the_whole_range() {
        let (least, most) = (i32::MIN, i32::MAX);
        let triangle = [least, least, most, least, most, most, least, least];
        let ring = Ring::new(&triangle);
        let held = |x, y| [Edge::Excluded, Edge::Allowed].map(|edge| ring.contains_whole(x, y, edge).unwrap());
        for (x, y) in [(0, 0), (-2_147_483_648, -2_147_483_648), (2_147_483_647, 2_147_483_647), (5, -2_147_483_648)] {
            assert_eq!(held(x, y), [false, true], "({x}, {y}) is on it");
        }
        for (x, y) in [(1, 0), (2_147_483_646, 2_147_483_645), (-2_147_483_646, -2_147_483_647)] {
            assert_eq!(held(x, y), [true, true], "({x}, {y}) is in it");
        }
        for (x, y) in [(0, 1), (-2_147_483_648, 2_147_483_647), (i64::MIN, 0), (i64::MAX, i64::MAX), (0, i64::MIN)] {
            assert_eq!(held(x, y), [false, false], "({x}, {y}) is out of it");
        }
    }

    #[test]
    fn damage_is_told_with_its_place() {
        let ring = Ring::new(&SQUARE);
        let mut stripes = ring.build_stripes(0).unwrap().unwrap();
        let start = stripes.stripes[2 * 16] as usize;
        stripes.list[start + 1] = 4;
        let refused = Err(Refusal::Damaged { place: start as u64 + 1 });
        assert_eq!(ring.contains_by_stripes(&stripes, 5.0, 5.0, Edge::Allowed), refused);
        assert_eq!(ring.list_by_stripes(&stripes, 5.0), refused.map(|_: bool| vec![]));
        let mut tree = ring.build_tree(0).unwrap().unwrap();
        tree.bytes[5] = 2;
        let refused = Err(Refusal::Damaged { place: 5 });
        assert_eq!(ring.contains_by_tree(&tree, 5.0, 5.0, Edge::Allowed), refused);
        tree.bytes = vec![4, 0x80, 0, 1, 1, 1, 0];
        let refused = Err(Refusal::Loose { place: 1 });
        assert_eq!(ring.contains_by_tree(&tree, 5.0, 5.0, Edge::Allowed), refused);
        assert_eq!(ring.list_by_tree(&tree, 5.0), refused.map(|_: bool| vec![]));
    }

    /// Thirteen segments that are all one point make a tree of depth 64: more room than the first attempt.
    #[test]
    fn rooms_grow() {
        let dot = [7; 2 * 14];
        let tree = Ring::new(&dot).build_tree(0).unwrap().unwrap();
        assert!(tree.bytes.len() > 64 * 6);
        assert_eq!(Ring::new(&dot).list_by_tree(&tree, 7.0).unwrap(), (0..13).collect::<Vec<_>>());
        // every segment of a comb is as high as the ring, so each of the 32 stripes holds almost all
        let comb: Vec<i32> = (0..400).flat_map(|i| [i, if i % 2 == 0 { 0 } else { 1000 }]).chain([0, 0]).collect();
        let stripes = Ring::new(&comb).build_stripes(0).unwrap().unwrap();
        assert!(stripes.list.len() > 16 * 401 + 64);
        assert_eq!(stripes.list.len() as u64, stripes.stats.entries);
    }
}
