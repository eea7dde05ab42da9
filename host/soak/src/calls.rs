//! The calls of the C interface: each with what it is given, as it is made through C in guarded slices,
//! and as the model answers it.

use crate::lent::{Content, Slices};
use brothstitch::c;
use cases::lent::Lent;
use model::outline::{self, Indexes, Options, Rooms};
use model::{ring, stripes, tree, wkb, Answer, Count, No};
use std::fmt::Debug;

/// What a call returns, and the content of its rooms; the value is the last of them.
pub type Outcome = (u32, Vec<Content>);

pub trait Call: Debug {
    const NAME: &'static str;
    /// What it can return.
    const ANSWERS: &'static [u32];

    fn ours(&self, slices: &mut Slices) -> u32;
    fn model(&self) -> Outcome;
}

/// A call's rooms with its value behind them.
macro_rules! rooms {
    ($value:expr $(, $room:ident)*) => {
        vec![$(Content::of(stringify!($room), &$room),)* Content::of("value", &[$value])]
    };
}

fn refused((number, place): No) -> (u32, u64) {
    (100 + number, place)
}

fn answer(answer: Answer) -> (u32, u64) {
    answer.map_or_else(refused, |yes| (u32::from(yes), 0))
}

fn count(count: Count) -> (u32, u64) {
    count.map_or_else(refused, |n| (0, n))
}

fn test(said: Answer) -> Outcome {
    let (code, value) = answer(said);
    (code, rooms![value])
}

/// A stripe index of one ring.
#[derive(Clone, Debug)]
pub struct Stripes {
    pub least: f64,
    pub height: f64,
    pub stripes: Vec<u32>,
    pub list: Vec<u32>,
}

impl Stripes {
    pub fn lent(&self) -> stripes::Index<'_> {
        stripes::Index { least: self.least, height: self.height, stripes: &self.stripes, list: &self.list }
    }
}

#[derive(Debug)]
pub struct ListScan<'a> {
    pub ring: &'a Lent,
    pub y: f64,
    pub out: Vec<u32>,
}

impl Call for ListScan<'_> {
    const NAME: &'static str = "list_scan";
    const ANSWERS: &'static [u32] = &[0, 101, 102, 103, 104, 107, 108];

    fn ours(&self, s: &mut Slices) -> u32 {
        let coords = s.read("coords", &self.ring.coords);
        let out = s.room("out", &self.out);
        let value = s.value();
        unsafe { c::brothstitch_list_scan(coords.ptr, coords.len, self.ring.points, self.y, out.ptr, out.len, value) }
    }

    fn model(&self) -> Outcome {
        let mut out = self.out.clone();
        let (code, value) = count(ring::list_scan(&self.ring.coords, self.ring.points, self.y, &mut out));
        (code, rooms![value, out])
    }
}

#[derive(Debug)]
pub struct ListStripes<'a> {
    pub ring: &'a Lent,
    pub index: &'a Stripes,
    pub y: f64,
    pub out: Vec<u32>,
}

impl Call for ListStripes<'_> {
    const NAME: &'static str = "list_stripes";
    const ANSWERS: &'static [u32] = &[0, 101, 102, 103, 104, 107, 108, 109];

    #[rustfmt::skip]
    fn ours(&self, s: &mut Slices) -> u32 {
        let coords = s.read("coords", &self.ring.coords);
        let stripes = s.read("stripes", &self.index.stripes);
        let list = s.read("list", &self.index.list);
        let out = s.room("out", &self.out);
        let value = s.value();
        unsafe {
            c::brothstitch_list_stripes(
                coords.ptr, coords.len, self.ring.points, self.index.least, self.index.height,
                stripes.ptr, stripes.len, list.ptr, list.len, self.y, out.ptr, out.len, value,
            )
        }
    }

    fn model(&self) -> Outcome {
        let mut out = self.out.clone();
        let listed = stripes::list(&self.ring.coords, self.ring.points, &self.index.lent(), self.y, &mut out);
        let (code, value) = count(listed);
        (code, rooms![value, out])
    }
}

#[derive(Debug)]
pub struct ListTree<'a> {
    pub ring: &'a Lent,
    pub bytes: &'a [u8],
    pub y: f64,
    pub out: Vec<u32>,
}

impl Call for ListTree<'_> {
    const NAME: &'static str = "list_tree";
    const ANSWERS: &'static [u32] = &[0, 101, 102, 103, 104, 107, 108, 109, 115];

    #[rustfmt::skip]
    fn ours(&self, s: &mut Slices) -> u32 {
        let coords = s.read("coords", &self.ring.coords);
        let bytes = s.read("bytes", self.bytes);
        let out = s.room("out", &self.out);
        let value = s.value();
        unsafe {
            c::brothstitch_list_tree(
                coords.ptr, coords.len, self.ring.points, bytes.ptr, bytes.len, self.y, out.ptr, out.len, value,
            )
        }
    }

    fn model(&self) -> Outcome {
        let mut out = self.out.clone();
        let (code, value) = count(tree::list(&self.ring.coords, self.ring.points, self.bytes, self.y, &mut out));
        (code, rooms![value, out])
    }
}

/// A place, and the edge rule as C has it.
#[derive(Clone, Copy, Debug)]
pub struct Asked {
    pub x: f64,
    pub y: f64,
    pub edge: u32,
}

#[derive(Debug)]
pub struct RingScan<'a> {
    pub ring: &'a Lent,
    pub asked: Asked,
}

impl Call for RingScan<'_> {
    const NAME: &'static str = "ring_scan";
    const ANSWERS: &'static [u32] = &[0, 1, 101, 102, 103, 104];

    fn ours(&self, s: &mut Slices) -> u32 {
        let Asked { x, y, edge } = self.asked;
        let coords = s.read("coords", &self.ring.coords);
        let value = s.value();
        unsafe { c::brothstitch_ring_scan(coords.ptr, coords.len, self.ring.points, x, y, edge, value) }
    }

    fn model(&self) -> Outcome {
        let Asked { x, y, edge } = self.asked;
        test(ring::ring_scan(&self.ring.coords, self.ring.points, x, y, edge != 0))
    }
}

#[derive(Debug)]
pub struct RingStripes<'a> {
    pub ring: &'a Lent,
    pub index: &'a Stripes,
    pub asked: Asked,
}

impl Call for RingStripes<'_> {
    const NAME: &'static str = "ring_stripes";
    const ANSWERS: &'static [u32] = &[0, 1, 101, 102, 103, 104, 109];

    #[rustfmt::skip]
    fn ours(&self, s: &mut Slices) -> u32 {
        let Asked { x, y, edge } = self.asked;
        let coords = s.read("coords", &self.ring.coords);
        let stripes = s.read("stripes", &self.index.stripes);
        let list = s.read("list", &self.index.list);
        let value = s.value();
        unsafe {
            c::brothstitch_ring_stripes(
                coords.ptr, coords.len, self.ring.points, self.index.least, self.index.height,
                stripes.ptr, stripes.len, list.ptr, list.len, x, y, edge, value,
            )
        }
    }

    fn model(&self) -> Outcome {
        let Asked { x, y, edge } = self.asked;
        test(stripes::test(&self.ring.coords, self.ring.points, &self.index.lent(), x, y, edge != 0))
    }
}

#[derive(Debug)]
pub struct RingTree<'a> {
    pub ring: &'a Lent,
    pub bytes: &'a [u8],
    pub asked: Asked,
}

impl Call for RingTree<'_> {
    const NAME: &'static str = "ring_tree";
    const ANSWERS: &'static [u32] = &[0, 1, 101, 102, 103, 104, 109, 115];

    #[rustfmt::skip]
    fn ours(&self, s: &mut Slices) -> u32 {
        let Asked { x, y, edge } = self.asked;
        let coords = s.read("coords", &self.ring.coords);
        let bytes = s.read("bytes", self.bytes);
        let value = s.value();
        unsafe {
            c::brothstitch_ring_tree(
                coords.ptr, coords.len, self.ring.points, bytes.ptr, bytes.len, x, y, edge, value,
            )
        }
    }

    fn model(&self) -> Outcome {
        let Asked { x, y, edge } = self.asked;
        test(tree::test(&self.ring.coords, self.ring.points, self.bytes, x, y, edge != 0))
    }
}

#[derive(Debug)]
pub struct RingGrid<'a> {
    pub ring: &'a Lent,
    pub x: i64,
    pub y: i64,
    pub edge: u32,
}

impl Call for RingGrid<'_> {
    const NAME: &'static str = "ring_grid";
    const ANSWERS: &'static [u32] = &[0, 1, 101, 102, 103, 104];

    fn ours(&self, s: &mut Slices) -> u32 {
        let coords = s.read("coords", &self.ring.coords);
        let value = s.value();
        unsafe { c::brothstitch_ring_grid(coords.ptr, coords.len, self.ring.points, self.x, self.y, self.edge, value) }
    }

    fn model(&self) -> Outcome {
        test(ring::ring_grid(&self.ring.coords, self.ring.points, self.x, self.y, self.edge != 0))
    }
}

#[derive(Debug)]
pub struct Turn<'a> {
    pub ring: &'a Lent,
}

impl Call for Turn<'_> {
    const NAME: &'static str = "turn";
    const ANSWERS: &'static [u32] = &[0, 1, 2, 101, 102, 103, 104];

    fn ours(&self, s: &mut Slices) -> u32 {
        let coords = s.read("coords", &self.ring.coords);
        let value = s.value();
        unsafe { c::brothstitch_turn(coords.ptr, coords.len, self.ring.points, value) }
    }

    fn model(&self) -> Outcome {
        let number = |turn| match turn {
            ring::Turn::Clockwise => 0,
            ring::Turn::Anticlockwise => 1,
            ring::Turn::None => 2,
        };
        let said = ring::turn(&self.ring.coords, self.ring.points);
        let (code, value) = said.map_or_else(refused, |turn| (number(turn), 0));
        (code, rooms![value])
    }
}

#[derive(Debug)]
pub struct BuildStripes<'a> {
    pub ring: &'a Lent,
    pub threshold: usize,
    pub stripes: Vec<u32>,
    pub list: Vec<u32>,
    pub span: Vec<f64>,
    pub stats: Vec<u64>,
}

impl Call for BuildStripes<'_> {
    const NAME: &'static str = "build_stripes";
    const ANSWERS: &'static [u32] = &[0, 1, 101, 102, 103, 104, 108];

    #[rustfmt::skip]
    fn ours(&self, s: &mut Slices) -> u32 {
        let coords = s.read("coords", &self.ring.coords);
        let stripes = s.room("stripes", &self.stripes);
        let list = s.room("list", &self.list);
        let span = s.room("span", &self.span);
        let stats = s.room("stats", &self.stats);
        let value = s.value();
        unsafe {
            c::brothstitch_build_stripes(
                coords.ptr, coords.len, self.ring.points, self.threshold,
                stripes.ptr, stripes.len, list.ptr, list.len, span.ptr, span.len, stats.ptr, stats.len, value,
            )
        }
    }

    /// The model knows no rooms for least, height and statistics: they are as the other rooms.
    fn model(&self) -> Outcome {
        let (mut stripes, mut list) = (self.stripes.clone(), self.list.clone());
        let (mut span, mut stats) = (self.span.clone(), self.stats.clone());
        let threshold = self.threshold as u64;
        let mut built = stripes::build(&self.ring.coords, self.ring.points, threshold, &mut stripes, &mut list);
        if matches!(built, Ok(Some(_))) && (span.len() < 2 || stats.len() < 4) {
            stripes.fill(0);
            list.fill(0);
            built = Err(model::NO_ROOM);
        }
        if built.map_or_else(model::leaves_zeros, |_| true) {
            span.fill(0.0);
            stats.fill(0);
        }
        let (code, value) = match built {
            Err(no) => refused(no),
            Ok(None) => (0, 0),
            Ok(Some((least, height, four))) => {
                span[..2].copy_from_slice(&[least, height]);
                stats[..4].copy_from_slice(&four.map(u64::from));
                (1, u64::from(four[1]))
            }
        };
        (code, rooms![value, stripes, list, span, stats])
    }
}

#[derive(Debug)]
pub struct BuildTree<'a> {
    pub ring: &'a Lent,
    pub threshold: usize,
    pub bytes: Vec<u8>,
    pub work: Vec<u32>,
}

impl Call for BuildTree<'_> {
    const NAME: &'static str = "build_tree";
    const ANSWERS: &'static [u32] = &[0, 1, 101, 102, 103, 104, 108];

    #[rustfmt::skip]
    fn ours(&self, s: &mut Slices) -> u32 {
        let coords = s.read("coords", &self.ring.coords);
        let bytes = s.room("bytes", &self.bytes);
        let work = s.room("work", &self.work);
        let value = s.value();
        unsafe {
            c::brothstitch_build_tree(
                coords.ptr, coords.len, self.ring.points, self.threshold,
                bytes.ptr, bytes.len, work.ptr, work.len, value,
            )
        }
    }

    fn model(&self) -> Outcome {
        let (mut bytes, mut work) = (self.bytes.clone(), self.work.clone());
        let threshold = self.threshold as u64;
        let built = tree::build(&self.ring.coords, self.ring.points, threshold, &mut bytes, &mut work);
        let (code, value) = built.map_or_else(refused, |used| (u32::from(used.is_some()), used.unwrap_or(0)));
        (code, rooms![value, bytes, work])
    }
}

/// All rings of an outline as they are lent.
#[derive(Clone, Debug)]
pub struct Rings {
    pub sizes: Vec<u32>,
    pub coords: Vec<i32>,
    pub scale: f64,
    pub mode: u32,
}

impl Rings {
    pub fn lent(&self) -> outline::Rings<'_> {
        outline::Rings { sizes: &self.sizes, coords: &self.coords }
    }
}

#[derive(Debug)]
pub struct Make<'a> {
    pub rings: &'a Rings,
    pub boxes: Vec<i32>,
}

impl Call for Make<'_> {
    const NAME: &'static str = "make";
    const ANSWERS: &'static [u32] = &[0, 101, 102, 103, 104, 105, 108];

    #[rustfmt::skip]
    fn ours(&self, s: &mut Slices) -> u32 {
        let sizes = s.read("sizes", &self.rings.sizes);
        let coords = s.read("coords", &self.rings.coords);
        let boxes = s.room("boxes", &self.boxes);
        let value = s.value();
        unsafe {
            c::brothstitch_make(
                sizes.ptr, sizes.len, coords.ptr, coords.len, self.rings.scale, self.rings.mode,
                boxes.ptr, boxes.len, value,
            )
        }
    }

    fn model(&self) -> Outcome {
        let mut boxes = self.boxes.clone();
        let made = outline::make(self.rings.lent(), self.rings.scale, &mut boxes);
        let (code, value) = count(made);
        (code, rooms![value, boxes])
    }
}

/// The indexes of all rings, or the rooms for them.
#[derive(Clone, Debug, Default)]
pub struct Pools {
    pub table: Vec<u64>,
    pub spans: Vec<f64>,
    pub stripes: Vec<u32>,
    pub list: Vec<u32>,
    pub bytes: Vec<u8>,
}

#[derive(Debug)]
pub struct Build<'a> {
    pub rings: &'a Rings,
    pub options: u32,
    pub threshold: usize,
    pub pools: Pools,
    pub work: Vec<u32>,
}

impl Call for Build<'_> {
    const NAME: &'static str = "build";
    const ANSWERS: &'static [u32] = &[0, 101, 102, 103, 104, 108];

    #[rustfmt::skip]
    fn ours(&self, s: &mut Slices) -> u32 {
        let sizes = s.read("sizes", &self.rings.sizes);
        let coords = s.read("coords", &self.rings.coords);
        let table = s.room("table", &self.pools.table);
        let spans = s.room("spans", &self.pools.spans);
        let stripes = s.room("stripes", &self.pools.stripes);
        let list = s.room("list", &self.pools.list);
        let bytes = s.room("bytes", &self.pools.bytes);
        let work = s.room("work", &self.work);
        let value = s.value();
        unsafe {
            c::brothstitch_build(
                sizes.ptr, sizes.len, coords.ptr, coords.len, self.options, self.threshold,
                table.ptr, table.len, spans.ptr, spans.len, stripes.ptr, stripes.len, list.ptr, list.len,
                bytes.ptr, bytes.len, work.ptr, work.len, value,
            )
        }
    }

    fn model(&self) -> Outcome {
        let Pools { mut table, mut spans, mut stripes, mut list, mut bytes } = self.pools.clone();
        let mut work = self.work.clone();
        let options = Options {
            stripes: self.options % 2 == 1,
            tree: self.options / 2 % 2 == 1,
            threshold: self.threshold as u64,
        };
        let rooms = Rooms {
            table: &mut table,
            spans: &mut spans,
            stripes: &mut stripes,
            list: &mut list,
            bytes: &mut bytes,
            work: &mut work,
        };
        let (code, value) = count(outline::build(self.rings.lent(), options, rooms));
        (code, rooms![value, table, spans, stripes, list, bytes, work])
    }
}

#[derive(Debug)]
pub struct ReadWkb {
    pub bytes: Vec<u8>,
    pub scale: f64,
    pub sizes: Vec<u32>,
    pub coords: Vec<i32>,
}

impl Call for ReadWkb {
    const NAME: &'static str = "read_wkb";
    const ANSWERS: &'static [u32] = &[0, 101, 102, 104, 105, 108, 110, 111, 112];

    #[rustfmt::skip]
    fn ours(&self, s: &mut Slices) -> u32 {
        let bytes = s.read("bytes", &self.bytes);
        let sizes = s.room("sizes", &self.sizes);
        let coords = s.room("coords", &self.coords);
        let numbers = s.room("numbers", &[u64::MAX]);
        let value = s.value();
        unsafe {
            c::brothstitch_read_wkb(
                bytes.ptr, bytes.len, self.scale, sizes.ptr, sizes.len, coords.ptr, coords.len, numbers.ptr, value,
            )
        }
    }

    fn model(&self) -> Outcome {
        let (mut sizes, mut coords) = (self.sizes.clone(), self.coords.clone());
        let read = wkb::read(&self.bytes, self.scale, &mut sizes, &mut coords);
        let numbers = [read.map_or(0, |(_, numbers)| numbers)];
        let (code, value) = count(read.map(|(rings, _)| rings));
        (code, rooms![value, sizes, coords, numbers])
    }
}

#[derive(Debug)]
pub struct Inside<'a> {
    pub rings: &'a Rings,
    pub boxes: &'a [i32],
    pub pools: &'a Pools,
    pub asked: Asked,
}

impl Call for Inside<'_> {
    const NAME: &'static str = "inside";
    const ANSWERS: &'static [u32] = &[0, 1, 101, 102, 103, 104, 105, 109, 115];

    #[rustfmt::skip]
    fn ours(&self, s: &mut Slices) -> u32 {
        let Asked { x, y, edge } = self.asked;
        let sizes = s.read("sizes", &self.rings.sizes);
        let coords = s.read("coords", &self.rings.coords);
        let boxes = s.read("boxes", self.boxes);
        let table = s.read("table", &self.pools.table);
        let spans = s.read("spans", &self.pools.spans);
        let stripes = s.read("stripes", &self.pools.stripes);
        let list = s.read("list", &self.pools.list);
        let bytes = s.read("bytes", &self.pools.bytes);
        let value = s.value();
        unsafe {
            c::brothstitch_inside(
                sizes.ptr, sizes.len, coords.ptr, coords.len, boxes.ptr, boxes.len,
                self.rings.scale, self.rings.mode, table.ptr, table.len, spans.ptr, spans.len,
                stripes.ptr, stripes.len, list.ptr, list.len, bytes.ptr, bytes.len, x, y, edge, value,
            )
        }
    }

    fn model(&self) -> Outcome {
        let Asked { x, y, edge } = self.asked;
        let Pools { table, spans, stripes, list, bytes } = self.pools;
        let integer = self.rings.mode != 0;
        let asked = outline::Asked { scale: self.rings.scale, integer, edge: edge != 0, x, y };
        test(outline::inside(self.rings.lent(), self.boxes, asked, &Indexes { table, spans, stripes, list, bytes }))
    }
}

#[derive(Debug)]
pub struct InsidePlain<'a> {
    pub rings: &'a Rings,
    pub asked: Asked,
}

impl Call for InsidePlain<'_> {
    const NAME: &'static str = "inside_plain";
    const ANSWERS: &'static [u32] = &[0, 1, 101, 102, 103, 104, 105];

    #[rustfmt::skip]
    fn ours(&self, s: &mut Slices) -> u32 {
        let Asked { x, y, edge } = self.asked;
        let sizes = s.read("sizes", &self.rings.sizes);
        let coords = s.read("coords", &self.rings.coords);
        let value = s.value();
        unsafe {
            c::brothstitch_inside_plain(
                sizes.ptr, sizes.len, coords.ptr, coords.len, self.rings.scale, self.rings.mode, x, y, edge, value,
            )
        }
    }

    fn model(&self) -> Outcome {
        let Asked { x, y, edge } = self.asked;
        let integer = self.rings.mode != 0;
        let asked = outline::Asked { scale: self.rings.scale, integer, edge: edge != 0, x, y };
        test(outline::inside_plain(self.rings.lent(), asked))
    }
}
