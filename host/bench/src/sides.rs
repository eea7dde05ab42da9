//! The two sides: the library through its C interface, and the Rust.

use brothstitch::{c, row};
use cases::rings::{self, Ring};
use geometry_rs::{I32Point, I32Polygon, I32RaycastMode, Point, PolygonBuildOptions};

/// How segments are found, or Integer mode, which scans.
#[derive(Clone, Copy, Debug, PartialEq, Eq)]
pub enum Kind {
    Scan,
    Stripes,
    Tree,
    Integer,
}

impl Kind {
    pub fn name(self) -> &'static str {
        match self {
            Kind::Scan => "scan",
            Kind::Stripes => "stripes",
            Kind::Tree => "tree",
            Kind::Integer => "integer",
        }
    }

    fn options(self) -> u32 {
        match self {
            Kind::Scan | Kind::Integer => 0,
            Kind::Stripes => 1,
            Kind::Tree => 2,
        }
    }
}

/// Rings as they are lent, and the rooms for the record and the indexes.
pub struct Ours {
    kind: Kind,
    sizes: Vec<u32>,
    coords: Vec<i32>,
    boxes: Vec<i32>,
    table: Vec<u64>,
    spans: Vec<f64>,
    stripes: Vec<u32>,
    list: Vec<u32>,
    bytes: Vec<u8>,
    work: Vec<u32>,
}

impl Ours {
    pub fn new(kind: Kind, all: &[Ring]) -> Self {
        let sizes: Vec<u32> = all.iter().map(|r| r.len() as u32).collect();
        let n = sizes.len();
        let mut ours = Ours {
            kind,
            sizes,
            coords: all.iter().flat_map(|r| rings::coordinates(r)).collect(),
            boxes: vec![0; 4 * n],
            table: vec![0; row::NUMBERS * n],
            spans: vec![0.0; 2 * n],
            stripes: vec![],
            list: vec![],
            bytes: vec![],
            work: vec![],
        };
        ours.make_room();
        ours
    }

    /// Room of exactly the size that is called for. Twice as much until it is enough, then what was used;
    /// of the work room only the library knows that, so the least that is enough is searched.
    fn make_room(&mut self) {
        let mut n = 1024;
        while self.build() == 108 {
            n *= 2;
            self.lend(n);
        }
        let column = |at: usize, len: usize, each: usize| {
            let ends = self.table.chunks_exact(row::NUMBERS).map(|numbers| (numbers[at], numbers[len]));
            ends.map(|(at, len)| at as usize + each * len as usize).max().unwrap_or(0)
        };
        let (stripes, list, bytes) = (
            column(row::STRIPES_START, row::STRIPES, 2),
            column(row::LIST_START, row::ENTRIES, 1),
            column(row::BYTES_START, row::BYTES, 1),
        );
        self.stripes.truncate(stripes);
        self.list.truncate(list);
        self.bytes.truncate(bytes);
        let (mut short, mut enough) = (0, self.work.len() + 1);
        while enough - short > 1 {
            let middle = (short + enough) / 2;
            self.work.resize(middle - 1, 0);
            if self.build() == 108 {
                short = middle;
            } else {
                enough = middle;
            }
        }
        self.work.resize(enough.max(1) - 1, 0);
        assert_eq!(self.build(), 0, "there is room");
    }

    fn lend(&mut self, n: usize) {
        self.stripes.resize(n, 0);
        self.list.resize(n, 0);
        self.bytes.resize(n, 0);
        self.work.resize(n, 0);
    }

    fn mode(&self) -> u32 {
        u32::from(self.kind == Kind::Integer)
    }

    /// Checks the outline, writes the record and builds every ring's index.
    #[rustfmt::skip]
    pub fn build(&mut self) -> u32 {
        let mut value = 0;
        let mode = self.mode();
        unsafe {
            let made = c::brothstitch_make(
                self.sizes.as_ptr(), self.sizes.len(), self.coords.as_ptr(), self.coords.len(), 1.0, mode,
                self.boxes.as_mut_ptr(), self.boxes.len(), &mut value,
            );
            assert_eq!(made, 0, "the outline is accepted");
            c::brothstitch_build(
                self.sizes.as_ptr(), self.sizes.len(), self.coords.as_ptr(), self.coords.len(),
                self.kind.options(), 0, self.table.as_mut_ptr(), self.table.len(),
                self.spans.as_mut_ptr(), self.spans.len(), self.stripes.as_mut_ptr(), self.stripes.len(),
                self.list.as_mut_ptr(), self.list.len(), self.bytes.as_mut_ptr(), self.bytes.len(),
                self.work.as_mut_ptr(), self.work.len(), &mut value,
            )
        }
    }

    #[rustfmt::skip]
    pub fn inside(&self, [x, y]: [f64; 2], edge: u32) -> u32 {
        let mut value = 0;
        unsafe {
            c::brothstitch_inside(
                self.sizes.as_ptr(), self.sizes.len(), self.coords.as_ptr(), self.coords.len(),
                self.boxes.as_ptr(), self.boxes.len(), 1.0, self.mode(), self.table.as_ptr(), self.table.len(),
                self.spans.as_ptr(), self.spans.len(), self.stripes.as_ptr(), self.stripes.len(),
                self.list.as_ptr(), self.list.len(), self.bytes.as_ptr(), self.bytes.len(), x, y, edge, &mut value,
            )
        }
    }

    /// For each ring segments, stripes, entries in all, fullest stripe, and whether it has a tree.
    pub fn told(&self) -> Vec<([usize; 4], bool)> {
        let four = |numbers: &[u64]| {
            [row::SEGMENTS, row::STRIPES, row::ENTRIES, row::FULLEST].map(|column| numbers[column] as usize)
        };
        self.table.chunks_exact(row::NUMBERS).map(|numbers| (four(numbers), numbers[row::KINDS] & 2 != 0)).collect()
    }
}

pub struct Rust {
    polygon: I32Polygon,
    options: PolygonBuildOptions,
}

impl Rust {
    pub fn new(kind: Kind, all: &[Ring]) -> Self {
        let points = |ring: &Ring| ring.iter().map(|&[x, y]| I32Point { x, y }).collect::<Vec<_>>();
        let options = PolygonBuildOptions {
            enable_rtree: false,
            enable_compressed_quad: kind == Kind::Tree,
            enable_y_stripes: kind == Kind::Stripes,
            rtree_min_segments: 0,
        };
        let mode = if kind == Kind::Integer { I32RaycastMode::Integer } else { I32RaycastMode::Float };
        let holes = all[1..].iter().map(points).collect();
        Rust { polygon: I32Polygon::new_with_options(points(&all[0]), holes, 1.0, mode, Some(options)), options }
    }

    /// Takes the box and builds every ring's index anew.
    pub fn build(&mut self) {
        self.polygon.set_options(self.options);
    }

    pub fn inside(&self, [x, y]: [f64; 2]) -> bool {
        self.polygon.contains_point(Point { x, y })
    }

    fn inside_or_on(&self, [x, y]: [f64; 2]) -> bool {
        self.polygon.contains_point_allow_on_edge(Point { x, y })
    }

    fn told(&self) -> Vec<([usize; 4], bool)> {
        let stats = self.polygon.index_stats();
        let all = std::iter::once(&stats.exterior).chain(&stats.holes);
        all.map(|ring| {
            let four = ring.y_stripes.as_ref().map_or([ring.segment_count, 0, 0, 0], |s| {
                [s.segment_count, s.stripe_count, s.assigned_item_count, s.max_bucket_len]
            });
            (four, ring.used_compressed_quad)
        })
        .collect()
    }
}

/// Both sides have indexes of the same size, and answer alike at every place; on edges under both rules.
pub fn compare(ours: &Ours, rust: &Rust, places: &[[f64; 2]], on_edges: &[[f64; 2]]) -> Result<(), String> {
    if ours.told() != rust.told() {
        return Err(format!("the indexes differ: {:?}, the Rust has {:?}", ours.told(), rust.told()));
    }
    let alike = |p: [f64; 2], rule: &str, said: u32, expected: bool| {
        if said == u32::from(expected) {
            return Ok(());
        }
        Err(format!("at {p:?}, edge {rule}, the library returns {said} and the Rust says {expected}"))
    };
    for &p in places.iter().chain(on_edges) {
        alike(p, "excluded", ours.inside(p, 0), rust.inside(p))?;
    }
    for &p in on_edges {
        alike(p, "allowed", ours.inside(p, 1), rust.inside_or_on(p))?;
    }
    Ok(())
}
