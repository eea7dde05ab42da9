
/// Behind the source, which ends above this line: what lets the tests see its private items. It only
/// calls them and hands out what they hold.
pub mod open {
    use super::*;

    // for the crate's root
    pub(crate) use super::next_after::NextAfter;

    pub const MAX_ITEMS: usize = Q_MAX_ITEMS;
    pub const MAX_DEPTH: usize = Q_MAX_DEPTH;

    // Numbers and varints.

    pub fn next_up(x: f64) -> f64 {
        x.next_after(f64::INFINITY)
    }

    pub fn append_uvarint(dst: &mut Vec<u8>, x: u64) {
        super::append_uvarint(dst, x)
    }

    /// The number and the place behind it.
    pub fn read_uvarint(data: &[u8], addr: usize) -> Option<(u64, usize)> {
        super::read_uvarint(data, addr)
    }

    // Boxes and segments.

    pub fn choose_quad(bounds: Rect, rect: Rect) -> Option<usize> {
        super::choose_quad(bounds, rect)
    }

    pub fn quad_bounds(bounds: Rect, q: usize) -> Rect {
        super::quad_bounds(bounds, q)
    }

    pub fn segment_at(ring: &[I32Point], i: usize) -> Segment {
        segment_at_for_slice(ring, i)
    }

    /// What the source's raycast answers; it never says both.
    #[derive(Copy, Clone, Debug, PartialEq, Eq)]
    pub enum Cast {
        Neither,
        Inside,
        On,
    }

    pub fn raycast(seg: &Segment, point: Point) -> Cast {
        let res = super::raycast(seg, point);
        match (res.inside, res.on) {
            (false, false) => Cast::Neither,
            (true, false) => Cast::Inside,
            (false, true) => Cast::On,
            (true, true) => unreachable!("the source never answers inside and on"),
        }
    }

    // Ring tests.

    pub fn ring_test_integer(ring: &[I32Point], point: Point<i64>, allow_on_edge: bool) -> bool {
        ring_contains_point_integer(ring, point, allow_on_edge)
    }

    /// With no index the source scans.
    pub fn ring_test(ring: &[I32Point], index: Option<&Index>, point: Point, allow_on_edge: bool) -> bool {
        rings_contains_point(ring, index.map(|i| &i.0), point, allow_on_edge)
    }

    /// A ring's index as the source holds it.
    pub struct Index(RingIndex);

    pub fn build_index(ring: &[I32Point], options: &PolygonBuildOptions) -> (Option<Index>, RingBuildStats) {
        let (index, stats) = build_ring_index(ring, options);
        (index.map(Index), stats)
    }

    impl Index {
        /// The segments that the index lists at a height, in the source's order.
        pub fn list(&self, ring: &[I32Point], y: f64) -> Vec<usize> {
            let mut out = Vec::new();
            self.0.search_candidates(ring, y, &mut out);
            out
        }

        pub fn x_range(&self) -> (f64, f64) {
            (self.0.x_min, self.0.x_max)
        }

        pub fn stripes(&self) -> Option<Stripes> {
            self.0.y_stripes.as_ref().map(Stripes::of)
        }

        pub fn tree(&self) -> Option<Tree> {
            self.0.compressed_quad.as_ref().map(Tree::of)
        }
    }

    // Stripes.

    pub fn area_and_perimeter(ring: &[I32Point]) -> (f64, f64) {
        calc_ring_area_and_perimeter(ring)
    }

    pub fn stripe_count(ring: &[I32Point]) -> usize {
        calc_y_stripe_count(ring, ring_segment_count(ring))
    }

    /// The first and the last stripe of a box.
    pub fn stripe_bounds(rect: Rect, least: f64, height: f64, stripes: usize) -> (usize, usize) {
        stripe_bounds_for_rect(rect, least, height, stripes)
    }

    /// The numbers of a stripe index: for each stripe where its part of the list starts and how long it is.
    #[derive(Clone, Debug, PartialEq)]
    pub struct Stripes {
        pub least: f64,
        pub height: f64,
        pub stripes: Vec<(u32, u32)>,
        pub list: Vec<u32>,
    }

    impl Stripes {
        fn of(index: &YStripesIndex) -> Self {
            Stripes {
                least: index.min_y,
                height: index.height,
                stripes: index.stripes.iter().map(|s| (s.start, s.count)).collect(),
                list: index.indexes.clone(),
            }
        }

        fn source(&self) -> YStripesIndex {
            YStripesIndex {
                min_y: self.least,
                height: self.height,
                stripes: self.stripes.iter().map(|&(start, count)| YStripe { start, count }).collect(),
                indexes: self.list.clone(),
            }
        }

        pub fn build(ring: &[I32Point]) -> Option<(Self, YStripesBuildStats)> {
            let rects: Vec<Rect> =
                (0..ring_segment_count(ring)).map(|i| segment_at_for_slice(ring, i).rect()).collect();
            YStripesIndex::build(ring, &rects).map(|(index, stats)| (Self::of(&index), stats))
        }

        /// The source's search over these numbers, whoever wrote them. It panics on some damage.
        pub fn list(&self, ring: &[I32Point], y: f64) -> Vec<usize> {
            let mut out = Vec::new();
            self.source().search(ring, y, &mut out);
            out
        }
    }

    // The packed tree.

    /// A packed tree: its root's box and its bytes.
    #[derive(Clone, Debug)]
    pub struct Tree {
        pub bounds: Rect,
        pub bytes: Vec<u8>,
    }

    impl Tree {
        fn of(index: &CompressedQuadIndex) -> Self {
            Tree { bounds: index.bounds, bytes: index.data.clone() }
        }

        pub fn build(ring: &[I32Point]) -> Option<Self> {
            CompressedQuadIndex::build(ring).as_ref().map(Self::of)
        }

        /// The source's search over these bytes, whoever wrote them, at a height over the whole width:
        /// what it found, and whether it came to the end. On damage it keeps what it found.
        pub fn list(&self, ring: &[I32Point], y: f64) -> (Vec<usize>, bool) {
            let index = CompressedQuadIndex {
                bounds: self.bounds,
                seg_rects: (0..ring_segment_count(ring)).map(|i| segment_at_for_slice(ring, i).rect()).collect(),
                data: self.bytes.clone(),
            };
            let line = Rect {
                min: Point { x: self.bounds.min.x, y },
                max: Point { x: self.bounds.max.x, y },
            };
            let mut out = Vec::new();
            if !index.bounds.intersects_rect(line) {
                return (out, true);
            }
            let end = index.search_intersects_from(0, index.bounds, line, &mut out);
            (out, end.is_some())
        }
    }

    /// How many nodes the source's tree of a ring has, and how deep it goes.
    pub fn tree_size(ring: &[I32Point]) -> (usize, usize) {
        let Some(index) = CompressedQuadIndex::build(ring) else { return (0, 0) };
        let mut root = QuadNode::new();
        for i in 0..index.seg_rects.len() {
            insert_quad_node(&mut root, index.bounds, &index.seg_rects, i, 0);
        }
        fn walk(node: &QuadNode) -> (usize, usize) {
            let mut size = (1, 0);
            for child in node.quads.iter().flatten() {
                let (nodes, depth) = walk(child);
                size = (size.0 + nodes, size.1.max(depth + 1));
            }
            size
        }
        walk(&root)
    }
}
