//! The sample sheet of docs/01-scope.md, asked of the model, and a place of each kind of damage.

use model::outline::{self, Asked, Indexes, Rings};
use model::ring::{self, Ring, Turn};
use model::{stripes, tree};

const S: [i32; 10] = [0, 0, 10, 0, 10, 10, 0, 10, 0, 0];
const HOLE: [i32; 10] = [2, 2, 8, 2, 8, 8, 2, 8, 2, 2];

const NONE: Indexes = Indexes { table: &[], spans: &[], stripes: &[], list: &[], bytes: &[] };

fn inside(rings: &[[i32; 10]], integer: bool, x: f64, y: f64) -> [bool; 2] {
    let coords = rings.concat();
    let sizes = vec![5; rings.len()];
    let rings = Rings { sizes: &sizes, coords: &coords };
    let mut boxes = vec![7; 4 * sizes.len()];
    assert_eq!(outline::make(rings, 1.0, &mut boxes), Ok(sizes.len() as u64));
    [false, true].map(|edge| {
        let asked = Asked { scale: 1.0, integer, edge, x, y };
        outline::inside(rings, &boxes, asked, &NONE).expect("S and H are accepted")
    })
}

#[test]
fn asking() {
    assert_eq!(inside(&[S], false, 5.0, 5.0), [true, true]);
    assert_eq!(inside(&[S], false, 11.0, 5.0), [false, false]);
    assert_eq!(inside(&[S], false, 0.0, 5.0), [false, true]);
    assert_eq!(inside(&[S, HOLE], false, 5.0, 5.0), [false, false]);
    assert_eq!(inside(&[S, HOLE], false, 1.0, 1.0), [true, true]);
    assert_eq!(inside(&[S, HOLE], false, 2.0, 5.0), [true, true]);
    assert_eq!(inside(&[S], true, 9.5, 5.0), [false, true]);
    assert_eq!(inside(&[S], true, -0.5, 5.0), [false, false]);
}

#[test]
fn turns() {
    let turn = |coords: &[i32]| ring::turn(coords, coords.len() / 2);
    assert_eq!(turn(&S), Ok(Turn::Anticlockwise));
    assert_eq!(turn(&[0, 0, 0, 10, 10, 10, 10, 0, 0, 0]), Ok(Turn::Clockwise));
    assert_eq!(turn(&[0, 0, 5, 5, 0, 0]), Ok(Turn::None));
    assert_eq!(turn(&[7, -3, 7, -3, 7, -3, 7, -3]), Ok(Turn::None));
    assert_eq!(turn(&[0, 0, 5, 5]), Err((4, 0)));
}

/// The record is read as it stands, and a short one is refused in rule 3's turn.
#[test]
fn records() {
    let asked = Asked { scale: 1.0, integer: false, edge: false, x: 5.0, y: 5.0 };
    let ask = |coords: &[i32], boxes: &[i32]| outline::inside(Rings { sizes: &[5], coords }, boxes, asked, &NONE);
    assert_eq!(ask(&S, &[0, 0, 10, 10]), Ok(true));
    assert_eq!(ask(&S, &[0, 0, 10, 10, 7]), Ok(true));
    assert_eq!(ask(&S, &[6, 0, 10, 10]), Ok(false));
    assert_eq!(ask(&S, &[0, 0, 10]), Err((3, 0)));
    let open = [&S[..9], &[1]].concat();
    assert_eq!(ask(&open, &[0, 0, 10]), Err((3, 0)));
    assert_eq!(ask(&open, &[0, 0, 10, 10]), Err((4, 0)));
    let mut boxes = [7; 5];
    assert_eq!(outline::make(Rings { sizes: &[5], coords: &S }, 1.0, &mut boxes), Ok(1));
    assert_eq!(boxes, [0, 0, 10, 10, 0]);
    assert_eq!(outline::make(Rings { sizes: &[5], coords: &S }, 1.0, &mut boxes[..3]), Err((8, 0)));
    assert_eq!(boxes, [0, 0, 0, 10, 0]);
    assert_eq!(outline::make(Rings { sizes: &[5], coords: &S }, 0.0, &mut boxes), Err((5, 0)));
    assert_eq!(boxes, [0, 0, 0, 10, 0]);
}

/// The second ring's parts stand behind the first's, and damage in them counts from their start. With
/// stripes and a tree the stripes are read. A hole is not read where the exterior settles the answer.
#[test]
fn parts_of_rings() {
    let coords = [S, HOLE].concat();
    let rings = Rings { sizes: &[5, 5], coords: &coords };
    let boxes = [0, 0, 10, 10, 2, 2, 8, 8];
    let bytes = [4, 0, 1, 1, 1, 0, 4, 0, 1, 1, 1, 2];
    let rows = |kinds: u64, second: [u64; 2]| {
        let mut table = [0; 20];
        table[2] = 2;
        table[9] = 6;
        table[12] = kinds;
        table[18..].copy_from_slice(&second);
        table
    };
    let ask = |table: &[u64], y| {
        let indexes = Indexes { table, bytes: &bytes, ..NONE };
        let asked = Asked { scale: 1.0, integer: false, edge: false, x: 5.0, y };
        outline::inside(rings, &boxes, asked, &indexes)
    };
    assert_eq!(ask(&rows(2, [6, 6]), 5.0), Err((9, 5)));
    assert_eq!(ask(&rows(2, [6, 6]), 1.0), Ok(true));
    assert_eq!(ask(&rows(2, [6, 6]), 11.0), Ok(false));
    assert_eq!(ask(&rows(2, [0, 6]), 5.0), Ok(false));
    assert_eq!(ask(&rows(2, [99, 6]), 5.0), Err((9, 0)));
    // stripes are told of, and no least and height lent
    assert_eq!(ask(&rows(3, [0, 6]), 5.0), Err((9, 0)));
    assert_eq!(ask(&rows(0, [0, 0]), 5.0), Ok(false));
}

#[test]
fn lists_and_rooms() {
    for (y, listed) in [(0.0, vec![0, 1, 3]), (10.0, vec![1, 2, 3]), (-1.0, vec![])] {
        let mut out = [7; 5];
        assert_eq!(ring::list_scan(&S, 5, y, &mut out), Ok(listed.len() as u64));
        assert_eq!(out[..listed.len()], listed);
        assert!(out[listed.len()..].iter().all(|&n| n == 0));
    }
    let mut out = [7; 2];
    assert_eq!(ring::list_scan(&S, 5, f64::NAN, &mut out), Err((7, 0)));
    assert_eq!(out, [7, 7]);
    assert_eq!(ring::list_scan(&S, 5, 0.0, &mut out), Err((8, 0)));
    assert_eq!(out, [0, 0]);
}

#[test]
fn stripes_of_s() {
    assert_eq!(stripes::stripe_of(5.0, 0.0, 10.0, 32), 16);
    assert_eq!(stripes::stripe_of(10.0, 0.0, 10.0, 32), 31);
    let (mut table, mut list) = ([7; 64], [7; 66]);
    assert_eq!(stripes::build(&S, 5, 0, &mut table, &mut list), Ok(Some((0.0, 10.0, [4, 32, 66, 3]))));
    assert_eq!(stripes::build(&S, 5, 0, &mut table, &mut list[..65]), Err((8, 0)));
    assert_eq!((table, list[..65].iter().sum()), ([0; 64], 0));
    list.fill(7);
    assert_eq!(stripes::build(&S, 5, 5, &mut table, &mut list), Ok(None));
    assert_eq!(list, [0; 66]);
}

#[test]
fn tree_of_s() {
    let (mut bytes, mut work) = ([7; 7], [7; 10]);
    assert_eq!(tree::build(&S, 5, 4, &mut bytes, &mut work), Ok(Some(6)));
    assert_eq!((bytes, work), ([4, 0, 1, 1, 1, 0, 0], [0; 10]));
    assert_eq!(tree::build(&S, 5, 4, &mut bytes, &mut work[..9]), Err((8, 0)));
    assert_eq!(bytes, [0; 7]);
    (bytes, work) = ([7; 7], [7; 10]);
    assert_eq!(tree::build(&S, 5, 5, &mut bytes, &mut work), Ok(None));
    assert_eq!((bytes, work), ([0; 7], [0; 10]));
    let same = [7; 28];
    let ring = Ring::checked(&same, 14).expect("it is closed");
    // to depth 64, 65 nodes
    assert_eq!(tree::packed(ring).1, 65 * 6 + 13);
}

#[test]
fn damage_in_stripes() {
    let test = |least, height, stripes: &[u32], list: &[u32], y| {
        let index = stripes::Index { least, height, stripes, list };
        stripes::test(&S, 5, &index, 5.0, y, false)
    };
    assert_eq!(test(0.0, 10.0, &[], &[], 5.0), Err((9, 0)));
    assert_eq!(test(0.0, 10.0, &[7], &[], 5.0), Err((9, 0)));
    assert_eq!(test(0.0, 10.0, &[], &[], 11.0), Ok(false));
    assert_eq!(test(0.0, 10.0, &[0, 3], &[1, 3], 5.0), Err((9, 2)));
    assert_eq!(test(0.0, 10.0, &[0, 2], &[1, 3], 5.0), Ok(true));
    assert_eq!(test(0.0, 10.0, &[0, 3], &[1, 3, 4], 5.0), Err((9, 2)));
    assert_eq!(test(f64::NAN, f64::NAN, &[0, 2], &[1, 3], 5.0), Ok(true));
}

#[test]
fn damage_in_a_tree() {
    let list = |bytes: &[u8]| tree::search(Ring { coords: &S }, bytes, 0.0);
    let damage = |bytes: &[u8]| list(bytes).damage.map(|no| no.1);
    assert_eq!(list(&[4, 0, 1, 1, 1, 0]).list, [0, 1, 3]);
    assert_eq!(damage(&[]), Some(0));
    assert_eq!(damage(&[0x80; 11]), Some(0));
    assert_eq!(damage(&[4, 0, 1, 1, 1]), Some(5));
    assert_eq!(damage(&[4, 0, 1, 1, 2, 0]), Some(4));
    assert_eq!(damage(&[4, 0, 1, 1, 1, 2]), Some(5));
    assert_eq!(damage(&[4, 0, 1, 1, 1, 0, 0]), Some(6));
    assert_eq!(damage(&[0, 1, 0, 0, 0, 0]), None);
    assert_eq!(damage(&[0, 1, 0, 0, 0]), Some(5));
    // a child past its parent's part, and one that does not fill its own
    assert_eq!(damage(&[0, 1, 0, 0, 3, 0, 0]), Some(4));
    assert_eq!(damage(&[0, 1, 0, 0, 3, 0, 0, 0, 0]), Some(7));
    // the quadrants north are passed over
    assert_eq!(damage(&[0, 1, 1, 0xff, 0, 0, 0]), None);
}
