//! Reading and writing of varints.

use super::Run;
use crate::ours;
use crate::report::{Family, Plan};
use cases::varints::{self, Read, Write};
use cases::Random;
use opened::open;

pub const FAMILIES: &[Run] = &[("read_uvarint", read), ("append_uvarint", append)];

const LONGER: &str = "a form longer than its number needs: the Rust reads it, here it is refusal 15";
const TENTH: &str = "a tenth byte above 1: the Rust drops its upper bits, here it is refusal 15";

/// What the model reads in the part. Where it reads a number the Rust reads the same, where it says 9 the Rust finds none, and where it says 15 the
/// Rust takes what is loose.
fn read(plan: Plan) -> bool {
    let mut family = Family::new("read_uvarint", &[LONGER, TENTH]);
    let mut random = Random::new(plan.seed, "read_uvarint");
    varints::read_edges().into_iter().for_each(|q| ask_read(&mut family, &q));
    let short = if plan.random > 1_000_000 { 3 } else { 2 };
    varints::every_string(short, |bytes| {
        let ours = ours::read_uvarint(bytes, 0, bytes.len());
        family.same(ours, model::varint::read(bytes, 0), || format!("{bytes:x?}"));
    });
    varints::every_run(&mut random, 1 + plan.random as usize / 100_000, |q| ask_read(&mut family, &q));
    for _ in 0..plan.random {
        ask_read(&mut family, &varints::random_read(&mut random));
    }
    for _ in 0..plan.random / 4 {
        ask_read(&mut family, &varints::damaged_read(&mut random));
    }
    let ten = [&[0xff; 9][..], &[0x7f]].concat();
    for (what, bytes, theirs) in [(LONGER, &[0x80, 0][..], (0, 2)), (TENTH, &ten[..], (u64::MAX, 10))] {
        let answers = [ours::read_uvarint(bytes, 0, bytes.len()), open::read_uvarint(bytes, 0).ok_or((9, 0))];
        family.recorded(what, answers, [Err((15, 0)), Ok(theirs)]);
    }
    family.end()
}

fn ask_read(family: &mut Family, q: &Read) {
    let part = &q.bytes[..q.end];
    let expected = model::varint::read(part, q.at);
    family.same(ours::read_uvarint(&q.bytes, q.at, q.end), expected, || format!("{q:x?}"));
    // an end past the bytes counts as their end
    if q.end == q.bytes.len() {
        family.same(ours::read_uvarint(&q.bytes, q.at, usize::MAX), expected, || format!("{q:x?} with no end"));
    }
    let rust = open::read_uvarint(part, q.at);
    let agree = match expected {
        Ok(read) => rust == Some(read),
        Err((15, _)) => rust.is_some(),
        Err(_) => rust.is_none(),
    };
    family.same(agree, true, || format!("{q:x?}: the model {expected:x?}, the Rust {rust:x?}"));
}

/// The Rust appends to what it has. Where its bytes go past the room, 01's refusal 8 and zeros;
/// elsewhere what stood before the place, the Rust's bytes, and zeros.
fn append(plan: Plan) -> bool {
    let mut family = Family::new("append_uvarint", &[]);
    let mut ask = |q: Write| {
        let mut bytes = Vec::new();
        open::append_uvarint(&mut bytes, q.value);
        let end = q.at.checked_add(bytes.len()).filter(|&end| end <= q.room.len());
        let mut theirs = vec![0; q.room.len()];
        if let Some(end) = end {
            theirs[..q.at].copy_from_slice(&q.room[..q.at]);
            theirs[q.at..end].copy_from_slice(&bytes);
        }
        let mut room = q.room.clone();
        let answer = ours::append_uvarint(&mut room, q.at, q.value);
        family.same((answer, room), (end.ok_or((8, 0)), theirs), || format!("{q:x?}"));
        family.same(ours::uvarint_len(q.value), bytes.len(), || format!("length of {:x}", q.value));
    };
    let mut random = Random::new(plan.seed, "append_uvarint");
    varints::write_edges().into_iter().for_each(&mut ask);
    for _ in 0..plan.random {
        ask(varints::random_write(&mut random));
    }
    family.end()
}
