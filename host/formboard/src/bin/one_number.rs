//! Lesson 2: what one damaged number of an index does. Asks about the first splice of a board, in the ring
//! of its first zone: `one_number FILE`.

use brothstitch::{Edge, Refusal, Ring, Stripes};
use formboard::read::read;
use std::env;
use std::error::Error;
use std::fs;

/// The numbers that the stripe of a height lists: where they start, and they themselves.
fn stripe_at(index: &Stripes, y: f64) -> (usize, &[u32]) {
    let stripes = index.stripes.len() / 2;
    let stripe = (((y - index.least) / index.height * stripes as f64) as usize).min(stripes - 1);
    let (start, len) = (index.stripes[2 * stripe] as usize, index.stripes[2 * stripe + 1] as usize);
    (start, &index.list[start..start + len])
}

/// The listed segments that the line from the splice to the right crosses. It looks up only the segments
/// that there are: a number that names none is passed over without a word. That is the mistake.
fn careless<'a>(coords: &'a [i32], listed: &'a [u32], (x, y): (f64, f64)) -> impl Iterator<Item = u32> + 'a {
    listed.iter().copied().filter(move |&i| {
        let Some(ends) = coords.get(2 * i as usize..2 * i as usize + 4) else {
            return false;
        };
        let [ax, ay, bx, by] = [ends[0], ends[1], ends[2], ends[3]].map(f64::from);
        (ay > y) != (by > y) && x < ax + (y - ay) / (by - ay) * (bx - ax)
    })
}

fn words(inside: bool) -> &'static str {
    if inside {
        "inside"
    } else {
        "outside"
    }
}

fn said(answer: Result<bool, Refusal>) -> String {
    answer.map_or_else(|refusal| refusal.to_string(), |inside| words(inside).to_string())
}

fn counted(coords: &[i32], listed: &[u32], at: (f64, f64)) -> String {
    let crossings = careless(coords, listed, at).count();
    format!("{crossings} lines crossed: {}", words(crossings % 2 == 1))
}

fn main() -> Result<(), Box<dyn Error>> {
    let file = env::args().nth(1).ok_or("expected a board file")?;
    let board = read(&fs::read(file)?)?;
    let (zone, splice) = (&board.zones[0], board.splices.first().ok_or("expected a splice")?);
    let coords: Vec<i32> = zone.rings[0].stored.iter().flat_map(|&(x, y)| [x, y]).collect();
    let ring = Ring::new(&coords);
    let (scale, (x, y)) = (zone.scale.float(), splice.place.floats());
    let at = (x * scale, y * scale);
    let ask = |index: &Stripes| said(ring.contains_by_stripes(index, at.0, at.1, Edge::Allowed));

    let good = ring.build_stripes(0)?.ok_or("expected a ring that is indexed")?;
    let (start, listed) = stripe_at(&good, at.1);
    println!(
        "splice {}, zone {}: {} segments in {} stripes",
        splice.name,
        zone.name,
        coords.len() / 2 - 1,
        good.stats.stripes
    );
    println!("  by scan, the library says            {}", said(ring.contains(at.0, at.1, Edge::Allowed)));
    println!("  by the built index, the library says {}", ask(&good));
    println!("  a careless reader of it              {}", counted(&coords, listed, at));

    let missed = careless(&coords, listed, at).nth(2).ok_or("expected three crossings")?;
    let place = start + listed.iter().position(|&i| i == missed).ok_or("expected the segment in its stripe")?;
    let mut bad = good.clone();
    bad.list[place] = 9999;
    println!("the number at place {place} of the list was {missed}, and is made 9999:");
    println!("  the library says                     {}", ask(&bad));
    println!("  a careless reader of it              {}", counted(&coords, stripe_at(&bad, at.1).1, at));

    // a segment that is there, but not this one
    bad.list[place] = 0;
    println!("the same number is made 0, which names a segment that is there:");
    println!("  the library says                     {}", ask(&bad));
    Ok(())
}
