//! The board as a drawing: SVG that fits an A4 page.

mod crowd;
mod legend;
mod mark;
mod names;
mod page;
mod shape;

use crate::ask::Said;
use crate::board::{edge_word, Board, Kind, Splice, Zone};
use crate::table::part_word;
use brothstitch::Edge;
use mark::Mark;
use names::{Name, ZoneName, KIND_SIZE, SPLICE_SIZE, ZONE_SIZE};
use page::{escaped, n, text_width, At, Box, View, FRAME, HEIGHT, WIDTH};
use shape::Shape;
use std::fmt::Write;

const INK: &str = "#1d2430";
const GREY: &str = "#5c6675";
const FONT: &str = "Helvetica, Arial, 'Liberation Sans', 'DejaVu Sans', sans-serif";

/// A kind's colour, and that of its lines and names. Blue, grey and orange stay apart in the common colour
/// blindnesses; each kind has a hatch as well, so that no colour has to be told.
fn colours(kind: Kind) -> (&'static str, &'static str) {
    match kind {
        Kind::Wet => ("#b3d4f0", "#0b4a86"),
        Kind::Dry => ("#e9e9e6", "#4a4a4a"),
        Kind::Hot => ("#fbd0a4", "#8a3b00"),
    }
}

/// A kind's hatch: lines along the water, dots of dust, flames aslant.
fn hatch(kind: Kind) -> &'static str {
    match kind {
        Kind::Wet => "width=\"4\" height=\"2.4\"><path d=\"M0 1.2H4\" stroke-width=\"0.18\"/>",
        Kind::Dry => {
            "width=\"2.6\" height=\"2.6\"><path d=\"M1.3 1.3h0.01\" stroke-width=\"0.5\" stroke-linecap=\"round\"/>"
        }
        Kind::Hot => {
            "width=\"2.6\" height=\"2.6\" patternTransform=\"rotate(45)\"><path d=\"M1.3 0V2.6\" stroke-width=\"0.2\"/>"
        }
    }
}

/// The hatches of the kinds that the board has.
fn hatches(svg: &mut String, board: &Board) {
    for kind in Kind::ALL.into_iter().filter(|kind| board.zones.iter().any(|zone| zone.kind == *kind)) {
        let (word, line, hatch) = (kind.word(), colours(kind).1, hatch(kind));
        let _ = writeln!(
            svg,
            "<pattern id=\"{word}\" patternUnits=\"userSpaceOnUse\" stroke=\"{line}\" stroke-opacity=\"0.45\" {hatch}</pattern>"
        );
    }
}

/// The line of an outline that holds its border is whole, of one that does not is broken.
fn dashes(edge: Edge) -> &'static str {
    match edge {
        Edge::Allowed => "",
        Edge::Excluded => " stroke-dasharray=\"2.2 1.4\"",
    }
}

/// A line of text; `more` are further attributes.
fn text(svg: &mut String, at: At, size: f64, fill: &str, more: &str, words: &str) {
    let (x, y, words) = (n(at.x), n(at.y), escaped(words));
    let more = if more.is_empty() { String::new() } else { format!(" {more}") };
    let _ = writeln!(svg, "<text x=\"{x}\" y=\"{y}\" font-size=\"{}\" fill=\"{fill}\"{more}>{words}</text>", n(size));
}

/// A text's size: the one wished for, or less where the text would be wider than it may.
fn fitting(words: &str, size: f64, most: f64) -> f64 {
    size * (most / text_width(words, size)).min(1.0)
}

/// From so many splices on a name stands only where it finds room free.
const CROWD: usize = 500;

/// Draws a board with its answers. With `rays` each splice gets the line to the right along which a ring
/// test counts, with a dot at each crossing.
pub fn draw(board: &Board, said: &[Said], rays: bool) -> String {
    let view = View::of(board);
    let shapes: Vec<Shape> = board.zones.iter().map(|zone| Shape::of(zone, &view)).collect();
    let marks = marks(board, said, &view);

    let mut svg = String::new();
    let _ = writeln!(
        svg,
        "<svg xmlns=\"http://www.w3.org/2000/svg\" width=\"{WIDTH}mm\" height=\"{HEIGHT}mm\" viewBox=\"0 0 {WIDTH} {HEIGHT}\" \
         role=\"img\" font-family=\"{FONT}\">"
    );
    let _ = writeln!(svg, "<title>{}</title>", escaped(&board.title));
    let _ = writeln!(svg, "<rect width=\"{WIDTH}\" height=\"{HEIGHT}\" fill=\"#fff\"/>");
    let title = fitting(&board.title, 7.5, WIDTH - FRAME.x0 - 8.0);
    text(&mut svg, At { x: FRAME.x0, y: 16.5 }, title, INK, "font-weight=\"bold\"", &board.title);
    grid(&mut svg, &view);
    hatches(&mut svg, board);
    zones(&mut svg, board, &shapes);
    let mut taken = Vec::new();
    if rays {
        for mark in &marks {
            ray(&mut svg, mark.at, &shapes);
            taken.push(Box { x0: mark.at.x, y0: mark.at.y - 0.4, x1: FRAME.x1, y1: mark.at.y + 0.4 });
        }
    }
    let left_out = if marks.len() < CROWD {
        zone_names(&mut svg, board, &shapes, &marks, &mut taken);
        let boxes = names::splice_names(&marks, &shapes, &taken).into_iter().map(Some).collect::<Vec<_>>();
        splices(&mut svg, board, said, &marks, &boxes);
        0
    } else {
        // the zones' names go over the marks, wherever their own zone is
        let mut over = String::new();
        zone_names(&mut over, board, &shapes, &[], &mut taken);
        let boxes = crowd::crowded_names(&marks, &taken);
        splices(&mut svg, board, said, &marks, &boxes);
        svg += &over;
        boxes.iter().filter(|area| area.is_none()).count()
    };
    legend::legend(&mut svg, board, said, rays);
    footer(&mut svg, &view, left_out);
    svg += "</svg>\n";
    svg
}

/// The splices' marks on paper, smaller where there are very many.
fn marks(board: &Board, said: &[Said], view: &View) -> Vec<Name> {
    let size = (60.0 / board.splices.len() as f64).sqrt().clamp(0.5, 1.0);
    let mark = |(splice, said): (&Splice, &Said)| Name {
        text: splice.name.clone(),
        at: view.at(splice.place.floats()),
        reach: size * Mark::of(said).reach(),
        size,
    };
    board.splices.iter().zip(said).map(mark).collect()
}

/// The step between grid lines, wide enough for the numbers below them.
fn spaced(view: &View) -> (f64, usize) {
    let [(left, right), _] = view.shown();
    let mut least = 15.0;
    loop {
        let (step, decimals) = view.step(least);
        let wide = |v: f64| text_width(&format!("{v:.decimals$}"), 3.0);
        let needed = wide(left).max(wide(right)) + 2.0;
        if needed <= step * view.factor || least > FRAME.x1 - FRAME.x0 {
            return (step, decimals);
        }
        least = needed.max(least * 1.5);
    }
}

/// The frame, with grid lines and their numbers.
fn grid(svg: &mut String, view: &View) {
    let frame = |style: &str| {
        let (w, h) = (n(FRAME.x1 - FRAME.x0), n(FRAME.y1 - FRAME.y0));
        format!("<rect x=\"{}\" y=\"{}\" width=\"{w}\" height=\"{h}\" {style}/>\n", n(FRAME.x0), n(FRAME.y0))
    };
    *svg += &frame("fill=\"#fbfcfd\"");
    let [(left, right), (low, high)] = view.shown();
    let (step, decimals) = spaced(view);
    let lines = |from: f64, to: f64| {
        let first = (from / step).ceil();
        // far from 0 a float may not tell one line from the next, so they are counted as well
        (0..100).map(move |k| (first + f64::from(k)) * step).take_while(move |&v| v <= to)
    };
    let number = |v: f64| format!("{:.decimals$}", if v == 0.0 { 0.0 } else { v });
    let mut path = String::new();
    for v in lines(left, right) {
        let x = view.at((v, 0.0)).x;
        let _ = write!(path, "M{} {}V{}", n(x), n(FRAME.y0), n(FRAME.y1));
        text(svg, At { x, y: FRAME.y1 + 4.6 }, 3.0, GREY, "text-anchor=\"middle\"", &number(v));
    }
    for v in lines(low, high) {
        let y = view.at((0.0, v)).y;
        let _ = write!(path, "M{} {}H{}", n(FRAME.x0), n(y), n(FRAME.x1));
        let (words, at) = (number(v), At { x: FRAME.x0 - 1.8, y: y + 1.1 });
        text(svg, at, fitting(&words, 3.0, FRAME.x0 - 3.0), GREY, "text-anchor=\"end\"", &words);
    }
    let _ = writeln!(svg, "<path d=\"{path}\" stroke=\"#e3e8ee\" stroke-width=\"0.25\"/>");
    *svg += &frame("fill=\"none\" stroke=\"#9aa5b1\" stroke-width=\"0.35\"");
}

/// The zones, the largest first. A zone's colour is its outline, by the even-odd rule, less each of its cut-outs:
/// what the zone holds. Each line is drawn on the inner side only, so that both lines of a shared border are seen.
/// The rim of a cut-out is always whole: a splice on it is held. A zone of no area is drawn as a line.
fn zones(svg: &mut String, board: &Board, shapes: &[Shape]) {
    let mut order: Vec<usize> = (0..shapes.len()).collect();
    order.sort_by(|&a, &b| shapes[b].area.total_cmp(&shapes[a].area));
    for k in order {
        let zone = &board.zones[k];
        let (fill, line) = colours(zone.kind);
        let (outline, cuts) = (path_of(&shapes[k].rings[0]), &shapes[k].rings[1..]);
        let title = escaped(&zone_words(zone));
        if shapes[k].flat {
            let _ = writeln!(
                svg,
                "<g><title>{title}</title><path d=\"{outline}\" fill=\"none\" stroke=\"{line}\" stroke-width=\"0.9\" \
                 stroke-linejoin=\"round\" stroke-linecap=\"round\"{}/></g>",
                dashes(zone.edge)
            );
            continue;
        }
        mask(svg, k, &outline, cuts);
        let _ = writeln!(svg, "<g mask=\"url(#zone{k})\" stroke-linejoin=\"round\"><title>{title}</title>");
        for (fill, more) in [(fill, " fill-opacity=\"0.8\""), (&format!("url(#{})", zone.kind.word()), "")] {
            let _ = writeln!(svg, "<path d=\"{outline}\" fill=\"{fill}\"{more} fill-rule=\"evenodd\"/>");
        }
        let rims: String = cuts.iter().map(|ring| path_of(ring)).collect();
        for (path, dashes) in [(&outline, dashes(zone.edge)), (&rims, "")] {
            if !path.is_empty() {
                let _ =
                    writeln!(svg, "<path d=\"{path}\" fill=\"none\" stroke=\"{line}\" stroke-width=\"1.5\"{dashes}/>");
            }
        }
        *svg += "</g>\n";
    }
}

/// What zone k holds: its outline less each of its cut-outs, one by one, so that cut-outs may overlap.
fn mask(svg: &mut String, k: usize, outline: &str, cuts: &[Vec<At>]) {
    let page = format!("x=\"0\" y=\"0\" width=\"{WIDTH}\" height=\"{HEIGHT}\"");
    let _ = write!(svg, "<mask id=\"zone{k}\" maskUnits=\"userSpaceOnUse\" {page}>");
    let _ = write!(svg, "<path d=\"{outline}\" fill=\"#fff\" fill-rule=\"evenodd\"/>");
    for cut in cuts {
        let _ = write!(svg, "<path d=\"{}\" fill-rule=\"evenodd\"/>", path_of(cut));
    }
    *svg += "</mask>\n";
}

/// A ring as a path, without places that are the same on paper.
fn path_of(ring: &[At]) -> String {
    let mut places: Vec<String> = ring.iter().map(|at| format!("{} {}", n(at.x), n(at.y))).collect();
    places.dedup();
    format!("M{}Z", places.join("L"))
}

fn zone_words(zone: &Zone) -> String {
    format!("{}: {}, edge {}", zone.name, zone.kind.word(), edge_word(zone.edge))
}

/// The line to the right of a splice, with a dot where it crosses a zone's line.
fn ray(svg: &mut String, at: At, shapes: &[Shape]) {
    let _ = write!(
        svg,
        "<path d=\"M{} {}H{}\" stroke=\"{INK}\" stroke-width=\"0.35\" stroke-dasharray=\"0.4 1.2\" stroke-linecap=\"round\"/>",
        n(at.x),
        n(at.y),
        n(FRAME.x1)
    );
    for shape in shapes {
        for cross in shape.crossings(at) {
            let _ = write!(svg, "<circle cx=\"{}\" cy=\"{}\" r=\"0.8\" fill=\"{INK}\"/>", n(cross.x), n(cross.y));
        }
    }
    svg.push('\n');
}

/// The zones' names; adds the boxes that they take.
fn zone_names(svg: &mut String, board: &Board, shapes: &[Shape], marks: &[Name], taken: &mut Vec<Box>) {
    for (k, zone) in board.zones.iter().enumerate() {
        let all: Vec<Box> = taken.iter().copied().chain(marks.iter().map(Name::mark)).collect();
        let ZoneName { area, upright } = names::zone_name(shapes, k, &zone.name, zone.kind.word(), &all);
        let (At { x, y }, line) = (area.middle(), colours(zone.kind).1);
        let turn = if upright { format!(" transform=\"rotate(-90 {} {})\"", n(x), n(y)) } else { String::new() };
        let halo = "stroke=\"#fff\" stroke-width=\"0.8\" stroke-linejoin=\"round\" paint-order=\"stroke\"";
        let bold = format!("text-anchor=\"middle\" font-weight=\"bold\" {halo}{turn}");
        text(svg, At { x, y: y + 0.2 }, ZONE_SIZE, line, &bold, &zone.name);
        let plain = format!("text-anchor=\"middle\" {halo}{turn}");
        text(svg, At { x, y: y + 0.4 + KIND_SIZE }, KIND_SIZE, line, &plain, zone.kind.word());
        taken.push(area);
    }
}

/// The marks of the splices, and the names that have a place.
fn splices(svg: &mut String, board: &Board, said: &[Said], marks: &[Name], boxes: &[Option<Box>]) {
    // lines to names that had to go farther off, below all marks
    for (mark, area) in marks.iter().zip(boxes) {
        let Some(area) = area else {
            continue;
        };
        let near = area.nearest(mark.at);
        if shape::apart(near, mark.at) > mark.reach + 2.2 * mark.size {
            let (x0, y0, x1, y1) = (n(mark.at.x), n(mark.at.y), n(near.x), n(near.y));
            let _ = writeln!(svg, "<path d=\"M{x0} {y0}L{x1} {y1}\" stroke=\"{GREY}\" stroke-width=\"0.3\"/>");
        }
    }
    for ((splice, said), (mark, area)) in board.splices.iter().zip(said).zip(marks.iter().zip(boxes)) {
        let words = format!("{} at {}: {}", splice.name, splice.place, part_word(said.part));
        let _ = writeln!(svg, "<g><title>{}</title>", escaped(&words));
        Mark::of(said).draw(svg, mark.at, mark.size);
        if let Some(area) = area {
            let size = mark.size * SPLICE_SIZE;
            let at = At { x: area.middle().x, y: area.y1 - 0.16 * size };
            let halo = "text-anchor=\"middle\" font-weight=\"bold\" stroke=\"#fff\" stroke-width=\"0.9\" \
                        stroke-linejoin=\"round\" paint-order=\"stroke\"";
            text(svg, at, size, INK, halo, &splice.name);
        }
        *svg += "</g>\n";
    }
}

fn footer(svg: &mut String, view: &View, left_out: usize) {
    let ratio = 1.0 / view.factor;
    let decimals = if ratio < 10.0 { 2 } else { 0 };
    let names = match left_out {
        0 => String::new(),
        1 => "; 1 name is left out for want of room".to_string(),
        many => format!("; {many} names are left out for want of room"),
    };
    let words = format!("millimetres, y upwards; drawn 1 : {ratio:.decimals$} on A4{names}");
    text(svg, At { x: FRAME.x0, y: HEIGHT - 7.0 }, 3.0, GREY, "", &words);
}

#[cfg(test)]
mod tests {
    use super::{names, Box, Name, Shape, View};
    use crate::ask::ask;
    use crate::read::read;
    use brothstitch::BuildOptions;

    /// On the boards of the repository no name hides another name or a mark.
    #[test]
    fn names_do_not_overlap() {
        let boards = ["engine-bay", "lesson-border", "lesson-index", "lesson-tests", "lesson-decimal"];
        for name in boards {
            let file = format!("{}/../boards/{name}.board", env!("CARGO_MANIFEST_DIR"));
            let board = read(&std::fs::read(file).expect("the board is there")).expect("it is a board");
            let said = ask(&board, BuildOptions::default(), &[]).expect("nothing is damaged").said;
            let view = View::of(&board);
            let shapes: Vec<Shape> = board.zones.iter().map(|zone| Shape::of(zone, &view)).collect();
            let marks: Vec<Name> = super::marks(&board, &said, &view);
            let mut taken = Vec::new();
            super::zone_names(&mut String::new(), &board, &shapes, &marks, &mut taken);
            let boxes = names::splice_names(&marks, &shapes, &taken);
            let all: Vec<Box> = taken.into_iter().chain(boxes).chain(marks.iter().map(Name::mark)).collect();
            for (k, area) in all.iter().enumerate() {
                assert!(super::FRAME.holds(*area), "{name}: {area:?}");
                assert!(all[..k].iter().all(|other| area.shared(*other) == 0.0), "{name}: {area:?}");
            }
        }
    }
}
