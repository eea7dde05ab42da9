//! The legend, in a column beside the board.

use super::mark::Mark;
use super::page::{n, At, HEIGHT, LEGEND, WIDTH};
use super::{colours, dashes, fitting, text, GREY, INK};
use crate::ask::{Part, Said};
use crate::board::{mode_word, Board, Zone};
use crate::table::count;
use brothstitch::Edge;
use std::fmt::Write;

/// The column as far as it is filled.
struct Column<'a> {
    svg: &'a mut String,
    y: f64,
}

impl Column<'_> {
    fn head(&mut self, words: &str) {
        self.y += 4.0;
        let bold = "font-weight=\"bold\" letter-spacing=\"0.3\"";
        text(self.svg, At { x: LEGEND, y: self.y }, 3.4, GREY, bold, words);
        self.y += 2.6;
    }

    /// A line of text right of a picture, with a second line below it if it has one.
    fn words(&mut self, first: &str, second: &str, weight: &str) {
        let x = LEGEND + 13.0;
        let middle = self.y + 3.0;
        let most = WIDTH - x - 3.0;
        if second.is_empty() {
            text(self.svg, At { x, y: middle + 1.15 }, fitting(first, 3.3, most), INK, weight, first);
            return;
        }
        text(self.svg, At { x, y: middle - 0.5 }, fitting(first, 3.3, most), INK, weight, first);
        text(self.svg, At { x, y: middle + 3.1 }, fitting(second, 2.7, most), GREY, "", second);
    }

    fn zone(&mut self, zone: &Zone) {
        let (fill, line) = colours(zone.kind);
        let dashes = dashes(zone.edge);
        let _ = writeln!(
            self.svg,
            "<rect x=\"{}\" y=\"{}\" width=\"9\" height=\"5\" fill=\"{fill}\" stroke=\"{line}\" stroke-width=\"0.75\"{dashes}/>",
            n(LEGEND + 0.5),
            n(self.y + 0.5)
        );
        let _ = writeln!(
            self.svg,
            "<rect x=\"{}\" y=\"{}\" width=\"9\" height=\"5\" fill=\"url(#{})\"/>",
            n(LEGEND + 0.5),
            n(self.y + 0.5),
            zone.kind.word()
        );
        let cuts = match zone.rings.len() - 1 {
            0 => String::new(),
            1 => ", 1 cut-out".to_string(),
            cuts => format!(", {cuts} cut-outs"),
        };
        let second = format!("{}, {} \u{d7}{}{cuts}", zone.kind.word(), mode_word(zone.mode), zone.scale);
        self.words(&zone.name, &second, "font-weight=\"bold\"");
        self.y += 8.6;
    }

    fn line(&mut self, edge: Edge) {
        let (y, dashes) = (n(self.y + 3.0), dashes(edge));
        let (from, to) = (n(LEGEND), n(LEGEND + 10.0));
        let _ = writeln!(self.svg, "<path d=\"M{from} {y}H{to}\" stroke=\"{INK}\" stroke-width=\"0.75\"{dashes}/>");
        let (first, second) = match edge {
            Edge::Allowed => ("a splice on it is held", "edge allowed; rim of a cut-out"),
            Edge::Excluded => ("a splice on it is not held", "edge excluded"),
        };
        self.words(first, second, "");
        self.y += 8.6;
    }

    fn mark(&mut self, mark: Mark, first: &str, second: &str) {
        let deep = if mark.border || mark.rim || mark.written { 10.4 } else { 6.2 };
        let middle = self.y + 3.0;
        mark.draw(self.svg, At { x: LEGEND + 5.0, y: middle + if second.is_empty() { 0.0 } else { 0.6 } }, 1.0);
        self.words(first, second, "");
        self.y += deep;
    }

    fn ray(&mut self) {
        let y = self.y + 3.0;
        let (from, to, at) = (n(LEGEND), n(LEGEND + 10.0), n(LEGEND + 6.0));
        let _ = writeln!(
            self.svg,
            "<path d=\"M{from} {0}H{to}\" stroke=\"{INK}\" stroke-width=\"0.35\" stroke-dasharray=\"0.4 1.2\" \
             stroke-linecap=\"round\"/><circle cx=\"{at}\" cy=\"{0}\" r=\"0.8\" fill=\"{INK}\"/>",
            n(y)
        );
        self.words("each crossing flips in and out", "", "");
        self.y += 6.2;
    }
}

/// Draws the legend. Zones that the column has no room for are counted.
pub fn legend(svg: &mut String, board: &Board, said: &[Said], rays: bool) {
    let mut column = Column { svg, y: 22.6 };
    column.head("ZONES");
    // what stands below the zones takes so much
    let written = count(said, |said| !said.written.is_empty());
    let below = 90.0 + if rays { 6.0 } else { 0.0 } + if written > 0 { 10.4 } else { 0.0 };
    let fits = ((HEIGHT - 14.0 - below - column.y) / 8.6) as usize;
    let shown = if board.zones.len() <= fits { fits } else { fits - 1 };
    board.zones.iter().take(shown).for_each(|zone| column.zone(zone));
    if board.zones.len() > shown {
        column.words(&format!("and {} more", board.zones.len() - shown), "", "");
        column.y += 8.6;
    }
    column.head("LINES");
    [Edge::Allowed, Edge::Excluded].into_iter().for_each(|edge| column.line(edge));
    column.head("SPLICES");
    for part in [Part::Sealed, Part::Unsealed, Part::None] {
        let word = match part {
            Part::Sealed => "sealed part",
            Part::Unsealed => "unsealed part",
            Part::None => "refused, no part",
        };
        let many = count(said, |said| said.part == part);
        column.mark(Mark { part, border: false, rim: false, written: false }, &format!("{word} ({many})"), "");
    }
    column.y += 2.0;
    let part = Part::Unsealed;
    let borders = count(said, |said| !said.borders.is_empty());
    let rims = count(said, |said| !said.rims.is_empty());
    let border = Mark { part, border: true, rim: false, written: false };
    column.mark(border, &format!("on a border ({borders})"), "the edge rule decides");
    let rim = Mark { part, border: false, rim: true, written: false };
    column.mark(rim, &format!("on a cut-out's rim ({rims})"), "never puts a splice out");
    if written > 0 {
        let mark = Mark { part, border: false, rim: false, written: true };
        column.mark(mark, &format!("on a line as written ({written})"), "and not as it is asked");
    }
    if rays {
        column.ray();
    }
}
