//! The marks of splices.

use super::page::{n, At};
use super::INK;
use crate::ask::{Part, Said};
use std::fmt::Write;

const STRIKING: &str = "#c2185b";

/// What a mark shows of a splice.
#[derive(Clone, Copy)]
pub struct Mark {
    pub part: Part,
    pub border: bool,
    pub rim: bool,
    /// On a line as it is written, and not as it is asked.
    pub written: bool,
}

impl Mark {
    pub fn of(said: &Said) -> Mark {
        Mark {
            part: said.part,
            border: !said.borders.is_empty(),
            rim: !said.rims.is_empty(),
            written: !said.written.is_empty(),
        }
    }

    /// How far it reaches from its middle, in full size.
    pub fn reach(self) -> f64 {
        if self.border {
            4.9
        } else if self.rim || self.written {
            3.6
        } else {
            1.9
        }
    }

    pub fn draw(self, svg: &mut String, at: At, size: f64) {
        let scale = if size == 1.0 { String::new() } else { format!(" scale({})", n(size)) };
        let _ = write!(svg, "<g transform=\"translate({} {}){scale}\" fill=\"none\">", n(at.x), n(at.y));
        if self.border {
            *svg += "<circle r=\"3.2\" stroke=\"#fff\" stroke-width=\"1.7\"/>";
            let ticks = "M0 -3.2V-4.8M3.2 0H4.8M0 3.2V4.8M-3.2 0H-4.8";
            let style = format!("stroke=\"{STRIKING}\" stroke-width=\"0.8\"");
            let _ = write!(svg, "<circle r=\"3.2\" {style}/><path d=\"{ticks}\" {style}/>");
        } else if self.rim {
            *svg += "<circle r=\"3.1\" stroke=\"#fff\" stroke-width=\"1.6\"/>";
            let style = format!("stroke=\"{STRIKING}\" stroke-width=\"0.8\" stroke-dasharray=\"1.6 0.835\"");
            let _ = write!(svg, "<circle r=\"3.1\" {style}/>");
        } else if self.written {
            *svg += "<circle r=\"3.1\" stroke=\"#fff\" stroke-width=\"1.6\"/>";
            let style = format!(
                "stroke=\"{STRIKING}\" stroke-width=\"1\" stroke-dasharray=\"0 1.95\" stroke-linecap=\"round\""
            );
            let _ = write!(svg, "<circle r=\"3.1\" {style}/>");
        }
        *svg += &match self.part {
            Part::Sealed => "<circle r=\"1.6\" fill=\"#0d3b66\" stroke=\"#fff\" stroke-width=\"0.4\"/>".to_string(),
            Part::Unsealed => format!("<circle r=\"1.45\" fill=\"#fff\" stroke=\"{INK}\" stroke-width=\"0.7\"/>"),
            Part::None => {
                let cross = "M-1.8 -1.8H1.8V1.8H-1.8ZL1.8 1.8M-1.8 1.8L1.8 -1.8";
                format!("<path d=\"{cross}\" fill=\"#fff\" stroke=\"#b00020\" stroke-width=\"0.6\"/>")
            }
        };
        *svg += "</g>\n";
    }
}
