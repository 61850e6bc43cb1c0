//! Colours, and the attributes that are made of them.

use crate::decide::{Decision, Way};

/// A line's colour and a paler one to fill with.
#[derive(Clone, Copy, Debug, PartialEq, Eq)]
pub struct Shade {
    /// What it stands for: the class of what has it.
    pub name: &'static str,
    pub line: &'static str,
    pub fill: &'static str,
}

const fn shade(name: &'static str, line: &'static str, fill: &'static str) -> Shade {
    Shade { name, line, fill }
}

pub const COMMITTED: Shade = shade("committed", "#1a7f37", "#d2f0da");
pub const SKIPPED: Shade = shade("skipped", "#c2410c", "#ffe0cc");
pub const UNDECIDED: Shade = shade("undecided", "#6e7781", "#e4e8ec");
/// A leader of a refused table, in which nothing is decided.
pub const UNSETTLED: Shade = shade("unsettled", "#8c959f", "#ffffff");
pub const COMMITTED_VERTEX: Shade = shade("committed", "#1a7f37", "#1a7f37");
pub const WRITTEN: Shade = shade("written", "#1f4e9c", "#dbe9fe");
pub const UNWRITTEN: Shade = shade("unwritten", "#57606a", "#ffffff");
pub const EQUIVOCATING: Shade = shade("equivocating", "#8250df", "#f3ecfe");
pub const FAULTY: Shade = shade("faulty", "#cf222e", "#cf222e");
/// How a certificate was found through an anchor.
pub const FOUND: Shade = shade("found", "#7d4e00", "#f5c84c");
pub const PAPER: &str = "#ffffff";
pub const INK: &str = "#1f2328";
/// Every other author.
pub const BAND: &str = "#f6f8fa";

/// The colours and the word of a decision.
pub fn decided(way: Option<Way>) -> (Shade, &'static str) {
    match way.map(Way::decision) {
        None => (UNSETTLED, ""),
        Some(Decision::Undecided) => (UNDECIDED, "undecided"),
        Some(Decision::Skipped) => (SKIPPED, "skip"),
        Some(Decision::Committed(_)) => (COMMITTED, "commit"),
    }
}

/// The colour of what is written in a vertex.
pub fn ink_on(shade: Shade) -> &'static str {
    match shade.line == shade.fill {
        true => PAPER,
        false => INK,
    }
}

pub fn filled(colour: &str) -> String {
    format!("fill=\"{colour}\"")
}

/// Words that begin, end or have their middle (`start`, `end`, `middle`) where they are put.
pub fn words(size: f64, anchor: &str, colour: &str) -> String {
    format!("font-size=\"{size}\" text-anchor=\"{anchor}\" fill=\"{colour}\"")
}

pub fn bold(style: &str) -> String {
    format!("{style} font-weight=\"bold\"")
}

/// Small words that lines may run behind: what is next to them is paper.
pub fn in_front(style: &str) -> String {
    format!("{style} stroke=\"{PAPER}\" stroke-width=\"3\" paint-order=\"stroke\"")
}

pub fn stroke(colour: &str, width: f64, opacity: f64) -> String {
    format!("stroke=\"{colour}\" stroke-width=\"{width}\" stroke-opacity=\"{opacity}\"")
}

/// A vertex, with a ring where its author has several in the round.
pub fn vertex(shade: Shade, is_twin: bool) -> String {
    let (line, width) = match is_twin {
        true => (EQUIVOCATING.line, 3.0),
        false => (shade.line, 1.5),
    };
    let fill = shade.fill;
    format!("fill=\"{fill}\" stroke=\"{line}\" stroke-width=\"{width}\"")
}

/// Around a leader's place; dashed where nothing is decided.
pub fn frame(shade: Shade) -> String {
    let Shade { line, fill, .. } = shade;
    let dashes = match shade == UNSETTLED {
        true => " stroke-dasharray=\"4 3\"",
        false => "",
    };
    format!("rx=\"9\" fill=\"{fill}\" stroke=\"{line}\" stroke-width=\"1.5\"{dashes}")
}

/// A reference to no record, and the place where that ought to be.
pub fn missing() -> String {
    let stroke = stroke(FAULTY.line, 1.6, 1.0);
    format!("fill=\"none\" {stroke} stroke-dasharray=\"5 4\"")
}

/// Behind the references that matter for a certificate, as with a marker pen.
pub fn marked() -> String {
    format!("{} stroke-linecap=\"round\"", stroke(FOUND.fill, 8.0, 0.75))
}

/// The path from an anchor, on top of the mark.
pub fn path() -> String {
    stroke(FOUND.line, 2.6, 1.0)
}

/// Around a vertex that certifies; dashed outside the anchor's history.
pub fn ring(outside: bool) -> String {
    let stroke = stroke(FOUND.line, 2.6, 1.0);
    match outside {
        true => format!("fill=\"none\" {stroke} stroke-dasharray=\"5 3\""),
        false => format!("fill=\"{}\" {stroke}", FOUND.fill),
    }
}
