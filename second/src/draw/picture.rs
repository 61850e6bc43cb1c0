//! The picture itself, part by part; each covers what was drawn before it.

use super::grid::{Grid, FEW, RADIUS, RING};
use super::reasons::Link;
use super::scene::{Reference, Scene, Verdict};
use super::style::{self, decided, Shade};
use super::svg::{at, Point, Svg};
use super::{AUTHORS_WIDTH, MARGIN};
use crate::decide::Way;
use std::collections::BTreeSet;

/// Everything at its place.
pub struct Picture<'a> {
    scene: &'a Scene,
    grid: &'a Grid,
    /// Where each vertex stands.
    places: Vec<Point>,
    equivocators: BTreeSet<u8>,
    svg: &'a mut Svg,
}

impl<'a> Picture<'a> {
    pub fn new(scene: &'a Scene, grid: &'a Grid, svg: &'a mut Svg) -> Picture<'a> {
        Picture {
            places: grid.places(scene.vertices.len()),
            equivocators: grid.equivocators(),
            scene,
            grid,
            svg,
        }
    }

    /// A band for each author up to this end, with the author's number, and again on
    /// the right if it is far.
    pub fn bands(&mut self, end: f64) {
        for (i, (author, y, half)) in self.grid.rows().enumerate() {
            let fill = match (self.equivocators.contains(&author), i % 2) {
                (true, _) => style::EQUIVOCATING.fill,
                (false, 0) => style::BAND,
                (false, _) => style::PAPER,
            };
            let middle = at((MARGIN + end) / 2.0, y);
            let size = at((end - MARGIN) / 2.0, half);
            self.svg.frame(middle, size, &style::filled(fill));
            self.author(author, at(MARGIN + 10.0, y), "start");
            if end >= self.grid.right + AUTHORS_WIDTH {
                self.author(author, at(end - 10.0, y), "end");
            }
        }
    }

    fn author(&mut self, author: u8, from: Point, anchor: &str) {
        let number = format!("author {author}");
        // Of a refused table it isn't said: there it may be one record twice.
        let several = match self.scene.verdict {
            Verdict::Settled { .. } => "equivocates",
            Verdict::Refused(_) => "two in a round",
        };
        let note = match self.equivocators.contains(&author) {
            true => Some((several, style::EQUIVOCATING.line)),
            false if author >= self.scene.n => Some(("no such author", style::FAULTY.line)),
            false => None,
        };
        match note {
            None => {
                let style = style::words(14.0, anchor, style::INK);
                self.svg.words(at(from.x, from.y + 5.0), &style, &number);
            }
            Some((note, colour)) => {
                let style = |size| style::words(size, anchor, colour);
                let (above, below) = (at(from.x, from.y - 2.0), at(from.x, from.y + 12.0));
                self.svg.words(above, &style(14.0), &number);
                self.svg.words(below, &style(11.0), note);
            }
        }
    }

    /// Above each round its decision and how it came by it.
    pub fn rounds(&mut self) {
        let mut rows = self.grid.rows();
        let top = rows.next().map_or(0.0, |(_, y, half)| y - half);
        for (round, x) in self.grid.columns() {
            let (shade, word) = decided(self.scene.way(round));
            let number = style::words(14.0, "middle", style::INK);
            let decision = style::bold(&style::words(14.0, "middle", shade.line));
            let small = style::words(11.0, "middle", shade.line);
            let name = format!("round {round}");
            self.svg.words(at(x, top - 44.0), &number, &name);
            self.svg.words(at(x, top - 27.0), &decision, word);
            let how = how(self.scene, round);
            self.svg.words(at(x, top - 12.0), &small, &how);
        }
    }

    /// A frame around the place of each round's leader, whether it has a vertex or not.
    pub fn leaders(&mut self) {
        for (round, _) in self.grid.columns() {
            let leader = self.scene.leader(round);
            let slot = leader.and_then(|leader| self.grid.cell(round, leader));
            if let (Some(leader), Some(middle)) = (leader, slot) {
                let (shade, _) = decided(self.scene.way(round));
                let (name, frame) = (shade.name, style::frame(shade));
                let style = format!("id=\"leader-{round}\" class=\"{name}\" {frame}");
                self.svg
                    .frame(middle, self.grid.half(round, leader), &style);
            }
        }
    }

    /// What was found through anchors, behind the references: certificates and the paths to
    /// them; and what certifies in vain.
    pub fn marks(&mut self) {
        let reasons = &self.scene.reasons;
        for (name, links) in [("support", &reasons.support), ("path", &reasons.path)] {
            let style = format!("class=\"{name}\" {}", style::marked());
            self.links(links, &style);
        }
        for &position in &reasons.outside {
            self.ring(position, true);
        }
    }

    /// The same on top of the references.
    pub fn paths(&mut self) {
        let reasons = &self.scene.reasons;
        self.links(&reasons.path, &style::path());
        for &position in &reasons.certifying {
            self.ring(position, false);
        }
    }

    fn links(&mut self, links: &BTreeSet<Link>, style: &str) {
        for &(from, to) in links {
            self.svg.path(self.places[from], self.places[to], style);
        }
    }

    fn ring(&mut self, position: usize, outside: bool) {
        let class = if outside { "outside" } else { "certifies" };
        let style = format!("class=\"{class}\" {}", style::ring(outside));
        self.svg.sample(self.places[position], RING, &style);
    }

    /// A line for each reference. Those to leaders have the colour of the leader's
    /// decision, and lie above the others.
    pub fn references(&mut self) {
        let (plain_opacity, leader_opacity) = match self.grid.rows().count() {
            0..=7 => (0.5, 0.9),
            8..=13 => (0.3, 0.7),
            _ => (0.15, 0.5),
        };
        let plain = style::stroke(style::UNWRITTEN.line, 1.0, plain_opacity);
        self.references_of(None, &plain);
        for shade in [
            style::UNSETTLED,
            style::UNDECIDED,
            style::SKIPPED,
            style::COMMITTED,
        ] {
            let style = style::stroke(shade.line, 1.6, leader_opacity);
            self.references_of(Some(shade), &style);
        }
    }

    /// Those to leaders of this colour, or those that are not to leaders.
    fn references_of(&mut self, shade: Option<Shade>, style: &str) {
        self.svg.open(style);
        for reference in &self.scene.references {
            if self.scene.leader_shade(reference) == shade {
                self.reference(reference);
            }
        }
        self.svg.close();
    }

    fn reference(&mut self, reference: &Reference) {
        let from = self.places[reference.from];
        if let Some(to) = reference.to {
            self.svg.line(from, self.places[to]);
            return;
        }
        // To where the record ought to be, or a stub where there is no such place.
        let round = reference.round;
        match round.and_then(|round| self.grid.cell(round, reference.author)) {
            Some(cell) => {
                self.svg.path(from, cell, &style::missing());
                self.svg.sample(cell, RADIUS, &style::missing());
            }
            None => {
                let end = at(from.x - 3.0 * RADIUS, from.y + RADIUS);
                self.svg.path(from, end, &style::missing());
            }
        }
    }

    /// A circle for each record, with its place in the order, and its mark below where
    /// it stands beside another of its author.
    pub fn vertices(&mut self) {
        for position in 0..self.scene.vertices.len() {
            let place = self.places[position];
            let shade = self.scene.shade(position);
            let vertex = &self.scene.vertices[position];
            let is_twin = self.grid.count(vertex.round, vertex.author) > 1;
            let style = format!("class=\"{}\" {}", shade.name, style::vertex(shade, is_twin));
            let hint = hint(self.scene, position);
            self.svg.circle(place, RADIUS, &style, &hint);
            let label = self.scene.label(position);
            if !label.is_empty() {
                // Four digits have to fit too.
                let size = [13.0, 13.0, 13.0, 11.0, 9.0][label.len().min(4)];
                let style = style::words(size, "middle", style::ink_on(shade));
                let below = at(place.x, place.y + 0.35 * size);
                self.svg.words(below, &style, &label);
            }
        }
        for position in 0..self.scene.vertices.len() {
            self.mark(position);
        }
    }

    /// Only a short mark fits; the hint has every mark.
    fn mark(&mut self, position: usize) {
        let vertex = &self.scene.vertices[position];
        let count = self.grid.count(vertex.round, vertex.author);
        let words = format!("mark {}", vertex.mark);
        if (2..=FEW).contains(&count) && words.len() <= 8 {
            let place = self.places[position];
            let style = style::words(9.0, "middle", style::EQUIVOCATING.line);
            let below = at(place.x, place.y + RADIUS + 10.0);
            self.svg.words(below, &style::in_front(&style), &words);
        }
    }
}

/// The whole name and what else the record says.
fn hint(scene: &Scene, position: usize) -> String {
    let vertex = &scene.vertices[position];
    let (round, author, mark) = (vertex.round, vertex.author, vertex.mark);
    let batches = vertex.batches;
    let name = format!("position {position}: round {round}, author {author}, mark {mark}");
    let mut hint = vec![format!("{name}, batches {batches}")];
    hint.extend(scene.deeds(position));
    if let Some(place) = scene.written[position] {
        hint.push(format!("written as number {place}"));
    }
    hint.join("; ")
}

/// How a round came by its decision, in a few words.
fn how(scene: &Scene, round: u32) -> String {
    let authors = || scene.reasons.authors[round as usize - 1];
    let through = |anchor: usize| format!("through round {}", scene.vertices[anchor].round);
    match scene.way(round) {
        None | Some(Way::NoneFound) => String::new(),
        Some(Way::DirectCommit { .. }) => format!("direct, {} certify", authors()),
        Some(Way::DirectSkip) => format!("direct, {} blank", authors()),
        Some(Way::IndirectCommit { anchor, .. }) => through(anchor),
        Some(Way::IndirectSkip { anchor }) => through(anchor),
        Some(Way::StoppedAt { round }) => format!("stopped at round {round}"),
    }
}
