//! What the colours and shapes mean, below the picture.

use super::grid::{RADIUS, RING};
use super::scene::{Scene, Verdict};
use super::style::{self, decided, Shade, INK};
use super::svg::{at, Point, Svg};
use super::MARGIN;

const ITEM_WIDTH: f64 = 296.0;
const ITEM_HEIGHT: f64 = 38.0;
const ABOVE: f64 = 26.0;
const WORDS_SIZE: f64 = 13.0;

/// What stands before the words, with its attributes.
enum Sample {
    Frame(String),
    Vertex {
        style: String,
        label: String,
        ink: &'static str,
    },
    Ring(String),
    /// One on top of the other.
    Line(Vec<String>),
}

pub struct Item {
    sample: Sample,
    words: &'static str,
}

fn frame(shade: Shade, words: &'static str) -> Item {
    let sample = Sample::Frame(style::frame(shade));
    Item { sample, words }
}

/// A vertex with a label in it.
fn vertex(shade: Shade, label: String, words: &'static str) -> Item {
    let style = style::vertex(shade, shade == style::EQUIVOCATING);
    let ink = style::ink_on(shade);
    let sample = Sample::Vertex { style, label, ink };
    Item { sample, words }
}

/// A vertex that certifies.
fn ring(outside: bool, words: &'static str) -> Item {
    let sample = Sample::Ring(style::ring(outside));
    Item { sample, words }
}

fn line(styles: Vec<String>, words: &'static str) -> Item {
    let sample = Sample::Line(styles);
    Item { sample, words }
}

/// What a picture of this table has in it, and then how decisions through anchors came about:
/// each begins a row. `several` says that some author has several vertices in a round.
pub fn groups(scene: &Scene, several: bool) -> [Vec<Item>; 2] {
    let mut items = frames(scene);
    items.extend(vertices(scene));
    if several {
        let words = "one of several of its author";
        items.push(vertex(style::EQUIVOCATING, String::new(), words));
    }
    items.extend(lines(scene));
    [items, reasons(scene)]
}

fn frames(scene: &Scene) -> Vec<Item> {
    let leaders = scene.vertices.iter().map(|vertex| vertex.round);
    let leaders = leaders.filter(|&round| scene.leader(round).is_some());
    let shades: Vec<Shade> = leaders.map(|round| decided(scene.way(round)).0).collect();
    let all = [
        (style::COMMITTED, "leader, committed"),
        (style::SKIPPED, "leader, skipped"),
        (style::UNDECIDED, "leader, undecided"),
        (style::UNSETTLED, "leader; nothing is decided"),
    ];
    let there = all.into_iter().filter(|(shade, _)| shades.contains(shade));
    there.map(|(shade, words)| frame(shade, words)).collect()
}

/// The first vertex of each look is the sample.
fn vertices(scene: &Scene) -> Vec<Item> {
    let other = match scene.verdict {
        Verdict::Settled { .. } => "not written",
        Verdict::Refused(_) => "other record",
    };
    let all = [
        (style::COMMITTED_VERTEX, "committed leader vertex"),
        (style::WRITTEN, "place in the written order"),
        (style::FAULTY, "record that is refused"),
        (style::UNWRITTEN, other),
    ];
    let there = all.into_iter().filter_map(|(shade, words)| {
        let mut positions = 0..scene.vertices.len();
        let first = positions.find(|&position| scene.shade(position) == shade)?;
        Some(vertex(shade, scene.label(first), words))
    });
    there.collect()
}

fn lines(scene: &Scene) -> Vec<Item> {
    let mut items = Vec::new();
    let references = scene.references.iter();
    let shades: Vec<Shade> = references.filter_map(|r| scene.leader_shade(r)).collect();
    let all = [
        style::COMMITTED,
        style::SKIPPED,
        style::UNDECIDED,
        style::UNSETTLED,
    ];
    if let Some(shade) = all.into_iter().find(|shade| shades.contains(shade)) {
        let to_leader = style::stroke(shade.line, 1.6, 1.0);
        items.push(line(vec![to_leader], "reference to a leader vertex"));
    }
    let found = scene.references.iter().filter(|r| r.to.is_some()).count();
    if found > shades.len() {
        let plain = style::stroke(style::UNWRITTEN.line, 1.0, 0.7);
        items.push(line(vec![plain], "reference to the round before"));
    }
    if found < scene.references.len() {
        items.push(line(vec![style::missing()], "reference to no record"));
    }
    items
}

fn reasons(scene: &Scene) -> Vec<Item> {
    let mut items = Vec::new();
    if !scene.reasons.certifying.is_empty() {
        items.push(ring(false, "certifies, in anchor's history"));
        let path = vec![style::marked(), style::path()];
        items.push(line(path, "path from the anchor to it"));
        items.push(line(vec![style::marked()], "support that makes it certify"));
    }
    if !scene.reasons.outside.is_empty() {
        items.push(ring(true, "certifies, outside the history"));
    }
    items
}

fn columns(width: f64) -> usize {
    (((width - 2.0 * MARGIN) / ITEM_WIDTH) as usize).max(1)
}

pub fn height(groups: &[Vec<Item>], width: f64) -> f64 {
    let rows = groups.iter().map(|group| rows(group, width));
    ABOVE + ITEM_HEIGHT * rows.sum::<usize>() as f64
}

fn rows(group: &[Item], width: f64) -> usize {
    group.len().div_ceil(columns(width))
}

/// Draws the groups in rows below this height.
pub fn draw(svg: &mut Svg, groups: &[Vec<Item>], below: f64, width: f64) {
    let mut top = below + ABOVE;
    for group in groups {
        draw_group(svg, group, top, columns(width));
        top += ITEM_HEIGHT * rows(group, width) as f64;
    }
}

fn draw_group(svg: &mut Svg, group: &[Item], top: f64, columns: usize) {
    let style = style::words(WORDS_SIZE, "start", INK);
    for (i, item) in group.iter().enumerate() {
        let x = MARGIN + ITEM_WIDTH * (i % columns) as f64;
        let y = top + ITEM_HEIGHT * ((i / columns) as f64 + 0.5);
        draw_sample(svg, &item.sample, at(x + 22.0, y));
        svg.words(at(x + 54.0, y + 4.5), &style, item.words);
    }
}

fn draw_sample(svg: &mut Svg, sample: &Sample, middle: Point) {
    match sample {
        Sample::Frame(style) => svg.frame(middle, at(20.0, 13.0), style),
        Sample::Vertex { style, label, ink } => {
            svg.sample(middle, RADIUS, style);
            let style = style::words(WORDS_SIZE, "middle", ink);
            if !label.is_empty() {
                svg.words(at(middle.x, middle.y + 4.5), &style, label);
            }
        }
        Sample::Ring(style) => {
            svg.sample(middle, RING, style);
            svg.sample(middle, RADIUS, &style::vertex(style::UNWRITTEN, false));
        }
        Sample::Line(styles) => {
            let (from, to) = (at(middle.x - 20.0, middle.y), at(middle.x + 20.0, middle.y));
            styles.iter().for_each(|style| svg.path(from, to, style));
        }
    }
}
