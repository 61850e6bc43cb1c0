//! A table as a picture: rounds across, authors down, references as lines, the leader of
//! each round in the colour of its decision, the written order as numbers, and what was found
//! where a round is decided through an anchor.

mod grid;
mod legend;
mod picture;
mod reasons;
mod refusal;
mod scene;
mod style;
mod svg;

use crate::text::Text;
use grid::Grid;
use picture::Picture;
use scene::{Scene, Verdict};
use svg::{at, width_of, Svg};

const MARGIN: f64 = 28.0;
const TITLE_SIZE: f64 = 20.0;
const WORDS_SIZE: f64 = 14.0;
const HEAD_LINE: f64 = 24.0;
/// Beside the rounds, for the authors.
const AUTHORS_WIDTH: f64 = 108.0;
/// Above the authors, for the rounds and their decisions.
const ROUNDS_HEIGHT: f64 = 66.0;
const LEAST_WIDTH: f64 = 700.0;
/// From so many rounds on the authors stand on the right too.
const WIDE: usize = 10;

/// Draws a table, whatever it is.
pub fn draw(text: &Text) -> String {
    let scene = Scene::of(text);
    let head = head(text, &scene);
    let top = MARGIN + HEAD_LINE * head.len() as f64 + ROUNDS_HEIGHT;
    let corner = at(MARGIN + AUTHORS_WIDTH, top);
    let grid = Grid::new(scene.n, &scene.vertices, corner);
    let end = match grid.columns().count() >= WIDE {
        true => grid.right + AUTHORS_WIDTH,
        false => grid.right,
    };
    let ends = head
        .iter()
        .map(|line| MARGIN + width_of(&line.words, line.size));
    let width = ends.fold(LEAST_WIDTH.max(end), f64::max) + MARGIN;
    let legend = legend::groups(&scene, !grid.equivocators().is_empty());
    let height = grid.bottom + legend::height(&legend, width) + MARGIN;

    let mut svg = Svg::new(width, height);
    let middle = at(width / 2.0, height / 2.0);
    svg.frame(middle, middle, &style::filled(style::PAPER));
    draw_head(&mut svg, &head);
    let mut picture = Picture::new(&scene, &grid, &mut svg);
    picture.bands(end);
    picture.rounds();
    picture.leaders();
    picture.marks();
    picture.references();
    picture.paths();
    picture.vertices();
    legend::draw(&mut svg, &legend, grid.bottom, width);
    svg.finish()
}

/// A line above the picture.
struct HeadLine {
    words: String,
    size: f64,
    colour: &'static str,
}

/// The title, what came out, and what to mind.
fn head(text: &Text, scene: &Scene) -> Vec<HeadLine> {
    let line = |words: String, colour| HeadLine {
        words,
        size: WORDS_SIZE,
        colour,
    };
    let title = text.title.clone().unwrap_or_else(|| "A table".to_string());
    let mut head = vec![HeadLine {
        size: TITLE_SIZE,
        ..line(title, style::INK)
    }];
    match &scene.verdict {
        Verdict::Refused(refusal) => {
            let (number, position) = (refusal.number, refusal.position);
            let what = refusal::in_words(scene.n, &scene.vertices, *refusal);
            let words = format!("X {number} {position}, refused: {what}");
            head.push(line(words, style::FAULTY.line));
        }
        Verdict::Settled { counts, .. } => {
            let (records, n, highest) = (counts.records, scene.n, counts.highest_round);
            let (undecided, written) = (counts.first_undecided, counts.written);
            let equivocators = match counts.equivocators {
                1 => "1 equivocator".to_string(),
                many => format!("{many} equivocators"),
            };
            let words = format!(
                "{records} records, {n} authors, highest round {highest}, first undecided round \
                 {undecided}, {written} written, {equivocators}"
            );
            head.push(line(words, style::INK));
        }
    }
    if scene.past_f() {
        let words = "More than f equivocators: another box may have decided otherwise.";
        head.push(line(words.to_string(), style::EQUIVOCATING.line));
    }
    head
}

fn draw_head(svg: &mut Svg, head: &[HeadLine]) {
    for (i, line) in head.iter().enumerate() {
        let words = style::words(line.size, "start", line.colour);
        let style = match i {
            0 => style::bold(&words),
            _ => words,
        };
        let y = MARGIN + TITLE_SIZE / 2.0 + HEAD_LINE * i as f64;
        svg.words(at(MARGIN, y), &style, &line.words);
    }
}
