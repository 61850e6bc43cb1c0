//! Where everything stands: rounds across, authors down, and in a cell the vertices of
//! one author in one round side by side.

use super::svg::{at, Point};
use crate::authors::is_author_count;
use crate::record::{Vertex, ENTRIES};
use std::collections::{BTreeMap, BTreeSet};

pub const RADIUS: f64 = 13.0;
/// Of what is drawn around a vertex.
pub const RING: f64 = RADIUS + 4.5;
/// From a vertex to the next in its cell.
const ACROSS: f64 = 42.0;
const DOWN: f64 = 34.0;
/// Each further of a few vertices stands this much lower, so that a line to one
/// behind it can be seen.
const STEP: f64 = 10.0;
/// So many stand in one row, with room for their marks below.
pub const FEW: usize = 3;

/// The vertices of one author in one round, by position.
#[derive(Default)]
struct Cell {
    positions: Vec<usize>,
}

impl Cell {
    fn columns(&self) -> usize {
        let count = self.positions.len();
        match count <= FEW {
            true => count.max(1),
            // A crowd stands as near to a square as can be.
            false => (1..count).find(|side| side * side >= count).unwrap_or(1),
        }
    }

    fn rows(&self) -> usize {
        self.positions.len().div_ceil(self.columns()).max(1)
    }

    /// Half of what the cell takes, with a little air.
    fn half(&self) -> Point {
        let few = (2..=FEW).contains(&self.positions.len());
        let labels = if few { 22.0 } else { 6.0 };
        at(
            (ACROSS * self.columns() as f64) / 2.0,
            (DOWN * self.rows() as f64 + labels) / 2.0,
        )
    }

    /// From the cell's center to the vertex that is the i-th in it.
    fn offset(&self, i: usize) -> Point {
        let (columns, rows) = (self.columns(), self.rows());
        let (column, row) = (i % columns, i / columns);
        let from_middle = |i: usize, count: usize| i as f64 - (count as f64 - 1.0) / 2.0;
        let (x, mut y) = (
            ACROSS * from_middle(column, columns),
            DOWN * from_middle(row, rows),
        );
        if (2..=FEW).contains(&self.positions.len()) {
            // Marks stand below, so the middle is a little higher.
            y += STEP * from_middle(column, columns) - 5.0;
        }
        at(x, y)
    }
}

pub struct Grid {
    cells: BTreeMap<(u32, u8), Cell>,
    /// Where the middle of a round stands, and half its width.
    columns: BTreeMap<u32, (f64, f64)>,
    /// Where the middle of an author stands, and half the height.
    rows: BTreeMap<u8, (f64, f64)>,
    pub right: f64,
    pub bottom: f64,
}

impl Grid {
    /// Rounds and authors that the table has, in order; of authors also those that n
    /// says. A table that is refused may have gaps and anything else.
    pub fn new(n: u8, vertices: &[Vertex], corner: Point) -> Grid {
        let mut cells: BTreeMap<(u32, u8), Cell> = BTreeMap::new();
        for (position, vertex) in vertices.iter().enumerate() {
            let cell = cells.entry((vertex.round, vertex.author)).or_default();
            cell.positions.push(position);
        }
        let rounds: BTreeSet<u32> = vertices.iter().map(|vertex| vertex.round).collect();
        let mut authors: BTreeSet<u8> = vertices.iter().map(|vertex| vertex.author).collect();
        if is_author_count(n) {
            authors.extend(0..n);
        }
        let (gap, least_height) = spacing(authors.len());
        let mut half_widths = largest(rounds, &cells, |&(round, _)| round, |half| half.x);
        half_widths.values_mut().for_each(|half| *half += gap / 2.0);
        let mut half_heights = largest(authors, &cells, |&(_, author)| author, |half| half.y);
        let least = |half: &mut f64| *half = half.max(least_height / 2.0);
        half_heights.values_mut().for_each(least);
        let (columns, right) = one_after_another(corner.x, half_widths);
        let (rows, bottom) = one_after_another(corner.y, half_heights);
        Grid {
            cells,
            columns,
            rows,
            right,
            bottom,
        }
    }

    pub fn columns(&self) -> impl Iterator<Item = (u32, f64)> + '_ {
        self.columns.iter().map(|(&round, &(x, _))| (round, x))
    }

    /// Each author with the middle of its row and half the height.
    pub fn rows(&self) -> impl Iterator<Item = (u8, f64, f64)> + '_ {
        let rows = self.rows.iter();
        rows.map(|(&author, &(y, half))| (author, y, half))
    }

    /// The middle of a cell, if there is such a round and such an author.
    pub fn cell(&self, round: u32, author: u8) -> Option<Point> {
        let (x, _) = self.columns.get(&round)?;
        let (y, _) = self.rows.get(&author)?;
        Some(at(*x, *y))
    }

    /// Half the size of what a cell takes.
    pub fn half(&self, round: u32, author: u8) -> Point {
        let empty = Cell::default();
        self.cells.get(&(round, author)).unwrap_or(&empty).half()
    }

    /// Where each vertex stands, by position.
    pub fn places(&self, vertices: usize) -> Vec<Point> {
        let mut places = vec![at(0.0, 0.0); vertices];
        for (&(round, author), cell) in &self.cells {
            let middle = self.cell(round, author).unwrap_or(at(0.0, 0.0));
            for (i, &position) in cell.positions.iter().enumerate() {
                let offset = cell.offset(i);
                places[position] = at(middle.x + offset.x, middle.y + offset.y);
            }
        }
        places
    }

    /// How many vertices the author has in the round.
    pub fn count(&self, round: u32, author: u8) -> usize {
        let cell = self.cells.get(&(round, author));
        cell.map_or(0, |cell| cell.positions.len())
    }

    /// The authors with two vertices in some one round.
    pub fn equivocators(&self) -> BTreeSet<u8> {
        let several = self
            .cells
            .iter()
            .filter(|(_, cell)| cell.positions.len() > 1);
        several.map(|(&(_, author), _)| author).collect()
    }
}

/// Between rounds, and the least height of an author: the more lines there are, the
/// wider apart, the more authors, the lower.
fn spacing(authors: usize) -> (f64, f64) {
    match authors {
        0..=7 => (90.0, 64.0),
        8..=13 => (110.0, 52.0),
        14..=ENTRIES => (170.0, 46.0),
        _ => (190.0, 42.0),
    }
}

/// For each round or author, the largest half size of its cells; that of an empty cell
/// where it has none.
fn largest<K: Ord + Copy>(
    keys: BTreeSet<K>,
    cells: &BTreeMap<(u32, u8), Cell>,
    key_of: impl Fn(&(u32, u8)) -> K,
    size_of: impl Fn(Point) -> f64,
) -> BTreeMap<K, f64> {
    let empty = size_of(Cell::default().half());
    let mut halves: BTreeMap<K, f64> = keys.into_iter().map(|key| (key, empty)).collect();
    for (name, cell) in cells {
        let half = halves.entry(key_of(name)).or_insert(empty);
        *half = half.max(size_of(cell.half()));
    }
    halves
}

/// Puts things of these half sizes one after another: the middle of each with its half
/// size, and the end.
fn one_after_another<K: Ord>(
    begin: f64,
    halves: BTreeMap<K, f64>,
) -> (BTreeMap<K, (f64, f64)>, f64) {
    let mut end = begin;
    let mut middles = BTreeMap::new();
    for (key, half) in halves {
        middles.insert(key, (end + half, half));
        end += 2.0 * half;
    }
    (middles, end)
}
