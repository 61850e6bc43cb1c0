//! Tables made by hand.

use crate::authors::quorum;
use crate::check::Refusal;
use crate::program::run;
use crate::record::{encode_mended, sum_of, Vertex, ENTRIES, RECORD_BYTES};
use crate::settle::{settle, Counts, Lent, Outcome};

/// Vertices in the order they were put; nothing sorts them.
#[derive(Clone)]
pub struct Made {
    pub n: u8,
    pub vertices: Vec<Vertex>,
}

/// A vertex with these references, each an author and a mark.
pub fn vertex(round: u32, author: u8, mark: u32, references: &[(u8, u32)]) -> Vertex {
    let mut refs = [0; ENTRIES];
    for &(author, mark) in references {
        refs[usize::from(author)] = mark;
    }
    Vertex {
        round,
        mark,
        refs,
        batches: 0,
        author,
        padding: 0,
        sum: 0,
    }
}

impl Made {
    pub fn new(n: u8) -> Made {
        Made {
            n,
            vertices: Vec::new(),
        }
    }

    pub fn put(&mut self, round: u32, author: u8, mark: u32, references: &[(u8, u32)]) {
        self.vertices.push(vertex(round, author, mark, references));
    }

    /// A vertex with mark 1 that references mark 1 of these authors.
    pub fn one(&mut self, round: u32, author: u8, authors: &[u8]) {
        self.twin(round, author, 1, authors);
    }

    /// The same with any mark of its own.
    pub fn twin(&mut self, round: u32, author: u8, mark: u32, authors: &[u8]) {
        let references: Vec<(u8, u32)> = authors.iter().map(|&a| (a, 1)).collect();
        self.put(round, author, mark, &references);
    }

    /// These authors, each referencing all n (in round 1, nothing).
    pub fn some(&mut self, round: u32, authors: &[u8]) {
        let all: Vec<u8> = match round {
            1 => Vec::new(),
            _ => (0..self.n).collect(),
        };
        for &author in authors {
            self.one(round, author, &all);
        }
    }

    /// All n authors, each referencing all n (in round 1, nothing).
    pub fn full(&mut self, round: u32) {
        let all: Vec<u8> = (0..self.n).collect();
        self.some(round, &all);
    }

    /// The first 2f+1 authors, each referencing these (in round 1, nothing).
    pub fn thin(&mut self, round: u32) {
        let authors: Vec<u8> = (0..self.n).take(quorum(self.n)).collect();
        let below: &[u8] = match round {
            1 => &[],
            _ => &authors,
        };
        for &author in &authors {
            self.one(round, author, below);
        }
    }

    /// Full rounds, cut after so many records.
    pub fn full_rounds(n: u8, records: usize) -> Made {
        Made::rounds(n, records, Made::full)
    }

    /// Thin rounds, cut after so many records: no more rounds can stand on each other with as
    /// many records.
    pub fn thin_rounds(n: u8, records: usize) -> Made {
        Made::rounds(n, records, Made::thin)
    }

    fn rounds(n: u8, records: usize, one_more: fn(&mut Made, u32)) -> Made {
        let mut made = Made::new(n);
        for round in 1.. {
            if made.vertices.len() >= records {
                break;
            }
            one_more(&mut made, round);
        }
        made.vertices.truncate(records);
        made
    }

    pub fn without(&self, round: u32, author: u8) -> Made {
        let mut made = self.clone();
        made.vertices
            .retain(|v| (v.round, v.author) != (round, author));
        made
    }

    /// The table with right sums.
    pub fn table(&self) -> Vec<u8> {
        self.vertices.iter().flat_map(encode_mended).collect()
    }

    pub fn prints(&self) -> String {
        prints(self.n, &self.table())
    }

    /// The outcome with just enough lent memory.
    pub fn settled(&self) -> Settled {
        settled(self.n, &self.table())
    }
}

/// A table in which the sum of one record is off.
pub fn sum_off(mut table: Vec<u8>, position: usize, by: u16) -> Vec<u8> {
    let record = &mut table[position * RECORD_BYTES..][..RECORD_BYTES];
    let sum = sum_of(record).wrapping_add(by);
    record[RECORD_BYTES - 2..].copy_from_slice(&sum.to_le_bytes());
    table
}

pub fn prints(n: u8, table: &[u8]) -> String {
    let input = [&[n], table].concat();
    String::from_utf8(run(&input)).expect("the program prints plain text")
}

/// Everything a settlement gives.
#[derive(Clone, Debug, PartialEq, Eq)]
pub struct Settled {
    pub outcome: Outcome,
    pub cells: Vec<u32>,
    pub order: Vec<u32>,
    pub taken: Vec<u8>,
}

impl Settled {
    pub fn counts(&self) -> Counts {
        match self.outcome {
            Outcome::Settled(counts) => counts,
            Outcome::Refused(refusal) => panic!("refused: {refusal:?}"),
        }
    }

    /// The places that were written, and none past them.
    pub fn written(&self) -> &[u32] {
        &self.order[..self.counts().written]
    }
}

/// Settles with as many cells, places and taken bytes as there are records, all
/// of which no settlement would write.
pub fn settled(n: u8, table: &[u8]) -> Settled {
    let records = table.len() / RECORD_BYTES;
    let mut lent = Lent::filled(records, records, records, 99_999, 99);
    let outcome = settle(n, table, &mut lent);
    let Lent {
        cells,
        order,
        taken,
    } = lent;
    Settled {
        outcome,
        cells,
        order,
        taken,
    }
}

pub fn refusal(number: u8, position: usize) -> Refusal {
    Refusal { number, position }
}
