//! What is asked, taken apart so that each part can be made smaller.

use crate::ask::Case;
use crate::generate::needed;
use crate::record::{decode, encode, name, sum_of, Name, Vertex, ENTRIES, RECORD_BYTES};
use crate::settle::Lent;

#[derive(Clone, Debug, PartialEq, Eq)]
pub struct Question {
    pub n: u8,
    pub vertices: Vec<Vertex>,
    /// What stands behind the last whole record.
    pub rest: Vec<u8>,
    /// The name that is looked up.
    pub name: Name,
    /// How many cells, order places and taken bytes are lent beyond what is needed.
    pub beyond: [isize; 3],
}

impl Question {
    /// A table of which only the table matters.
    pub fn of_table(n: u8, table: &[u8]) -> Question {
        let records = table.chunks_exact(RECORD_BYTES);
        Question {
            n,
            rest: records.remainder().to_vec(),
            vertices: records.map(decode).collect(),
            name: name(1, 0, 1),
            beyond: [0; 3],
        }
    }

    pub fn of_case(case: &Case) -> Question {
        let (rounds, records) = needed(case.n, &case.table);
        let beyond = |length: usize, needed: usize| length as isize - needed as isize;
        Question {
            name: case.name,
            beyond: [
                beyond(case.lent.cells.len(), rounds),
                beyond(case.lent.order.len(), records),
                beyond(case.lent.taken.len(), records),
            ],
            ..Question::of_table(case.n, &case.table)
        }
    }

    pub fn table(&self) -> Vec<u8> {
        let mut table: Vec<u8> = self.vertices.iter().flat_map(encode).collect();
        table.extend(&self.rest);
        table
    }

    /// The program's input.
    pub fn input(&self) -> Vec<u8> {
        [vec![self.n], self.table()].concat()
    }

    /// With buffers that hold what these do, as far as they go.
    pub fn case(&self, lent: &Lent) -> Case {
        let table = self.table();
        let (rounds, records) = needed(self.n, &table);
        let [cells, order, taken] = self.beyond;
        let mut lent = lent.clone();
        lent.cells.resize(rounds.saturating_add_signed(cells), 0);
        lent.order.resize(records.saturating_add_signed(order), 0);
        lent.taken.resize(records.saturating_add_signed(taken), 0);
        Case {
            n: self.n,
            table,
            lent,
            name: self.name,
        }
    }

    /// About how much work it is to ask it, in records.
    pub fn cost(&self) -> usize {
        let beyond: usize = self.beyond.iter().map(|many| many.unsigned_abs()).sum();
        1 + self.vertices.len() + beyond / 64
    }

    /// A copy with a change.
    pub fn with(&self, change: impl FnOnce(&mut Question)) -> Question {
        let mut copy = self.clone();
        change(&mut copy);
        copy
    }

    /// Every reference to a name becomes one to the mark that is told for it.
    pub fn refer(&mut self, mark_for: impl Fn(Name) -> u32) {
        for vertex in &mut self.vertices {
            // A record of round 0 has no round before it.
            if let Some(round) = vertex.round.checked_sub(1) {
                change(vertex, |vertex| {
                    refer_to(&mut vertex.refs, round, &mark_for)
                });
            }
        }
    }
}

fn refer_to(refs: &mut [u32; ENTRIES], round: u32, mark_for: impl Fn(Name) -> u32) {
    for (author, entry) in (0u8..).zip(refs).filter(|(_, entry)| **entry != 0) {
        *entry = mark_for(name(round, author, *entry));
    }
}

/// Changes a vertex. Its sum stays right, or as far off as it was.
pub fn change(vertex: &mut Vertex, by: impl FnOnce(&mut Vertex)) {
    let off = vertex.sum.wrapping_sub(sum_of(&encode(vertex)));
    by(vertex);
    vertex.sum = sum_of(&encode(vertex)).wrapping_add(off);
}
