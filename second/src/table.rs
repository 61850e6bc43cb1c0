//! A table that passed the check, read for the rules.

use crate::authors::{leader, quorum};
use crate::record::{decode, Name, Vertex, RECORD_BYTES};
use std::collections::BTreeMap;

/// The vertices stand in table order, so an index is the record's position.
pub struct Table {
    pub n: u8,
    pub vertices: Vec<Vertex>,
    /// For each position, the positions that its vertex references.
    references: Vec<Vec<usize>>,
    /// For each round, its positions; round 0 has none.
    rounds: Vec<Vec<usize>>,
}

impl Table {
    /// Reads a table that passed the check; any other may panic.
    pub fn read(n: u8, table: &[u8]) -> Table {
        let vertices: Vec<Vertex> = table.chunks(RECORD_BYTES).map(decode).collect();
        let positions: BTreeMap<Name, usize> = vertices
            .iter()
            .enumerate()
            .map(|(position, vertex)| (vertex.name(), position))
            .collect();
        let references = vertices
            .iter()
            .map(|vertex| vertex.referenced().map(|name| positions[&name]).collect())
            .collect();
        // Records are in order of their rounds.
        let highest = vertices.last().map_or(0, |vertex| vertex.round);
        let mut rounds = vec![Vec::new(); highest as usize + 1];
        for (position, vertex) in vertices.iter().enumerate() {
            rounds[vertex.round as usize].push(position);
        }
        Table {
            n,
            vertices,
            references,
            rounds,
        }
    }

    pub fn records(&self) -> usize {
        self.vertices.len()
    }

    /// R; 0 for an empty table.
    pub fn highest_round(&self) -> u32 {
        u32::try_from(self.rounds.len() - 1).expect("it came from a u32")
    }

    pub fn quorum(&self) -> usize {
        quorum(self.n)
    }

    /// The positions of a round's vertices, in table order; none above R.
    pub fn of_round(&self, round: u32) -> &[usize] {
        self.rounds
            .get(round as usize)
            .map_or(&[], |positions| positions.as_slice())
    }

    /// The vertices of a round by its leader, lowest mark first.
    pub fn leader_vertices(&self, round: u32) -> Vec<usize> {
        let leader = leader(self.n, round);
        let all = self.of_round(round).iter().copied();
        all.filter(|&p| self.vertices[p].author == leader).collect()
    }

    /// The positions that the vertex at `p` references, one for each author at most.
    pub fn references(&self, p: usize) -> &[usize] {
        &self.references[p]
    }
}
