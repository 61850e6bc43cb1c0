//! What a picture shows of a table: its vertices and references, and what the
//! settlement made of it.

use super::reasons::{deeds, Reasons};
use super::style::{self, Shade};
use crate::authors::{f_of, is_author_count, leader};
use crate::check::Refusal;
use crate::decide::{decide_all, Decision, Way};
use crate::record::{decode, name, Name, Vertex, RECORD_BYTES};
use crate::settle::{settle, Counts, Lent, Outcome};
use crate::table::Table;
use crate::text::Text;
use std::collections::BTreeMap;

pub enum Verdict {
    Refused(Refusal),
    Settled {
        counts: Counts,
        table: Table,
        /// Index r-1 is round r.
        ways: Vec<Way>,
    },
}

/// One non-zero entry.
pub struct Reference {
    pub from: usize,
    /// The vertex that it is to: only a refused table may have none.
    pub to: Option<usize>,
    /// The name in the entry. A record of round 0 has no round before it.
    pub round: Option<u32>,
    pub author: u8,
}

pub struct Scene {
    pub n: u8,
    pub vertices: Vec<Vertex>,
    pub references: Vec<Reference>,
    pub verdict: Verdict,
    /// For each position, its place in the written order, from 1.
    pub written: Vec<Option<usize>>,
    pub reasons: Reasons,
}

impl Scene {
    pub fn of(text: &Text) -> Scene {
        let vertices: Vec<Vertex> = text.table.chunks(RECORD_BYTES).map(decode).collect();
        let records = vertices.len();
        let mut lent = Lent::enough(records);
        let outcome = settle(text.n, &text.table, &mut lent);
        let mut written = vec![None; records];
        let mut reasons = Reasons::default();
        let verdict = match outcome {
            Outcome::Refused(refusal) => Verdict::Refused(refusal),
            Outcome::Settled(counts) => {
                for (&position, place) in lent.order[..counts.written].iter().zip(1..) {
                    written[position as usize] = Some(place);
                }
                let table = Table::read(text.n, &text.table);
                let ways = decide_all(&table);
                reasons = Reasons::of(&table, &ways);
                Verdict::Settled {
                    counts,
                    table,
                    ways,
                }
            }
        };
        Scene {
            n: text.n,
            references: references(&vertices),
            vertices,
            verdict,
            written,
            reasons,
        }
    }

    /// How a round was decided; nothing in a refused table.
    pub fn way(&self, round: u32) -> Option<Way> {
        match &self.verdict {
            Verdict::Refused(_) => None,
            Verdict::Settled { ways, .. } => ways.get((round as usize).checked_sub(1)?).copied(),
        }
    }

    /// The leader of a round, where n and the round have one.
    pub fn leader(&self, round: u32) -> Option<u8> {
        (is_author_count(self.n) && round > 0).then(|| leader(self.n, round))
    }

    pub fn is_of_leader(&self, position: usize) -> bool {
        let vertex = &self.vertices[position];
        self.leader(vertex.round) == Some(vertex.author)
    }

    /// What a vertex is, as its colours say it.
    pub fn shade(&self, position: usize) -> Shade {
        let decision = self.way(self.vertices[position].round).map(Way::decision);
        if self.faulty() == Some(position) {
            style::FAULTY
        } else if decision == Some(Decision::Committed(position)) {
            style::COMMITTED_VERTEX
        } else if self.written[position].is_some() {
            style::WRITTEN
        } else {
            style::UNWRITTEN
        }
    }

    /// What stands in a vertex: its place in the order, or that it is refused.
    pub fn label(&self, position: usize) -> String {
        match self.written[position] {
            _ if self.faulty() == Some(position) => "!".to_string(),
            Some(place) => place.to_string(),
            None => String::new(),
        }
    }

    /// The colour of a reference that is to a leader vertex.
    pub fn leader_shade(&self, reference: &Reference) -> Option<Shade> {
        let to = reference.to.filter(|&to| self.is_of_leader(to))?;
        Some(style::decided(self.way(self.vertices[to].round)).0)
    }

    /// What the vertex does to the leader vertices below it; nothing in a refused table.
    pub fn deeds(&self, position: usize) -> Vec<String> {
        match &self.verdict {
            Verdict::Refused(_) => Vec::new(),
            Verdict::Settled { table, .. } => deeds(table, position),
        }
    }

    /// The record that the refusal is about, if it is about one: of those that a picture can
    /// have, all but 1, 2 and 3 are.
    pub fn faulty(&self) -> Option<usize> {
        match self.verdict {
            Verdict::Refused(refusal) if refusal.number >= 4 => Some(refusal.position),
            _ => None,
        }
    }

    /// Whether there are more than f equivocators.
    pub fn past_f(&self) -> bool {
        match &self.verdict {
            Verdict::Refused(_) => false,
            Verdict::Settled { counts, .. } => counts.equivocators > f_of(self.n),
        }
    }
}

/// All non-zero entries. Where a name stands several times, the first is meant.
fn references(vertices: &[Vertex]) -> Vec<Reference> {
    let mut positions: BTreeMap<Name, usize> = BTreeMap::new();
    for (position, vertex) in vertices.iter().enumerate() {
        positions.entry(vertex.name()).or_insert(position);
    }
    let mut references = Vec::new();
    for (from, vertex) in vertices.iter().enumerate() {
        let round = vertex.round.checked_sub(1);
        for (author, mark) in (0u8..).zip(vertex.refs).filter(|&(_, mark)| mark != 0) {
            let named = round.map(|round| name(round, author, mark));
            references.push(Reference {
                from,
                to: named.and_then(|name| positions.get(&name).copied()),
                round,
                author,
            });
        }
    }
    references
}
