//! Document 01, "Support, certificates, decisions". Vertices are named by their
//! positions in the table.

use crate::authors::leader;
use crate::table::Table;
use std::collections::BTreeSet;

#[derive(Clone, Copy, Debug, PartialEq, Eq)]
pub enum Decision {
    Undecided,
    Skipped,
    /// With the leader vertex at this position.
    Committed(usize),
}

/// How a round came by its decision.
#[derive(Clone, Copy, Debug, PartialEq, Eq)]
pub enum Way {
    DirectCommit {
        vertex: usize,
    },
    DirectSkip,
    IndirectCommit {
        vertex: usize,
        anchor: usize,
    },
    IndirectSkip {
        anchor: usize,
    },
    /// The search found no round that isn't skipped.
    NoneFound,
    /// The search stopped at this undecided round.
    StoppedAt {
        round: u32,
    },
}

impl Way {
    pub fn decision(self) -> Decision {
        match self {
            Way::DirectCommit { vertex } => Decision::Committed(vertex),
            Way::IndirectCommit { vertex, .. } => Decision::Committed(vertex),
            Way::DirectSkip | Way::IndirectSkip { .. } => Decision::Skipped,
            Way::NoneFound | Way::StoppedAt { .. } => Decision::Undecided,
        }
    }
}

/// The vertex at `p` references the leader vertex at `b`, from the round after it.
pub fn supports(table: &Table, p: usize, b: usize) -> bool {
    let vertex = &table.vertices[p];
    let leader_vertex = &table.vertices[b];
    vertex.round == leader_vertex.round + 1
        && vertex.refs[usize::from(leader_vertex.author)] == leader_vertex.mark
}

/// The vertex at `p` is of the round after `round` and has no reference to its leader.
pub fn is_blank(table: &Table, p: usize, round: u32) -> bool {
    let vertex = &table.vertices[p];
    vertex.round == round + 1 && vertex.refs[usize::from(leader(table.n, round))] == 0
}

/// The vertex at `p` is two rounds after the leader vertex at `b`, and at least
/// 2f+1 of its references are to supporters of it.
pub fn certifies(table: &Table, p: usize, b: usize) -> bool {
    let references = table.references(p).iter();
    table.vertices[p].round == table.vertices[b].round + 2
        && references.filter(|&&q| supports(table, q, b)).count() >= table.quorum()
}

/// How many different authors the vertices at these positions have.
fn authors_of(table: &Table, positions: impl Iterator<Item = usize>) -> usize {
    let authors: BTreeSet<u8> = positions.map(|p| table.vertices[p].author).collect();
    authors.len()
}

/// All vertices of a round that qualify for direct commit, lowest mark first.
pub fn commit_qualifies(table: &Table, round: u32) -> Vec<usize> {
    let mut qualify = Vec::new();
    for b in table.leader_vertices(round) {
        let two_later = table.of_round(round + 2).iter().copied();
        let certifying = two_later.filter(|&p| certifies(table, p, b));
        if authors_of(table, certifying) >= table.quorum() {
            qualify.push(b);
        }
    }
    qualify
}

/// Whether a round qualifies for direct skip, if no commit is there before it.
pub fn skip_qualifies(table: &Table, round: u32) -> bool {
    let one_later = table.of_round(round + 1).iter().copied();
    let blank = one_later.filter(|&p| is_blank(table, p, round));
    authors_of(table, blank) >= table.quorum()
}

/// For each position, whether it is in the history of the vertex at `a`: that
/// vertex and everything reached from it by references.
pub fn history(table: &Table, a: usize) -> Vec<bool> {
    let mut reached = vec![false; table.records()];
    reached[a] = true;
    // References are to earlier records, so going down meets each vertex after
    // all that could reach it.
    for p in (0..=a).rev() {
        if reached[p] {
            for &q in table.references(p) {
                reached[q] = true;
            }
        }
    }
    reached
}

/// All leader vertices of a round certified by some vertex in the anchor's history,
/// lowest mark first.
pub fn certified_in_history(table: &Table, round: u32, anchor: usize) -> Vec<usize> {
    let history = history(table, anchor);
    let two_later = table.of_round(round + 2).iter().copied();
    let within: Vec<usize> = two_later.filter(|&p| history[p]).collect();
    let mut certified = table.leader_vertices(round);
    certified.retain(|&b| within.iter().any(|&p| certifies(table, p, b)));
    certified
}

/// Decides one round. `later` has the decisions of all rounds, those above this
/// one already made; index r-1 is round r.
fn decide(table: &Table, round: u32, later: &[Way]) -> Way {
    if let Some(&vertex) = commit_qualifies(table, round).first() {
        return Way::DirectCommit { vertex };
    }
    if skip_qualifies(table, round) {
        return Way::DirectSkip;
    }
    for looked_at in round + 3..=table.highest_round() {
        match later[looked_at as usize - 1].decision() {
            Decision::Skipped => continue,
            Decision::Undecided => return Way::StoppedAt { round: looked_at },
            Decision::Committed(anchor) => return indirect(table, round, anchor),
        }
    }
    Way::NoneFound
}

/// The search came to a committed round, whose vertex is the anchor.
fn indirect(table: &Table, round: u32, anchor: usize) -> Way {
    match certified_in_history(table, round, anchor).first() {
        Some(&vertex) => Way::IndirectCommit { vertex, anchor },
        None => Way::IndirectSkip { anchor },
    }
}

/// Decides all rounds; index r-1 is round r. The highest goes first, since the
/// search looks at later rounds only.
pub fn decide_all(table: &Table) -> Vec<Way> {
    let highest = table.highest_round();
    let mut ways = vec![Way::NoneFound; highest as usize];
    for round in (1..=highest).rev() {
        ways[round as usize - 1] = decide(table, round, &ways);
    }
    ways
}
