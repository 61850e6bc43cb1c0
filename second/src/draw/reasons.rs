//! Why rounds are decided as they are, as far as a picture shows it.

use crate::decide::{certifies, history, is_blank, supports, Way};
use crate::table::Table;
use std::collections::BTreeSet;

/// A reference, from the vertex at one position to that at another.
pub type Link = (usize, usize);

/// Rounds may share a part of what decides them: it is drawn once.
#[derive(Default)]
pub struct Reasons {
    /// For each round that is committed through an anchor, the vertex in the anchor's history
    /// that certifies.
    pub certifying: BTreeSet<usize>,
    /// From the anchors down to these.
    pub path: BTreeSet<Link>,
    /// What makes them certify: references to supporters, and theirs to the leader vertex.
    pub support: BTreeSet<Link>,
    /// What certifies a leader vertex whose round is skipped through an anchor: it stands
    /// outside the anchor's history.
    pub outside: BTreeSet<usize>,
    /// For each round from 1, how many authors decided it directly.
    pub authors: Vec<usize>,
}

impl Reasons {
    pub fn of(table: &Table, ways: &[Way]) -> Reasons {
        let mut reasons = Reasons::default();
        for (round, &way) in (1..).zip(ways) {
            reasons.authors.push(authors(table, round, way));
            match way {
                Way::IndirectCommit { vertex, anchor } => {
                    reasons.find(table, round, vertex, anchor);
                }
                Way::IndirectSkip { .. } => {
                    let leaders = table.leader_vertices(round).into_iter();
                    let outside = leaders.flat_map(|b| certifying(table, round, b));
                    reasons.outside.extend(outside);
                }
                _ => {}
            }
        }
        reasons
    }

    /// Looks for the certificate of the leader vertex at `b` in the anchor's history.
    fn find(&mut self, table: &Table, round: u32, b: usize, anchor: usize) {
        let history = history(table, anchor);
        let mut certifying = certifying(table, round, b).into_iter();
        let Some(found) = certifying.find(|&p| history[p]) else {
            return;
        };
        let references = table.references(found).iter();
        for &supporter in references.filter(|&&p| supports(table, p, b)) {
            self.support.extend([(found, supporter), (supporter, b)]);
        }
        self.path.extend(path(table, anchor, found));
        self.certifying.insert(found);
    }
}

/// The vertices that certify the leader vertex at `b`.
fn certifying(table: &Table, round: u32, b: usize) -> Vec<usize> {
    let two_later = table.of_round(round + 2).iter().copied();
    two_later.filter(|&p| certifies(table, p, b)).collect()
}

/// The authors whose vertices decide a round directly: none in any other way.
fn authors(table: &Table, round: u32, way: Way) -> usize {
    let deciding = match way {
        Way::DirectCommit { vertex } => certifying(table, round, vertex),
        Way::DirectSkip => {
            let one_later = table.of_round(round + 1).iter().copied();
            one_later.filter(|&p| is_blank(table, p, round)).collect()
        }
        _ => Vec::new(),
    };
    let authors = deciding.into_iter().map(|p| table.vertices[p].author);
    authors.collect::<BTreeSet<u8>>().len()
}

/// A path of references from one vertex down to another in its history.
fn path(table: &Table, from: usize, to: usize) -> Vec<Link> {
    // References are to earlier records, so going up meets each vertex after all it leads to.
    let mut leads_there = vec![false; from + 1];
    for p in to..=from {
        leads_there[p] = p == to || table.references(p).iter().any(|&q| leads_there[q]);
    }
    let mut path = Vec::new();
    let mut here = from;
    while let Some(&next) = table.references(here).iter().find(|&&q| leads_there[q]) {
        path.push((here, next));
        here = next;
    }
    path
}

/// What a vertex does to the leader vertices below it, in words.
pub fn deeds(table: &Table, p: usize) -> Vec<String> {
    let round = table.vertices[p].round;
    let name = |b: usize| {
        let vertex = &table.vertices[b];
        format!("({}, {}, {})", vertex.round, vertex.author, vertex.mark)
    };
    let leaders_of = |round: u32| match round {
        0 => Vec::new(),
        _ => table.leader_vertices(round),
    };
    let mut deeds = Vec::new();
    for b in leaders_of(round - 1) {
        if supports(table, p, b) {
            deeds.push(format!("supports {}", name(b)));
        }
    }
    if round > 1 && is_blank(table, p, round - 1) {
        deeds.push(format!("blank for round {}", round - 1));
    }
    for b in leaders_of(round.saturating_sub(2)) {
        if certifies(table, p, b) {
            deeds.push(format!("certifies {}", name(b)));
        }
    }
    deeds
}
