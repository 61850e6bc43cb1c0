//! Document 01, "The written order" and "What the calls give".

use crate::check::{check, Refusal};
use crate::decide::{decide_all, history, Decision};
use crate::record::{decode, Name, RECORD_BYTES};
use crate::table::Table;
use std::collections::BTreeSet;

/// What a settled outcome has.
#[derive(Clone, Copy, Debug, PartialEq, Eq)]
pub struct Counts {
    pub records: usize,
    pub highest_round: u32,
    pub first_undecided: u32,
    pub written: usize,
    pub equivocators: usize,
}

#[derive(Clone, Copy, Debug, PartialEq, Eq)]
pub enum Outcome {
    Settled(Counts),
    Refused(Refusal),
}

/// The three buffers that are lent to a settlement.
#[derive(Clone, Debug, PartialEq, Eq)]
pub struct Lent {
    pub cells: Vec<u32>,
    pub order: Vec<u32>,
    pub taken: Vec<u8>,
}

impl Lent {
    /// So many cells, order places and taken bytes, which all hold the same before.
    pub fn filled(cells: usize, order: usize, taken: usize, place: u32, byte: u8) -> Lent {
        Lent {
            cells: vec![place; cells],
            order: vec![place; order],
            taken: vec![byte; taken],
        }
    }

    /// Enough for every table of so many records: none passes with more rounds.
    pub fn enough(records: usize) -> Lent {
        Lent::filled(records, records, records, 0, 0)
    }
}

/// Settles a table. A refusal leaves all three buffers as they were.
pub fn settle(n: u8, table: &[u8], lent: &mut Lent) -> Outcome {
    let Lent {
        cells,
        order,
        taken,
    } = lent;
    if let Err(refusal) = check(n, table) {
        return Outcome::Refused(refusal);
    }
    let table = Table::read(n, table);
    let highest_round = table.highest_round();
    let records = table.records();
    if cells.len() < highest_round as usize || order.len() < records || taken.len() < records {
        return Outcome::Refused(Refusal::at_0(10));
    }
    let decisions: Vec<Decision> = decide_all(&table).iter().map(|w| w.decision()).collect();
    let written = written_order(&table, &decisions);
    for (cell, &decision) in cells.iter_mut().zip(&decisions) {
        *cell = cell_value(decision);
    }
    taken[..records].fill(0);
    for (place, &p) in order.iter_mut().zip(&written) {
        *place = to_u32(p);
        taken[p] = 1;
    }
    Outcome::Settled(Counts {
        records,
        highest_round,
        first_undecided: first_undecided(&decisions),
        written: written.len(),
        equivocators: equivocators(&table),
    })
}

/// Positions and records are at most 4,096.
fn to_u32(number: usize) -> u32 {
    u32::try_from(number).expect("a table has at most 4,096 records")
}

fn cell_value(decision: Decision) -> u32 {
    match decision {
        Decision::Undecided => 0,
        Decision::Skipped => 1,
        Decision::Committed(p) => 2 + to_u32(p),
    }
}

/// The rounds before the first undecided one.
fn decided_start(decisions: &[Decision]) -> impl Iterator<Item = Decision> + '_ {
    let all = decisions.iter().copied();
    all.take_while(|&decision| decision != Decision::Undecided)
}

fn first_undecided(decisions: &[Decision]) -> u32 {
    to_u32(decided_start(decisions).count()) + 1
}

/// For each committed leader vertex in turn, the positions of its history not yet
/// written, in table order.
fn written_order(table: &Table, decisions: &[Decision]) -> Vec<usize> {
    let mut is_written = vec![false; table.records()];
    let mut written = Vec::new();
    for decision in decided_start(decisions) {
        if let Decision::Committed(leader_vertex) = decision {
            let history = history(table, leader_vertex);
            for p in 0..table.records() {
                if history[p] && !is_written[p] {
                    is_written[p] = true;
                    written.push(p);
                }
            }
        }
    }
    written
}

/// How many authors have two records in some one round.
pub fn equivocators(table: &Table) -> usize {
    let mut seen = BTreeSet::new();
    let mut twice = BTreeSet::new();
    for vertex in &table.vertices {
        if !seen.insert((vertex.round, vertex.author)) {
            twice.insert(vertex.author);
        }
    }
    twice.len()
}

/// Finds a vertex by name: where its 138 bytes begin in the table.
pub fn lookup(n: u8, table: &[u8], asked: Name) -> Result<usize, Refusal> {
    check(n, table)?;
    let mut records = table.chunks(RECORD_BYTES);
    match records.position(|record| decode(record).name() == asked) {
        Some(position) => Ok(position * RECORD_BYTES),
        None => Err(Refusal::at_0(11)),
    }
}
