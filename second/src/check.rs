//! Document 01, "Refusal numbers and their order": checks 1 to 8, with 18, 19 and 20 of request
//! f of document 02 between 5 and 6. Number 9 is retired: request h took its row out, and no
//! other check gets the number.

use crate::authors::{is_author_count, quorum};
use crate::record::{decode, sum_of, Name, Vertex, MOST_RECORDS, RECORD_BYTES};
use std::collections::BTreeSet;

/// No table that passes has a higher round. By 7 and 8 a record of round r stands above 2f+1
/// records or more in each of the r-1 rounds below, and by 3 above 4,095 records at most: with
/// n = 4 these are three in each of 1,365 rounds.
pub const MOST_ROUNDS: u32 = 1_366;

/// A refusal with its number and the record's position.
#[derive(Clone, Copy, Debug, PartialEq, Eq)]
pub struct Refusal {
    pub number: u8,
    pub position: usize,
}

impl Refusal {
    /// For the numbers that are not about a record.
    pub fn at_0(number: u8) -> Refusal {
        Refusal {
            number,
            position: 0,
        }
    }
}

/// Checks a table: passed, or the first failing check.
pub fn check(n: u8, table: &[u8]) -> Result<(), Refusal> {
    if !is_author_count(n) {
        return Err(Refusal::at_0(1));
    }
    if !table.len().is_multiple_of(RECORD_BYTES) {
        return Err(Refusal::at_0(2));
    }
    if table.len() / RECORD_BYTES > MOST_RECORDS {
        return Err(Refusal::at_0(3));
    }
    let mut earlier = BTreeSet::new();
    let mut before = None;
    for (position, record) in table.chunks(RECORD_BYTES).enumerate() {
        let vertex = decode(record);
        if let Some(number) = failing(n, record, &vertex, before, &earlier) {
            return Err(Refusal { number, position });
        }
        before = Some(vertex.name());
        earlier.insert(vertex.name());
    }
    Ok(())
}

/// The first check that one record fails, of 4, 5, 18, 19, 20, 6, 7, 8 in this order. `before`
/// is the name of the record before it, `earlier` has the names of all records before it.
fn failing(
    n: u8,
    record: &[u8],
    vertex: &Vertex,
    before: Option<Name>,
    earlier: &BTreeSet<Name>,
) -> Option<u8> {
    if vertex.sum != sum_of(record) {
        return Some(4);
    }
    if vertex.padding != 0 {
        return Some(5);
    }
    if vertex.round == 0 {
        return Some(18);
    }
    if vertex.mark == 0 {
        return Some(19);
    }
    if vertex.author >= n {
        return Some(20);
    }
    if before.is_some_and(|before| vertex.name() <= before) {
        return Some(6);
    }
    if entries_are_wrong(n, vertex) {
        return Some(7);
    }
    if !references_are_earlier(vertex, earlier) {
        return Some(8);
    }
    None
}

/// Check 7.
fn entries_are_wrong(n: u8, vertex: &Vertex) -> bool {
    let references = vertex.references();
    let past_authors = vertex.refs[usize::from(n)..].iter().any(|&mark| mark != 0);
    (vertex.round == 1 && references > 0)
        || past_authors
        || (vertex.round > 1 && references < quorum(n))
}

/// Check 8 asks this of every non-zero entry: it names a record earlier in the table.
fn references_are_earlier(vertex: &Vertex, earlier: &BTreeSet<Name>) -> bool {
    vertex.referenced().all(|name| earlier.contains(&name))
}
