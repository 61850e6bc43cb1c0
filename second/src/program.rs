//! Document 01, "The program".

use crate::check::Refusal;
use crate::record::{decode, Vertex, RECORD_BYTES};
use crate::settle::{settle, Counts, Lent, Outcome};

/// The program's table holds this many records.
pub const PROGRAM_RECORDS: usize = 474;
/// One byte n, then the table.
pub const PROGRAM_BYTES: usize = 1 + PROGRAM_RECORDS * RECORD_BYTES;

/// What the program prints on this input.
pub fn run(input: &[u8]) -> Vec<u8> {
    if input.len() > PROGRAM_BYTES {
        return refusal_line(Refusal::at_0(12)).into_bytes();
    }
    let (n, table) = match input.split_first() {
        Some((&n, table)) => (n, table),
        None => (0, input),
    };
    let mut lent = Lent::enough(PROGRAM_RECORDS);
    let outcome = settle(n, table, &mut lent);
    lines(table, outcome, &lent).into_bytes()
}

/// What is printed of an outcome.
pub fn lines(table: &[u8], outcome: Outcome, lent: &Lent) -> String {
    match outcome {
        Outcome::Refused(refusal) => refusal_line(refusal),
        Outcome::Settled(counts) => settled_lines(table, counts, lent),
    }
}

pub fn refusal_line(refusal: Refusal) -> String {
    format!("X {} {}\n", refusal.number, refusal.position)
}

fn settled_lines(table: &[u8], counts: Counts, lent: &Lent) -> String {
    let mut text = format!(
        "S {} {} {} {} {}\n",
        counts.records,
        counts.highest_round,
        counts.first_undecided,
        counts.written,
        counts.equivocators
    );
    for (round, &cell) in (1..=counts.highest_round).zip(&lent.cells) {
        text.push_str(&round_line(table, round, cell));
    }
    for &position in &lent.order[..counts.written] {
        let vertex = vertex_at(table, position);
        text.push_str(&format!(
            "V {} {} {}\n",
            vertex.round, vertex.author, vertex.mark
        ));
    }
    text
}

fn round_line(table: &[u8], round: u32, cell: u32) -> String {
    match cell {
        0 => format!("R {round} undecided\n"),
        1 => format!("R {round} skip\n"),
        _ => {
            let vertex = vertex_at(table, cell - 2);
            format!("R {round} commit {} {}\n", vertex.author, vertex.mark)
        }
    }
}

fn vertex_at(table: &[u8], position: u32) -> Vertex {
    let begin = position as usize * RECORD_BYTES;
    decode(&table[begin..begin + RECORD_BYTES])
}
