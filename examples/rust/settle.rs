//! How to call the library from Rust: settles a table, or looks one record up in it.
//!
//!     settle [-n N] [-l ROUND AUTHOR MARK] [FILE]
//!
//! It reads FILE, or standard input: one byte for the author count, then the table; with -n N the table only.
//! On standard output it prints what the program of document 01 prints: `X number position` on a refusal, else the S, R and V
//! lines. With -l it prints the V line of the record that was asked for. A refusal is put in words on standard error.
//! It ends with 0, with 1 on a refusal, and with 2 if it could not be asked.

use std::fs::File;
use std::io::{self, Read};
use std::process::ExitCode;

/// The calls and constants of `include/record_box.h`; not all are needed here.
#[allow(dead_code)]
#[path = "../../include/record_box.rs"]
mod c;
use c::{ENOUGH_CELLS, ENOUGH_ORDER, ENOUGH_TAKEN, MOST_RECORDS, RECORD_BYTES};

/// Those that are, each in a safe function.
mod record_box {
    use crate::c::{
        record_box_lookup, record_box_lookup_answer, record_box_settle, Answer, ENOUGH_CELLS, ENOUGH_ORDER,
        ENOUGH_TAKEN,
    };

    #[link(name = "exports", kind = "static")]
    extern "C" {}

    #[derive(Clone, Copy)]
    pub struct Refusal {
        pub number: u32,
        pub position: usize,
    }

    #[derive(Clone, Copy)]
    pub struct Name {
        pub round: u32,
        pub author: u8,
        pub mark: u32,
    }

    pub struct Counts {
        pub records: usize,
        pub highest: u32,
        pub undecided: u32,
        pub written: usize,
        pub equivocators: usize,
    }

    /// What is lent to a settlement: enough for every table.
    pub struct Lent {
        pub cells: [u32; ENOUGH_CELLS],
        pub order: [u32; ENOUGH_ORDER],
        pub taken: [u8; ENOUGH_TAKEN],
    }

    pub fn settle(n: u8, table: &[u8], lent: &mut Lent) -> Result<Counts, Refusal> {
        let Lent {
            cells,
            order,
            taken,
        } = lent;
        // SAFETY: each pointer and length are those of one slice. The table is only read; the other three are lent to
        // nobody else. The call keeps no pointer.
        let settled = unsafe {
            record_box_settle(
                n,
                table.as_ptr(),
                table.len(),
                cells.as_mut_ptr(),
                cells.len(),
                order.as_mut_ptr(),
                order.len(),
                taken.as_mut_ptr(),
                taken.len(),
            )
        };
        match settled.number {
            0 => Ok(Counts {
                records: settled.records,
                highest: settled.highest,
                undecided: settled.undecided,
                written: settled.written,
                equivocators: settled.equivocators,
            }),
            number => Err(Refusal {
                number,
                position: settled.position,
            }),
        }
    }

    /// The record of a name: a part of the caller's own table.
    pub fn lookup(n: u8, table: &[u8], name: Name) -> Result<&[u8], Refusal> {
        let Name {
            round,
            author,
            mark,
        } = name;
        // SAFETY, of both calls: pointer and length are those of one slice, which is only read; no pointer is kept.
        let part =
            unsafe { record_box_lookup(n, table.as_ptr(), table.len(), round, author, mark) };
        if part.length > 0 {
            return Ok(&table[part.begin..part.begin + part.length]);
        }
        let Answer { number, position } = unsafe {
            record_box_lookup_answer(n, table.as_ptr(), table.len(), round, author, mark)
        };
        Err(Refusal { number, position })
    }
}

use record_box::{Counts, Lent, Name, Refusal};

// ---- records

/// Four bytes, the lowest first.
fn four(bytes: &[u8]) -> u32 {
    u32::from_le_bytes([bytes[0], bytes[1], bytes[2], bytes[3]])
}

/// The name in a record: round in bytes 0 to 3, mark in 4 to 7, author in 134.
fn name_in(record: &[u8]) -> Name {
    Name {
        round: four(record),
        author: record[134],
        mark: four(&record[4..]),
    }
}

fn name_at(table: &[u8], position: u32) -> Name {
    name_in(&table[position as usize * RECORD_BYTES..])
}

// ---- what is printed

fn in_words(number: u32) -> &'static str {
    match number {
        1 => "the author count is none of 4, 7, 10, .. 31",
        2 => "the length is not a multiple of 138 bytes",
        3 => "there are more than 4,096 records",
        4 => "the record's sum differs: it was damaged on the way or in store",
        5 => "the record's padding is not zero: replace the card",
        6 => "the record's name is not above the one before it",
        7 => "the record has references where it may have none, or fewer than 2f+1",
        8 => "the record references a vertex that is not in the table before it",
        10 => "a lent buffer is too short for this table",
        11 => "no record has that name",
        12 => "the input is longer than this program holds",
        18 => "the record's round is 0: call its author's owner",
        19 => "the record's mark is 0: call its author's owner",
        20 => "the record's author is not one of the n: call its owner",
        _ => "the number is not known",
    }
}

fn vertex_line(name: Name) -> String {
    format!("V {} {} {}\n", name.round, name.author, name.mark)
}

fn round_line(table: &[u8], round: u32, cell: u32) -> String {
    match cell {
        0 => format!("R {round} undecided\n"),
        1 => format!("R {round} skip\n"),
        _ => {
            let name = name_at(table, cell - 2);
            format!("R {round} commit {} {}\n", name.author, name.mark)
        }
    }
}

fn settled_lines(table: &[u8], counts: &Counts, lent: &Lent) -> String {
    let mut lines = format!(
        "S {} {} {} {} {}\n",
        counts.records, counts.highest, counts.undecided, counts.written, counts.equivocators
    );
    for (round, &cell) in (1..=counts.highest).zip(&lent.cells) {
        lines += &round_line(table, round, cell);
    }
    for &position in &lent.order[..counts.written] {
        lines += &vertex_line(name_at(table, position));
    }
    lines
}

// ---- what is asked, of which table

#[derive(Default)]
struct Question {
    n: Option<u8>,
    name: Option<Name>,
    file: Option<String>,
}

/// Nothing if the arguments are not as the head of this file says.
fn question(words: &[String]) -> Option<Question> {
    let mut asked = Question::default();
    let mut rest: Vec<&str> = words.iter().map(String::as_str).collect();
    if let ["-n", n, ..] = rest[..] {
        asked.n = Some(n.parse().ok()?);
        rest.drain(..2);
    }
    if let ["-l", round, author, mark, ..] = rest[..] {
        asked.name = Some(Name {
            round: round.parse().ok()?,
            author: author.parse().ok()?,
            mark: mark.parse().ok()?,
        });
        rest.drain(..4);
    }
    match rest[..] {
        [] => Some(asked),
        [file] if !file.starts_with('-') => {
            asked.file = Some(file.to_string());
            Some(asked)
        }
        _ => None,
    }
}

/// Up to one byte more than `room`, so that more is told from enough.
fn read_input(file: Option<&str>, room: usize) -> io::Result<Vec<u8>> {
    let mut input = Vec::new();
    let most = room as u64 + 1;
    match file {
        Some(file) => File::open(file)?.take(most).read_to_end(&mut input)?,
        None => io::stdin().lock().take(most).read_to_end(&mut input)?,
    };
    Ok(input)
}

/// What is printed, or the refusal.
fn answer(asked: &Question, input: &[u8], room: usize) -> Result<String, Refusal> {
    if input.len() > room {
        return Err(Refusal {
            number: 12,
            position: 0,
        });
    }
    let (n, table) = match (asked.n, input.split_first()) {
        (Some(n), _) => (n, input),
        (None, Some((&n, table))) => (n, table),
        // No byte at all counts as n = 0.
        (None, None) => (0, input),
    };
    if let Some(name) = asked.name {
        return record_box::lookup(n, table, name).map(|record| vertex_line(name_in(record)));
    }
    let mut lent = Box::new(Lent {
        cells: [0; ENOUGH_CELLS],
        order: [0; ENOUGH_ORDER],
        taken: [0; ENOUGH_TAKEN],
    });
    let counts = record_box::settle(n, table, &mut lent)?;
    Ok(settled_lines(table, &counts, &lent))
}

fn main() -> ExitCode {
    let words: Vec<String> = std::env::args().skip(1).collect();
    let Some(asked) = question(&words) else {
        eprintln!("usage: settle [-n N] [-l ROUND AUTHOR MARK] [FILE]");
        return ExitCode::from(2);
    };
    let room = RECORD_BYTES * MOST_RECORDS + usize::from(asked.n.is_none());
    let input = match read_input(asked.file.as_deref(), room) {
        Ok(input) => input,
        Err(error) => {
            let from = asked.file.as_deref().unwrap_or("standard input");
            eprintln!("{from}: {error}");
            return ExitCode::from(2);
        }
    };
    match answer(&asked, &input, room) {
        Ok(lines) => {
            print!("{lines}");
            ExitCode::SUCCESS
        }
        Err(Refusal { number, position }) => {
            println!("X {number} {position}");
            match number {
                4..=8 | 18..=20 => eprintln!("settle: record {position}: {}", in_words(number)),
                _ => eprintln!("settle: {}", in_words(number)),
            }
            ExitCode::from(1)
        }
    }
}
