//! A table as text, a line for each record, and back: for whoever reads or writes one by
//! hand. `examples/README.md` says the form. Every author count and every table of whole
//! records has a text that gives it back byte for byte, damaged records too.

use crate::record::{
    decode, encode, encode_mended, sum_of, Vertex, ENTRIES, RECORD_BYTES, SUMMED_BYTES,
};
use std::collections::BTreeSet;
use std::str::FromStr;

/// A text that was read.
#[derive(Clone, Debug, PartialEq, Eq)]
pub struct Text {
    /// The first line, where it is a comment.
    pub title: Option<String>,
    pub n: u8,
    pub table: Vec<u8>,
}

impl Text {
    /// The program's input: one byte n, then the table.
    pub fn input(&self) -> Vec<u8> {
        [&[self.n], self.table.as_slice()].concat()
    }
}

/// The fields of a record's line.
const FIELDS: [&str; 7] = [
    "round", "author", "mark", "batches", "padding", "sum", "refs",
];
/// What a record cannot go without.
const NEEDED: [&str; 2] = ["round", "author"];
/// The mark of a record and of a reference that say none.
const USUAL_MARK: u32 = 1;

// ---- from text

/// Reads a text. What is wrong with it is told with the number of the line.
pub fn read(text: &str) -> Result<Text, String> {
    let mut n = None;
    let mut table = Vec::new();
    for (line, words) in (1..).zip(text.lines().map(words)) {
        let wrong = |what: String| format!("line {line}: {what}");
        match (n, words.as_slice()) {
            (_, []) => {}
            (None, ["authors", count]) => n = Some(number("authors", count).map_err(wrong)?),
            (None, _) => return Err(wrong(NO_AUTHORS.to_string())),
            (Some(_), ["authors", ..]) => return Err(wrong("`authors` stands twice".to_string())),
            (Some(_), words) => table.extend(record(words).map_err(wrong)?),
        }
    }
    let n = n.ok_or_else(|| format!("end of the text: {NO_AUTHORS}"))?;
    let title = title(text);
    Ok(Text { title, n, table })
}

const NO_AUTHORS: &str = "before all records stands how many authors there are, as in `authors 4`";

/// The words of a line without its comment.
fn words(line: &str) -> Vec<&str> {
    let before_comment = line.split('#').next().unwrap_or_default();
    before_comment.split_whitespace().collect()
}

fn title(text: &str) -> Option<String> {
    let comment = text.lines().next()?.trim().strip_prefix('#')?;
    Some(comment.trim().to_string()).filter(|title| !title.is_empty())
}

/// The record that a line says. A field is its name and the numbers behind it.
fn record(words: &[&str]) -> Result<[u8; RECORD_BYTES], String> {
    let mut vertex = usual();
    let mut sum = Sum::Off(0);
    let mut given = BTreeSet::new();
    for field in words.chunk_by(|_, next| !begins_field(next)) {
        if !given.insert(field[0]) {
            return Err(format!("`{}` stands twice", field[0]));
        }
        match field {
            ["round", word] => vertex.round = number("round", word)?,
            ["author", word] => vertex.author = number("author", word)?,
            ["mark", word] => vertex.mark = number("mark", word)?,
            ["batches", word] => vertex.batches = number("batches", word)?,
            ["padding", word] => vertex.padding = number("padding", word)?,
            ["sum", word] => sum = sum_in(word)?,
            ["refs", entries @ ..] => vertex.refs = refs(entries)?,
            [name, ..] => return Err(no_field(name)),
            [] => {}
        }
    }
    match NEEDED.into_iter().find(|name| !given.contains(name)) {
        Some(missing) => Err(format!("the record has no `{missing}`")),
        None => Ok(summed(&vertex, sum)),
    }
}

/// Names of fields begin with a letter, numbers do not.
fn begins_field(word: &str) -> bool {
    word.starts_with(|c: char| c.is_alphabetic())
}

fn no_field(name: &str) -> String {
    match FIELDS.contains(&name) {
        true => format!("`{name}` takes one number"),
        false => format!("`{name}` is no field; the fields are {}", FIELDS.join(", ")),
    }
}

/// A record that says nothing.
fn usual() -> Vertex {
    Vertex {
        round: 0,
        mark: USUAL_MARK,
        refs: [0; ENTRIES],
        batches: 0,
        author: 0,
        padding: 0,
        sum: 0,
    }
}

/// A number of a field's width.
fn number<T: FromStr>(field: &str, word: &str) -> Result<T, String> {
    if word.is_empty() {
        return Err(format!("`{field}`: a number is missing"));
    }
    if !word.bytes().all(|byte| byte.is_ascii_digit()) {
        return Err(format!("`{field}`: `{word}` is not a number"));
    }
    // Digits only, so what cannot be read is too large.
    let too_large = |_| format!("`{field}`: {word} is too large");
    word.parse().map_err(too_large)
}

/// The entries of a record: an author, or an author and a mark as in `3:2`.
fn refs(entries: &[&str]) -> Result<[u32; ENTRIES], String> {
    let mut refs = [0; ENTRIES];
    for entry in entries {
        let (author, mark) = match entry.split_once(':') {
            Some((author, mark)) => (author, number("refs", mark)?),
            None => (*entry, USUAL_MARK),
        };
        let author: usize = number("refs", author)?;
        match refs.get(author) {
            None => return Err(format!("`refs`: {author} is above 30, the last entry")),
            Some(0) if mark == 0 => return Err(format!("`refs`: {entry} is no reference")),
            Some(0) => refs[author] = mark,
            Some(_) => return Err(format!("`refs`: author {author} stands twice")),
        }
    }
    Ok(refs)
}

/// What a record says of its sum.
enum Sum {
    /// The right one and so much more, carries dropped.
    Off(u16),
    Is(u16),
}

fn sum_in(word: &str) -> Result<Sum, String> {
    if let Some(above) = word.strip_prefix('+') {
        return Ok(Sum::Off(number("sum", above)?));
    }
    if let Some(below) = word.strip_prefix('-') {
        let below: u16 = number("sum", below)?;
        return Ok(Sum::Off(below.wrapping_neg()));
    }
    Ok(Sum::Is(number("sum", word)?))
}

fn summed(vertex: &Vertex, sum: Sum) -> [u8; RECORD_BYTES] {
    let mut record = encode_mended(vertex);
    let stored = match sum {
        Sum::Off(by) => sum_of(&record).wrapping_add(by),
        Sum::Is(stored) => stored,
    };
    record[SUMMED_BYTES..].copy_from_slice(&stored.to_le_bytes());
    record
}

// ---- to text

/// The text of an input of the program. An input without any byte counts as n = 0.
pub fn of_input(input: &[u8]) -> Result<String, String> {
    let (n, table) = match input.split_first() {
        Some((&n, table)) => (n, table),
        None => (0, input),
    };
    match table.len() % RECORD_BYTES {
        0 => Ok(of_table(n, table)),
        left => Err(format!(
            "{} records and {left} bytes more: only whole records have a text",
            table.len() / RECORD_BYTES
        )),
    }
}

/// The text of a table of whole records, with an empty line before each round.
pub fn of_table(n: u8, table: &[u8]) -> String {
    let mut text = format!("authors {n}\n");
    let mut before = None;
    for vertex in table.chunks_exact(RECORD_BYTES).map(decode) {
        if before != Some(vertex.round) {
            text.push('\n');
        }
        text.push_str(&line(&vertex));
        before = Some(vertex.round);
    }
    text
}

/// One record. What is usual is left out.
fn line(vertex: &Vertex) -> String {
    let mut line = format!("round {} author {}", vertex.round, vertex.author);
    let mut more = |name: &str, number: u32, usual: u32| {
        if number != usual {
            line.push_str(&format!(" {name} {number}"));
        }
    };
    more("mark", vertex.mark, USUAL_MARK);
    more("batches", vertex.batches.into(), 0);
    more("padding", vertex.padding.into(), 0);
    more("sum", vertex.sum.into(), sum_of(&encode(vertex)).into());
    if vertex.references() > 0 {
        line.push_str(" refs");
    }
    for (author, &mark) in vertex.refs.iter().enumerate() {
        match mark {
            0 => {}
            USUAL_MARK => line.push_str(&format!(" {author}")),
            mark => line.push_str(&format!(" {author}:{mark}")),
        }
    }
    line.push('\n');
    line
}
