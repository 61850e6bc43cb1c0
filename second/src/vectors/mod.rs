//! Named tables and lookups, each with the answer of the rules: the stored files
//! on which the program `vectors` is run.
//!
//! None aims at 9, which is retired: a record of a far round either names a record that
//! isn't there (8), or stands on more than 4,096 records (3).

mod settlements;

use crate::check::{check, Refusal};
use crate::examples::p2;
use crate::generate::bytes_of;
use crate::made::{sum_off, vertex, Made};
use crate::program::refusal_line;
use crate::record::{decode, Name, Vertex, RECORD_BYTES};
use crate::settle::lookup;
use settlements::{settlement_refusal, settlement_text, settlements};
use std::path::Path;

/// What is asked of a table.
#[derive(Clone, Debug, PartialEq, Eq)]
pub enum Question {
    Check,
    Lookup(Name),
    /// The check, and the check without the last byte.
    Twice,
    /// The check, and a settlement for each.
    Settle(Vec<Lengths>),
}

/// How many cells, order places and taken bytes are lent.
#[derive(Clone, Copy, Debug, PartialEq, Eq)]
pub struct Lengths {
    pub cells: u16,
    pub order: u16,
    pub taken: u16,
}

pub struct Vector {
    /// It says what the vector shows.
    pub name: String,
    pub question: Question,
    pub n: u8,
    pub table: Vec<u8>,
}

impl Vector {
    /// One byte for the question; for a lookup the name, for settlements how many and
    /// what is lent to each; then n, then the table.
    pub fn file(&self) -> Vec<u8> {
        let mut file = Vec::new();
        match &self.question {
            Question::Check => file.push(0),
            Question::Lookup(asked) => {
                file.push(1);
                file.extend(asked.round.to_le_bytes());
                file.push(asked.author);
                file.extend(asked.mark.to_le_bytes());
            }
            Question::Twice => file.push(2),
            Question::Settle(lent) => {
                file.push(3);
                file.push(u8::try_from(lent.len()).expect("a byte counts them"));
                for lengths in lent {
                    let all = [lengths.cells, lengths.order, lengths.taken];
                    file.extend(all.into_iter().flat_map(u16::to_le_bytes));
                }
            }
        }
        file.push(self.n);
        file.extend(&self.table);
        file
    }

    /// The refusals of its answers, one for each call; `None` where there is none.
    pub fn refusals(&self) -> Vec<Option<Refusal>> {
        let checked = |table| check(self.n, table).err();
        match &self.question {
            Question::Check => vec![checked(&self.table)],
            Question::Lookup(asked) => vec![self.begin(*asked).err()],
            Question::Twice => vec![
                checked(&self.table),
                checked(&self.table[..self.table.len() - 1]),
            ],
            Question::Settle(lent) => {
                let settled = |&lengths| settlement_refusal(self.n, &self.table, lengths);
                let first = checked(&self.table);
                [first]
                    .into_iter()
                    .chain(lent.iter().map(settled))
                    .collect()
            }
        }
    }

    /// What is printed under its name.
    pub fn answer(&self) -> String {
        let refusals = self.refusals();
        let told = |refusal: Option<Refusal>, good: &str| match refusal {
            Some(refusal) => refusal_line(refusal),
            None => format!("{good}\n"),
        };
        match &self.question {
            Question::Check | Question::Twice => refusals
                .into_iter()
                .map(|refusal| told(refusal, "passed"))
                .collect(),
            Question::Lookup(asked) => told(refusals[0], "found") + &self.part(*asked),
            Question::Settle(lent) => {
                let settled = |&lengths| settlement_text(self.n, &self.table, lengths);
                told(refusals[0], "passed") + &lent.iter().map(settled).collect::<String>()
            }
        }
    }

    fn begin(&self, asked: Name) -> Result<usize, Refusal> {
        lookup(self.n, &self.table, asked)
    }

    /// The length of the part that is handed back, and the name in it.
    fn part(&self, asked: Name) -> String {
        match self.begin(asked) {
            Err(_) => "part 0\n".to_string(),
            Ok(begin) => {
                let part = &self.table[begin..begin + RECORD_BYTES];
                let name = decode(part).name();
                let Name {
                    round,
                    author,
                    mark,
                } = name;
                format!("part {}\nV {round} {author} {mark}\n", part.len())
            }
        }
    }
}

/// A file of the program's folder, by its path there.
pub struct Stored {
    pub path: String,
    pub bytes: Vec<u8>,
}

/// Every file that is stored: the data, the arguments and what must be printed.
pub fn files() -> Vec<Stored> {
    let vectors = vectors();
    let mut files: Vec<Stored> = vectors
        .iter()
        .map(|vector| Stored {
            path: format!("data/{}", vector.name),
            bytes: vector.file(),
        })
        .collect();
    let names = vectors.iter().map(|vector| format!("{}\n", vector.name));
    let printed = vectors
        .iter()
        .map(|vector| format!("{}\n{}", vector.name, vector.answer()));
    files.push(Stored {
        path: "args".to_string(),
        bytes: names.collect::<String>().into_bytes(),
    });
    files.push(Stored {
        path: "stdout".to_string(),
        bytes: printed.collect::<String>().into_bytes(),
    });
    files
}

/// Writes them below a folder, and tells how many.
pub fn write(folder: &Path) -> std::io::Result<usize> {
    let files = files();
    std::fs::create_dir_all(folder.join("data"))?;
    for file in &files {
        std::fs::write(folder.join(&file.path), &file.bytes)?;
    }
    Ok(files.len())
}

// ---- tables

const MIDDLE: usize = 6;
const LAST: usize = 11;

/// P2 with one record changed, its sum right.
fn changed(position: usize, how: impl FnOnce(&mut Vertex)) -> Vec<u8> {
    let mut made = p2();
    how(&mut made.vertices[position]);
    made.table()
}

// ---- what makes a record fail, the sum right

type Cause = fn(&mut Vertex);

/// The rows behind the sum up to 6, in the order in which they are put to a record.
const UP_TO_6: [(u8, Cause); 5] = [
    (5, padding_1),
    (18, round_0),
    (19, mark_0),
    (20, author_n),
    (6, in_round_1),
];

fn padding_1(vertex: &mut Vertex) {
    vertex.padding = 1;
}

fn round_0(vertex: &mut Vertex) {
    vertex.round = 0;
}

fn mark_0(vertex: &mut Vertex) {
    vertex.mark = 0;
}

fn author_n(vertex: &mut Vertex) {
    vertex.author = 4;
}

/// Behind a record of round 2 it fails 6, whatever its author and its mark are, and not 7 or 8.
fn in_round_1(vertex: &mut Vertex) {
    vertex.round = 1;
    vertex.refs.fill(0);
}

/// Author 2 has no such mark.
fn names_nothing(vertex: &mut Vertex) {
    vertex.refs[2] = 9;
}

// ---- the vectors

/// All of them, in the order in which they are run.
pub fn vectors() -> Vec<Vector> {
    let mut all = counts();
    all.extend(lengths());
    all.extend(sums());
    all.extend(fields());
    all.extend(rising());
    all.extend(entries());
    all.extend(earlier());
    all.extend(first_answers());
    all.extend(earlier_records_first());
    all.extend(lookups());
    all.extend(lookups_elsewhere());
    all.extend(settlements());
    all
}

fn checked(name: &str, n: u8, table: Vec<u8>) -> Vector {
    Vector {
        name: name.to_string(),
        question: Question::Check,
        n,
        table,
    }
}

/// P2 with one record changed, its sum right, checked with n = 4.
fn with(name: &str, position: usize, how: impl FnOnce(&mut Vertex)) -> Vector {
    checked(name, 4, changed(position, how))
}

/// P2 in which the sum of one record is off, checked with n = 4.
fn with_sum_off(name: &str, position: usize, by: u16) -> Vector {
    checked(name, 4, sum_off(p2().table(), position, by))
}

/// 1, and the smallest and the largest count that pass.
fn counts() -> Vec<Vector> {
    let p2 = || p2().table();
    vec![
        checked("n_0", 0, p2()),
        checked("n_3", 3, p2()),
        checked("n_4_passes", 4, p2()),
        checked("n_5", 5, p2()),
        checked("n_31_passes", 31, Made::full_rounds(31, 32).table()),
        checked("n_34", 34, p2()),
        checked("n_255", 255, p2()),
        checked("n_0_empty", 0, Vec::new()),
    ]
}

/// 2, 3 and what passes beside them.
fn lengths() -> Vec<Vector> {
    let one_byte = |table: Vec<u8>| [table, vec![0]].concat();
    vec![
        checked("empty_passes", 4, Vec::new()),
        checked("one_byte", 4, vec![0]),
        checked("bytes_137", 4, p2().table()[..137].to_vec()),
        checked("bytes_138_passes", 4, p2().table()[..138].to_vec()),
        checked("bytes_139", 4, p2().table()[..139].to_vec()),
        // 2 before 3 with the last byte, and 3 before 4 without it.
        Vector {
            question: Question::Twice,
            ..checked(
                "records_4097_a_byte_more_and_sum_wrong",
                4,
                one_byte(sum_off(Made::full_rounds(4, 4_097).table(), 0, 1)),
            )
        },
    ]
}

/// 4.
fn sums() -> Vec<Vector> {
    let padded = |position: usize| {
        let mut table = p2().table();
        table[position * RECORD_BYTES + 135] = 1;
        table
    };
    let carried = Vertex {
        batches: 65_535,
        ..vertex(1, 2, 65_535, &[])
    };
    vec![
        with_sum_off("sum_wrong_first", 0, 1),
        with_sum_off("sum_wrong_middle", MIDDLE, 1),
        with_sum_off("sum_wrong_last", LAST, 1),
        with_sum_off("sum_high_byte_wrong", MIDDLE, 256),
        checked("sum_leaves_padding_out_first", 4, padded(0)),
        checked("sum_leaves_padding_out", 4, padded(MIDDLE)),
        checked("sum_leaves_padding_out_last", 4, padded(LAST)),
        // A padding of 1 was summed and then zeroed.
        with_sum_off("padding_summed_then_zeroed", LAST, 256),
        checked("sum_drops_carries_passes", 4, bytes_of(&[carried])),
    ]
}

/// 5, 18, 19 and 20.
fn fields() -> Vec<Vector> {
    let causes: [(&str, Cause); 5] = [
        ("padding_1_sum_right", padding_1),
        ("round_0", round_0),
        ("mark_0", mark_0),
        ("author_n", author_n),
        ("author_255", |v| v.author = 255),
    ];
    let places = [("first", 0), ("middle", MIDDLE), ("last", LAST)];
    let each = |(cause, how): (&str, Cause)| {
        places.map(|(place, position)| with(&format!("{cause}_{place}"), position, how))
    };
    causes.into_iter().flat_map(each).collect()
}

/// 6. The first record cannot fail it.
fn rising() -> Vec<Vector> {
    let same = |name: &str, position: usize| {
        let mut vertices = p2().vertices;
        vertices[position] = vertices[position - 1].clone();
        checked(name, 4, bytes_of(&vertices))
    };
    let fall = |name: &str, high: (u8, u32), low: (u8, u32)| {
        let two = [high, low].map(|(author, mark)| vertex(1, author, mark, &[]));
        checked(name, 4, bytes_of(&two))
    };
    vec![
        same("same_name_second", 1),
        same("same_name_middle", MIDDLE),
        same("same_name_last", LAST),
        with("lower_round_last", LAST, |v| v.round = 2),
        fall("lower_author", (1, 1), (0, 9)),
        fall("lower_mark", (0, 256), (0, 2)),
        fall("lower_mark_of_four_bytes", (0, u32::MAX), (0, 65_535)),
    ]
}

/// 7.
fn entries() -> Vec<Vector> {
    vec![
        with("entry_in_round_1_first", 0, |v| v.refs[3] = 1),
        with("entry_past_n_first", 0, |v| v.refs[30] = 1),
        with("entry_in_round_1_last_of_it", 3, |v| v.refs[0] = 1),
        with("entry_past_n_middle", MIDDLE, |v| v.refs[4] = 1),
        with("entry_past_n_last", LAST, |v| v.refs[30] = 1),
        with("entries_two_middle", MIDDLE, |v| v.refs[2..4].fill(0)),
        with("entries_two_last", LAST, |v| v.refs[..2].fill(0)),
        with("entries_none_last", LAST, |v| v.refs.fill(0)),
        with("entries_three_passes", LAST, |v| v.refs[1] = 0),
    ]
}

/// 8.
fn earlier() -> Vec<Vector> {
    let mut moved = p2().vertices;
    moved.rotate_left(1);
    let alone = vertex(2, 0, 1, &[(0, 1), (1, 1), (2, 1)]);
    vec![
        checked("names_nothing_first", 4, bytes_of(&[alone])),
        with("names_other_mark_middle", MIDDLE, |v| v.refs[0] = 2),
        with("names_mark_of_two_bytes", MIDDLE, |v| v.refs[3] = 0x101),
        with("names_other_mark_last", LAST, |v| v.refs[3] = u32::MAX),
        checked("names_a_later_record", 4, bytes_of(&moved)),
        with("names_an_empty_round_last", LAST, |v| v.round = 5),
    ]
}

/// Which check answers when several fail: each neighbouring pair that a table can
/// fail. `lengths` has 2 before 3 and 3 before 4.
fn first_answers() -> Vec<Vector> {
    let named_before = |v: &mut Vertex| v.author = 0;
    let few = |v: &mut Vertex| v.refs[..2].fill(0);
    let sum_off_and_a_byte = [sum_off(p2().table(), 0, 1), vec![0]].concat();
    let mut all = vec![
        checked("1_before_2", 5, vec![0; 137]),
        checked("2_before_4", 4, sum_off_and_a_byte),
    ];
    all.extend(pairs_up_to_6());
    all.extend([
        with("5_before_18_19_and_20", 5, |v| {
            UP_TO_6[..4].iter().for_each(|(_, cause)| cause(v));
        }),
        with("6_before_7", 5, |v| {
            named_before(v);
            few(v);
        }),
        with("7_before_8", 5, |v| {
            few(v);
            names_nothing(v);
        }),
        // Far above all that is there, and above the bound of the row that is retired.
        with("8_for_round_1401", LAST, |v| v.round = 1_401),
    ]);
    all
}

/// Every pair of 4 and the rows up to 6, as a record may fail any two of them.
fn pairs_up_to_6() -> Vec<Vector> {
    let mut all = Vec::new();
    for (i, &(first, cause)) in UP_TO_6.iter().enumerate() {
        let off = sum_off(changed(5, cause), 5, 1);
        all.push(checked(&format!("4_before_{first}"), 4, off));
        for (second, other) in &UP_TO_6[i + 1..] {
            // The first one last: it is to stay where both set the round.
            let both = |v: &mut Vertex| {
                other(v);
                cause(v);
            };
            all.push(with(&format!("{first}_before_{second}"), 5, both));
        }
    }
    all
}

/// All of an earlier record's checks come before any of a later one's.
fn earlier_records_first() -> Vec<Vector> {
    let two = |name: &str, cause: Cause, of_the_next: Cause| {
        let mut made = p2();
        cause(&mut made.vertices[5]);
        of_the_next(&mut made.vertices[6]);
        checked(name, 4, made.table())
    };
    let sum_off_behind = |cause: Cause| sum_off(changed(5, cause), 6, 1);
    vec![
        checked("18_before_4_of_the_next", 4, sum_off_behind(round_0)),
        two("19_before_18_of_the_next", mark_0, round_0),
        two("20_before_5_of_the_next", author_n, padding_1),
        two("6_before_20_of_the_next", in_round_1, author_n),
        checked("8_before_4_of_the_next", 4, sum_off_behind(names_nothing)),
    ]
}

/// A table with gaps between its names, and one with two marks in a round.
fn sparse() -> Vec<Vertex> {
    vec![
        vertex(1, 0, 5, &[]),
        vertex(1, 0, 256, &[]),
        vertex(1, 1, 1, &[]),
        vertex(1, 3, 65_536, &[]),
        vertex(2, 2, 7, &[(0, 256), (1, 1), (3, 65_536)]),
    ]
}

fn asked(name: &str, n: u8, table: Vec<u8>, (round, author, mark): (u32, u8, u32)) -> Vector {
    let asked = Name {
        round,
        author,
        mark,
    };
    Vector {
        question: Question::Lookup(asked),
        ..checked(name, n, table)
    }
}

/// 11, and what is found.
fn lookups() -> Vec<Vector> {
    let names = [
        ("found_first", (1, 0, 5)),
        ("found_second_mark", (1, 0, 256)),
        ("found_middle", (1, 1, 1)),
        ("found_wide_mark", (1, 3, 65_536)),
        ("found_last", (2, 2, 7)),
        ("not_found_below", (1, 0, 4)),
        ("not_found_between_marks", (1, 0, 6)),
        ("not_found_between_authors", (1, 2, 1)),
        ("not_found_between_rounds", (2, 0, 1)),
        ("not_found_above", (2, 2, 8)),
        ("not_found_round_above", (3, 0, 1)),
        ("not_found_round_0", (0, 0, 5)),
        ("not_found_mark_0", (1, 0, 0)),
        ("not_found_author_n", (1, 4, 1)),
        ("not_found_author_255", (1, 255, 1)),
        ("not_found_everything_highest", (u32::MAX, 255, u32::MAX)),
    ];
    let table = || bytes_of(&sparse());
    names
        .map(|(name, key)| asked(&format!("lookup_{name}"), 4, table(), key))
        .into()
}

/// In other tables: a refused one answers with its own refusal.
fn lookups_elsewhere() -> Vec<Vector> {
    let table = bytes_of(&sparse());
    let one = table[..RECORD_BYTES].to_vec();
    let refused = sum_off(table.clone(), 4, 1);
    vec![
        asked("lookup_in_empty", 4, Vec::new(), (1, 0, 1)),
        asked("lookup_in_one_found", 4, one, (1, 0, 5)),
        asked("lookup_n_5", 5, table, (1, 0, 5)),
        asked("lookup_in_refused_there", 4, refused.clone(), (1, 0, 5)),
        asked("lookup_in_refused_not_there", 4, refused, (9, 9, 9)),
    ]
}
