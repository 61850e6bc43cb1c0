//! The settlements among the stored tables: what is printed of each, and the tables.

use super::{Lengths, Question, Vector};
use crate::check::Refusal;
use crate::examples::{
    blank_and_certified, blank_by_two_authors, blank_with_an_anchor, both_certified,
    both_in_the_anchors_history, certified_by_two_authors, p12, p13_or_p14, p2, p3, p4, p5, p6, p7,
    p7_up_to, p8, p9, padded, skipped_in_between, supporting, tallest,
    the_higher_in_the_anchors_history, twins_alone, twins_certified, twins_through_an_anchor,
    undecided_in_between,
};
use crate::generate::needed;
use crate::made::Made;
use crate::program::lines;
use crate::settle::{settle, Lent, Outcome};

// ---- what is printed

/// What every cell and every order place holds before: no settlement writes it.
const PLACE: u32 = 9_999;
/// What every taken byte holds before.
const BYTE: u8 = 9;

/// The settlement in fresh buffers of these lengths, and what they hold then.
fn settled_in(n: u8, table: &[u8], lengths: Lengths) -> (Outcome, Lent) {
    let (cells, order, taken) = (lengths.cells, lengths.order, lengths.taken);
    let mut lent = Lent::filled(cells.into(), order.into(), taken.into(), PLACE, BYTE);
    (settle(n, table, &mut lent), lent)
}

pub fn settlement_refusal(n: u8, table: &[u8], lengths: Lengths) -> Option<Refusal> {
    match settled_in(n, table, lengths).0 {
        Outcome::Settled(_) => None,
        Outcome::Refused(refusal) => Some(refusal),
    }
}

/// The program's lines, and all that the buffers hold then.
pub fn settlement_text(n: u8, table: &[u8], lengths: Lengths) -> String {
    let (outcome, lent) = settled_in(n, table, lengths);
    let taken: Vec<u32> = lent.taken.iter().copied().map(u32::from).collect();
    format!(
        "{}cells{}\norder{}\ntaken{}\n",
        lines(table, outcome, &lent),
        runs(&lent.cells),
        runs(&lent.order),
        runs(&taken)
    )
}

/// Each number, with how often it stands there in a row if more than once.
fn runs(numbers: &[u32]) -> String {
    let same = numbers.chunk_by(|a, b| a == b);
    same.map(|run| match run.len() {
        1 => format!(" {}", run[0]),
        times => format!(" {}*{times}", run[0]),
    })
    .collect()
}

// ---- what is lent

/// A length beside the one that is needed.
#[derive(Clone, Copy)]
enum Size {
    Empty,
    OneShort,
    Exact,
    Longer,
}

impl Size {
    fn of(self, needed: usize) -> u16 {
        let length = match self {
            Size::Empty => 0,
            Size::OneShort => needed - 1,
            Size::Exact => needed,
            Size::Longer => needed + 2,
        };
        u16::try_from(length).expect("a table has at most 4,096 records")
    }
}

/// Beside what the table needs.
fn lengths(n: u8, table: &[u8], [cells, order, taken]: [Size; 3]) -> Lengths {
    let (rounds, records) = needed(n, table);
    Lengths {
        cells: cells.of(rounds),
        order: order.of(records),
        taken: taken.of(records),
    }
}

fn settled(name: &str, n: u8, table: Vec<u8>, sizes: &[[Size; 3]]) -> Vector {
    let lent = sizes.iter().map(|&sizes| lengths(n, &table, sizes));
    Vector {
        name: name.to_string(),
        question: Question::Settle(lent.collect()),
        n,
        table,
    }
}

/// In exact buffers, and in longer ones.
fn in_two(name: &str, made: Made) -> Vector {
    let sizes = [[Size::Exact; 3], [Size::Longer; 3]];
    settled(name, made.n, made.table(), &sizes)
}

/// In exact buffers; then, for each of these sizes, one of the three of that size in turn
/// and at last all three.
fn in_each(name: &str, made: Made, others: &[Size]) -> Vector {
    let mut sizes = vec![[Size::Exact; 3]];
    for &size in others {
        for buffer in 0..3 {
            let mut one = [Size::Exact; 3];
            one[buffer] = size;
            sizes.push(one);
        }
        sizes.push([size; 3]);
    }
    settled(name, made.n, made.table(), &sizes)
}

fn in_all(name: &str, made: Made) -> Vector {
    in_each(name, made, &[Size::OneShort, Size::Longer, Size::Empty])
}

/// A table that is refused, before 10 is asked, or has no record: buffers of any length
/// stay as they are.
fn untouched(name: &str, table: Vec<u8>) -> Vector {
    let sizes = [[Size::Exact; 3], [Size::Longer; 3], [Size::Empty; 3]];
    settled(name, 4, table, &sizes)
}

// ---- the vectors

pub fn settlements() -> Vec<Vector> {
    let mut all = examples();
    all.extend(easy_errors());
    all.extend(past_f());
    all.extend(twins());
    all.extend(counts());
    all
}

/// P1 to P14.
fn examples() -> Vec<Vector> {
    vec![
        untouched("p1", Vec::new()),
        in_all("p2", p2()),
        in_two("p3", p3()),
        in_two("p4", p4()),
        in_all("p5", p5()),
        in_two("p6", p6()),
        in_all("p7", p7()),
        in_two("p8", p8()),
        in_all("p9", p9()),
        untouched("p10", padded(0)),
        untouched("p11", padded(1)),
        untouched("p12", p12().table()),
        untouched("p13", p13_or_p14(0, &[0, 1]).table()),
        untouched("p14", p13_or_p14(0, &[1, 2, 3]).table()),
    ]
}

/// Tables on which an easy error shows.
fn easy_errors() -> Vec<Vector> {
    vec![
        in_two("certified_by_two_authors", certified_by_two_authors()),
        in_two("blank_by_two_authors", blank_by_two_authors()),
        in_two("search_not_from_the_next_round", p7_up_to(4)),
        in_two("search_not_from_two_rounds_on", p7_up_to(5)),
        in_two("undecided_round_stops_the_search", undecided_in_between()),
        in_two("skipped_round_does_not", skipped_in_between()),
        in_two("support_split_between_two", supporting([1, 1, 2, 2])),
        in_two("support_for_the_second", supporting([1, 2, 2, 2])),
    ]
}

/// More than f equivocators.
fn past_f() -> Vec<Vector> {
    let anchors = both_in_the_anchors_history();
    let higher = the_higher_in_the_anchors_history();
    vec![
        in_two("past_f_lowest_mark", both_certified(4)),
        in_two("past_f_lowest_that_qualifies", both_certified(2)),
        in_two("past_f_lowest_through_an_anchor", anchors),
        in_two("past_f_lowest_in_the_history", higher),
        in_two("past_f_commit_though_blank", blank_and_certified(3)),
        in_two("past_f_skip_without_commit", blank_and_certified(2)),
        in_two("past_f_skip_though_anchored", blank_with_an_anchor()),
    ]
}

/// Hundreds of vertices of one author in a round. The proved code looks at 127 of them
/// at a time, so those that are certified stand on both sides of that.
fn twins() -> Vec<Vector> {
    let anchored = twins_through_an_anchor(260, [128, 255]);
    vec![
        in_two("twins_alone", twins_alone(300)),
        in_two("twins_certified", twins_certified(260, &[127, 128, 254])),
        in_two(
            "twins_certified_in_the_third_part",
            twins_certified(260, &[255]),
        ),
        in_two("twins_through_an_anchor", anchored),
    ]
}

/// Other counts, and the most records and rounds.
fn counts() -> Vec<Vector> {
    vec![
        in_two("seven_authors", Made::full_rounds(7, 40)),
        in_two("thirty_one_authors", Made::full_rounds(31, 94)),
        in_each("records_4096", tallest(4), &[Size::OneShort]),
    ]
}
