//! Cases on which answers differ, for a reader: made small, in the text form of
//! `examples/README.md`, with both answers as its comments.

use crate::answers::Calls;
use crate::ask::{ask, differ, first_difference, Case};
use crate::record::RECORD_BYTES;
use crate::settle::Lent;
use crate::shrink::{shrink, Question};
use crate::text;

/// How much is asked to make one case small, in records.
const MOST_ASKED: usize = 300_000;
/// What is longer is shown up to here: what made it is told beside it.
pub const MOST_LINES: usize = 100;
/// Buffers with more places are shown by their lengths only.
const MOST_PLACES: usize = 40;

/// A case on which the calls and the rules differ.
pub fn case(calls: &Calls, case: &Case) -> String {
    let small = small_case(calls, case);
    let differences = differences(calls, &small);
    let of = |name: &str| differences.iter().any(|(call, _)| call.starts_with(name));
    let mut comments: Vec<String> = differences
        .iter()
        .map(|(call, difference)| format!("{call}: {difference}"))
        .collect();
    if of("lookup") {
        let (round, author, mark) = (small.name.round, small.name.author, small.name.mark);
        let name = format!("looked up: round {round} author {author} mark {mark}");
        comments.push(name);
    }
    if of("settle") {
        comments.push(buffers(&small.lent));
    }
    with_comments(&comments, small.n, &small.table)
}

/// Each call that is answered otherwise than by the rules, and how.
fn differences(calls: &Calls, case: &Case) -> Vec<(&'static str, String)> {
    let answers = ask(calls, case).into_iter();
    let differing = answers.filter_map(|asked| Some((asked.call, asked.difference?)));
    differing.collect()
}

/// A small case in which the answers still differ about the first thing that they do.
fn small_case(calls: &Calls, case: &Case) -> Case {
    let Some(ask) = first_difference(calls, case) else {
        return case.clone();
    };
    let differs = |case: &Case| differ(&ask(calls, case));
    let question = Question::of_case(case);
    // What the buffers hold before seldom matters.
    let zeros = Lent::filled(0, 0, 0, 0, 0);
    let lent = match differs(&question.case(&zeros)) {
        true => &zeros,
        false => &case.lent,
    };
    let small = shrink(question, MOST_ASKED, |q| differs(&q.case(lent)));
    small.case(lent)
}

fn buffers(lent: &Lent) -> String {
    let (cells, order, taken) = (&lent.cells, &lent.order, &lent.taken);
    let lengths = format!(
        "lent: {} cells, {} order places, {} taken bytes",
        cells.len(),
        order.len(),
        taken.len()
    );
    match cells.len() + order.len() + taken.len() <= MOST_PLACES {
        true => format!("{lengths}; before: {cells:?} {order:?} {taken:?}"),
        false => lengths,
    }
}

/// The table's text below some comments.
pub fn with_comments(comments: &[String], n: u8, table: &[u8]) -> String {
    let lines = comments.iter().flat_map(|comment| comment.lines());
    let mut shown: String = lines.map(|line| format!("# {line}\n")).collect();
    let (whole, rest) = table.split_at(table.len() / RECORD_BYTES * RECORD_BYTES);
    let text = text::of_table(n, whole);
    let more = text.lines().count().saturating_sub(MOST_LINES);
    for line in text.lines().take(MOST_LINES) {
        shown.push_str(&format!("{line}\n"));
    }
    if more > 0 {
        shown.push_str(&format!("# and {more} lines more\n"));
    }
    if !rest.is_empty() {
        let bytes: String = rest.iter().map(|byte| format!(" {byte:02x}")).collect();
        let behind = format!(
            "# behind it {} bytes, which no text has:{bytes}\n",
            rest.len()
        );
        shown.push_str(&behind);
    }
    shown
}
