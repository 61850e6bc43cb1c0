//! Asks the rules of this package and other calls the same questions.

use crate::answers::{Calls, RULES};
use crate::generate::{lent, question};
use crate::record::Name;
use crate::record_box::{Answer, Part, Settled};
use crate::settle::Lent;
use std::fmt::Debug;

/// Everything that the calls are asked with.
#[derive(Clone)]
pub struct Case {
    pub n: u8,
    pub table: Vec<u8>,
    /// What is lent to a settlement, with its contents.
    pub lent: Lent,
    /// The name that is looked up.
    pub name: Name,
}

impl Case {
    /// With buffers and a name by chance.
    pub fn drawn(n: u8, table: Vec<u8>, seed: u64) -> Case {
        Case {
            n,
            lent: lent(n, &table, seed),
            name: question(&table, seed),
            table,
        }
    }
}

/// What one call was answered: in one word, to count it by, and both answers where
/// they differ.
pub struct Asked {
    pub call: &'static str,
    pub word: String,
    pub difference: Option<String>,
}

/// Asks about one thing.
pub type Ask = fn(&Calls, &Case) -> Vec<Asked>;

/// Everything that is compared. A further call is a further line here.
const ASKS: [Ask; 3] = [ask_check, ask_lookup, ask_settle];

/// Asks every call.
pub fn ask(calls: &Calls, case: &Case) -> Vec<Asked> {
    ASKS.iter().flat_map(|ask| ask(calls, case)).collect()
}

/// Whether one of these answers is another than that of the rules.
pub fn differ(answers: &[Asked]) -> bool {
    answers.iter().any(|asked| asked.difference.is_some())
}

/// The first thing about which the answers differ.
pub fn first_difference(calls: &Calls, case: &Case) -> Option<Ask> {
    ASKS.into_iter().find(|ask| differ(&ask(calls, case)))
}

fn ask_check(calls: &Calls, case: &Case) -> Vec<Asked> {
    let expected = (RULES.check)(case.n, &case.table);
    let told = (calls.check)(case.n, &case.table);
    vec![asked("check", in_word(expected, "passed"), expected, told)]
}

/// Both questions of the lookup, of one name.
fn ask_lookup(calls: &Calls, case: &Case) -> Vec<Asked> {
    let (n, table, name) = (case.n, &case.table, case.name);
    let part = (RULES.lookup)(n, table, name);
    let told = (calls.lookup)(n, table, name);
    let why = (RULES.lookup_answer)(n, table, name);
    let told_why = (calls.lookup_answer)(n, table, name);
    vec![
        asked("lookup", part_in_word(part), part, told),
        asked("lookup_answer", in_word(why, "found"), why, told_why),
    ]
}

/// Both settle with equally filled buffers. What these hold then is compared to the
/// last place, with what is to be kept.
fn ask_settle(calls: &Calls, case: &Case) -> Vec<Asked> {
    let (mut mine, mut theirs) = (case.lent.clone(), case.lent.clone());
    let expected = (RULES.settle)(case.n, &case.table, &mut mine);
    let told = (calls.settle)(case.n, &case.table, &mut theirs);
    let buffers = Asked {
        call: "settle, buffers",
        word: buffers_in_word(&case.lent, &mine).to_string(),
        difference: buffers_difference(&mine, &theirs),
    };
    let word = settled_in_word(expected, &case.lent);
    vec![asked("settle", word, expected, told), buffers]
}

fn buffers_in_word(before: &Lent, after: &Lent) -> &'static str {
    match before == after {
        true => "as they were",
        false => "written to",
    }
}

/// The first place of each buffer at which the two differ.
fn buffers_difference(mine: &Lent, theirs: &Lent) -> Option<String> {
    if mine == theirs {
        return None;
    }
    let found = [
        place_difference("cell", &mine.cells, &theirs.cells),
        place_difference("order place", &mine.order, &theirs.order),
        place_difference("taken byte", &mine.taken, &theirs.taken),
    ];
    let found: Vec<String> = found.into_iter().flatten().collect();
    Some(found.join("; "))
}

fn place_difference<T: PartialEq + Debug>(of: &str, mine: &[T], theirs: &[T]) -> Option<String> {
    let mut both = mine.iter().zip(theirs).enumerate();
    let (place, (a, b)) = both.find(|(_, (a, b))| a != b)?;
    Some(format!("{of} {place}: rules {a:?}, asked {b:?}"))
}

fn asked<T: PartialEq + Debug>(call: &'static str, word: String, expected: T, told: T) -> Asked {
    let difference = (expected != told).then(|| format!("rules {expected:?}, asked {told:?}"));
    Asked {
        call,
        word,
        difference,
    }
}

/// Settled, and in buffers of what size, or the refusal.
fn settled_in_word(settled: Settled, lent: &Lent) -> String {
    let exact = lent.cells.len() == settled.highest as usize
        && lent.order.len() == settled.records
        && lent.taken.len() == settled.records;
    match (settled.number, exact) {
        (0, true) => "settled, exact buffers".to_string(),
        (0, false) => "settled, some longer".to_string(),
        (number, _) => format!("refusal {number:2}"),
    }
}

fn in_word(answer: Answer, none: &str) -> String {
    match answer.number {
        0 => none.to_string(),
        number => format!("refusal {number:2}"),
    }
}

fn part_in_word(part: Part) -> String {
    let word = match part.length {
        0 => "empty part",
        _ => "a record",
    };
    word.to_string()
}
