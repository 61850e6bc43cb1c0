//! Request f of document 02: a wrong padding, round 0, mark 0 and an author of n or more have a
//! number each, and of several the first in this order is told.

use crate::attack::differ;
use crate::checks::{calls_by, Right, Rows, Seen};
use crate::stored::example;
use second::answers::Calls;
use second::attack::attack_by;
use second::authors::AUTHOR_COUNTS;
use second::check::check;
use second::compare::compare;
use second::damage::Fault;
use second::generate::{bytes_of, table, Kind};
use second::made::{refusal, settled, sum_off, Made};
use second::plain;
use second::record::{decode, name, Name, Vertex};
use second::settle::{lookup, Outcome};
use second::shares::shares;
use second::text::Text;
use std::collections::BTreeSet;

/// Which fields are wrong, and the number.
const COMBINATIONS: [(&str, u8); 15] = [
    ("padding", 5),
    ("round", 18),
    ("mark", 19),
    ("author", 20),
    ("padding round", 5),
    ("padding mark", 5),
    ("padding author", 5),
    ("round mark", 18),
    ("round author", 18),
    ("mark author", 19),
    ("padding round mark", 5),
    ("padding round author", 5),
    ("padding mark author", 5),
    ("round mark author", 18),
    ("padding round mark author", 5),
];

/// Makes these fields wrong.
fn put(fields: &str, n: u8, vertex: &mut Vertex) {
    for field in fields.split_whitespace() {
        match field {
            "padding" => vertex.padding = 1,
            "round" => vertex.round = 0,
            "mark" => vertex.mark = 0,
            "author" => vertex.author = n,
            _ => unreachable!("no field {field}"),
        }
    }
}

/// For every n and each combination: a table with these fields of one record wrong, where that
/// record stands, and the number. With none of them wrong the table passes.
fn wrong_tables() -> Vec<(u8, Vec<u8>, usize, u8)> {
    let mut all = Vec::new();
    for n in AUTHOR_COUNTS {
        let right = Made::full_rounds(n, usize::from(n) + 3);
        assert_eq!(check(n, &right.table()), Ok(()));
        let last = right.vertices.len() - 1;
        for position in [0, last / 2, last] {
            for (fields, number) in COMBINATIONS {
                let mut made = right.clone();
                put(fields, n, &mut made.vertices[position]);
                all.push((n, made.table(), position, number));
            }
        }
    }
    all
}

#[test]
fn the_first_wrong_field_is_told_by_every_call() {
    for (n, table, position, number) in wrong_tables() {
        let told = refusal(number, position);
        assert_eq!(check(n, &table), Err(told), "n = {n}");
        assert_eq!(plain::check(n, &table), Err(told), "n = {n}");
        assert_eq!(lookup(n, &table, name(1, 0, 1)), Err(told), "n = {n}");
        assert_eq!(settled(n, &table).outcome, Outcome::Refused(told));
    }
}

#[test]
fn a_wrong_sum_comes_before_all_four() {
    for (n, table, position, _) in wrong_tables() {
        let off = sum_off(table, position, 1);
        assert_eq!(check(n, &off), Err(refusal(4, position)), "n = {n}");
    }
}

// ---- checks with one row wrong

/// The row at this place of the order and the next have changed places.
struct Swapped<const AT: usize>;

impl<const AT: usize> Rows for Swapped<AT> {
    fn order() -> Vec<u8> {
        let mut order = Right::order();
        order.swap(AT, AT + 1);
        order
    }
}

/// 5 for round 0 too, as it was told before.
struct OldRound;

impl Rows for OldRound {
    fn fails(row: u8, seen: &Seen) -> bool {
        seen.fails(row) || (row == 5 && seen.fails(18))
    }
}

/// Author n is let through.
struct AuthorN;

impl Rows for AuthorN {
    fn fails(row: u8, seen: &Seen) -> bool {
        seen.fails(row) && !(row == 20 && seen.vertex.author == seen.n)
    }
}

/// Each two neighbours from 4 to 6 swapped; then the other two.
fn wrong_calls() -> [Calls; 7] {
    [
        calls_by::<Swapped<0>>(),
        calls_by::<Swapped<1>>(),
        calls_by::<Swapped<2>>(),
        calls_by::<Swapped<3>>(),
        calls_by::<Swapped<4>>(),
        calls_by::<OldRound>(),
        calls_by::<AuthorN>(),
    ]
}

#[test]
fn the_family_finds_each_wrong_row() {
    assert_eq!(differ(&calls_by::<Right>(), &["field faults"]), 0);
    for (i, calls) in wrong_calls().iter().enumerate() {
        assert!(differ(calls, &["field faults"]) > 0, "{i}");
    }
}

/// Among random tables too there are records with just those two faults, or that one.
#[test]
fn random_tables_find_each_wrong_row() {
    for (i, calls) in wrong_calls().iter().enumerate() {
        assert!(compare(calls, 1_000, 1).differed() > 0, "{i}");
    }
}

/// A reader sees which two numbers were told, of one record alone.
#[test]
fn a_wrong_row_is_shown_small() {
    let calls = calls_by::<Swapped<2>>();
    let attack = attack_by(&calls, |name| name.contains("field faults"));
    let text = attack.to_string();
    for shown in [
        "# check: rules Answer { number: 18, position: 0 }, asked Answer { number: 19, position: 0 }\n",
        "\nauthors 4\n\nround 0 author 0 mark 0\n\n",
    ] {
        assert!(text.contains(shown), "{text}");
    }
}

// ---- what random tables reach

/// The numbers that the tables of a fault are refused with. One without a record passes.
fn numbers_of(fault: Fault) -> BTreeSet<u8> {
    let tables = (0..200).map(|seed| table(Kind::Faulty(fault), seed));
    let refused = tables.filter_map(|(n, table)| check(n, &table).err());
    refused.map(|refusal| refusal.number).collect()
}

#[test]
fn each_fault_gives_its_number() {
    assert_eq!(numbers_of(Fault::Padding), BTreeSet::from([5]));
    assert_eq!(numbers_of(Fault::RoundZero), BTreeSet::from([18]));
    assert_eq!(numbers_of(Fault::MarkZero), BTreeSet::from([19]));
    assert_eq!(numbers_of(Fault::AuthorPast), BTreeSet::from([20]));
    let several = BTreeSet::from([5, 18, 19]);
    assert_eq!(numbers_of(Fault::SeveralFields), several);
}

/// All that there are; and each of the three that can be the first of several wrong fields is
/// that.
#[test]
fn random_tables_reach_every_number() {
    let text = shares(5_000, 1).to_string();
    let shows = |thing: String| text.contains(&format!("%  {thing}\n"));
    for number in (1..=8).chain(10..=12).chain(18..=20) {
        assert!(shows(format!("refusal {number:2}")), "{number}");
    }
    for number in [5, 18, 19] {
        let another = format!("refusal {number:2}, another of the four fields wrong too");
        assert!(shows(another), "{number}");
    }
}

// ---- the stored examples

/// How many fields of a vertex are wrong that ought to have this name.
fn wrong_fields(vertex: &Vertex, right: Name) -> usize {
    let wrong = [
        vertex.padding != 0,
        vertex.round != right.round,
        vertex.mark != right.mark,
        vertex.author != right.author,
    ];
    wrong.into_iter().filter(|&wrong| wrong).count()
}

/// Nothing else is wrong with them: with those fields put right they pass.
#[test]
fn the_examples_show_what_they_say() {
    for (file, told, wrong, right) in [
        ("padding", refusal(5, 6), 1, name(2, 2, 1)),
        ("round_0", refusal(18, 5), 1, name(2, 1, 1)),
        ("mark_0", refusal(19, 9), 1, name(3, 1, 1)),
        ("author_n", refusal(20, 7), 1, name(2, 3, 1)),
        ("all_four", refusal(5, 8), 4, name(3, 0, 1)),
    ] {
        let Text { n, table, .. } = example(file);
        assert_eq!(check(n, &table), Err(told), "{file}");
        let mut vertices: Vec<Vertex> = table.chunks(138).map(decode).collect();
        let vertex = &mut vertices[told.position];
        assert_eq!(wrong_fields(vertex, right), wrong, "{file}");
        vertex.padding = 0;
        (vertex.round, vertex.author, vertex.mark) = (right.round, right.author, right.mark);
        assert_eq!(check(n, &bytes_of(&vertices)), Ok(()), "{file}");
    }
}
