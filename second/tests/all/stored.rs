//! The tables of `examples/`: what is stored is what is meant, and settles as is stored
//! beside it.

use second::decide::{certified_in_history, commit_qualifies, decide_all, Way};
use second::examples::p_tables;
use second::files;
use second::program::run;
use second::settle::equivocators;
use second::table::Table;
use second::text::Text;
use std::collections::BTreeSet;
use std::path::{Path, PathBuf};

/// Beside P1 to P14.
const LARGER: [&str; 2] = ["equivocators", "morning"];

/// For 5, 18, 19 and 20, each of which has a row of its own.
const OF_FIELDS: [&str; 5] = ["padding", "round_0", "mark_0", "author_n", "all_four"];

pub fn folder() -> PathBuf {
    Path::new(env!("CARGO_MANIFEST_DIR")).join("../examples")
}

/// A stored example, read.
pub fn example(name: &str) -> Text {
    let path = folder().join(format!("{name}.txt"));
    files::text(path.to_str().expect("a plain path")).expect(name)
}

fn p_name(number: usize) -> String {
    format!("p{number:02}")
}

pub fn names() -> Vec<String> {
    let p = (1..=14).map(p_name);
    let others = LARGER.into_iter().chain(OF_FIELDS);
    p.chain(others.map(String::from)).collect()
}

#[test]
fn p1_to_p14_are_the_tables_of_the_other_tests() {
    for (number, table) in (1..).zip(p_tables()) {
        let stored = example(&p_name(number));
        assert_eq!(stored.n, 4, "P{number}");
        assert_eq!(stored.table, table, "P{number}");
    }
}

#[test]
fn each_prints_what_is_stored_beside_it() {
    for name in names() {
        let printed = run(&example(&name).input());
        let expected = std::fs::read(folder().join(format!("{name}.out"))).expect(&name);
        assert!(printed == expected, "{name}");
    }
}

/// No file without its other half, and none that no test reads.
#[test]
fn the_folder_has_these_and_no_others() {
    let listed = std::fs::read_dir(folder()).expect("examples");
    let paths = listed.map(|entry| entry.expect("the folder is read").path());
    let tables = paths.filter(|path| path.extension().is_some_and(|e| e == "txt" || e == "out"));
    let there: BTreeSet<PathBuf> = tables.collect();
    let of = |name: String| ["txt", "out"].map(|end| folder().join(format!("{name}.{end}")));
    let expected: BTreeSet<PathBuf> = names().into_iter().flat_map(of).collect();
    assert_eq!(there, expected);
}

/// The folder's page says of each what it shows.
#[test]
fn each_is_listed() {
    let page = std::fs::read_to_string(folder().join("README.md")).expect("README.md");
    let rows: Vec<&str> = page.lines().filter(|line| line.starts_with('|')).collect();
    for name in names() {
        let listed = rows.iter().any(|row| row.contains(&format!("`{name}`")));
        assert!(listed, "{name}");
    }
}

fn ways(name: &str) -> (Table, Vec<Way>) {
    let Text { n, table, .. } = example(name);
    let table = Table::read(n, &table);
    let ways = decide_all(&table);
    (table, ways)
}

/// The late farm's round is committed through an anchor, the absent haulier's skipped.
#[test]
fn the_morning_shows_what_it_says() {
    let (table, ways) = ways("morning");
    assert_eq!((table.records(), equivocators(&table)), (64, 0));
    assert!(matches!(ways[2], Way::IndirectCommit { .. }));
    assert_eq!(ways[4], Way::DirectSkip);
}

/// Both vertices of a leader qualify, directly and through an anchor.
#[test]
fn the_equivocators_show_what_they_say() {
    let (table, ways) = ways("equivocators");
    assert_eq!((table.records(), equivocators(&table)), (65, 3));
    assert_eq!(commit_qualifies(&table, 1).len(), 2);
    let Way::IndirectCommit { anchor, .. } = ways[1] else {
        panic!("round 2: {:?}", ways[1]);
    };
    assert_eq!(table.vertices[anchor].round, 5);
    assert_eq!(certified_in_history(&table, 2, anchor).len(), 2);
    assert!(matches!(ways[2], Way::IndirectSkip { .. }));
}
