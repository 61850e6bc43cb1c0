//! Differences made small, with calls and programs that are wrong on purpose.

use crate::wrong::{BEFORE, LENGTH, SHORT, SPLIT, SUM, THROUGH};
use second::answers::Calls;
use second::ask::{first_difference, Case};
use second::compare::compare;
use second::decide::{decide_all, Way};
use second::examples::p7;
use second::generate::{table, Kind};
use second::program::run;
use second::shown;
use second::table::Table;
use second::text::read;
use second::through::through;
use std::os::unix::fs::PermissionsExt;

/// A case of this kind on which the calls are wrong, as it is shown.
fn shown_of(calls: &Calls, kind: Kind) -> String {
    let mut cases = (0..).map(|seed| {
        let (n, table) = table(kind, seed);
        Case::drawn(n, table, seed)
    });
    let differs = |case: &Case| first_difference(calls, case).is_some();
    let case = cases.find(differs).expect("there is no end of cases");
    shown::case(calls, &case)
}

/// The lines that are not comments or empty.
fn lines(shown: &str) -> Vec<&str> {
    let lines = shown.lines().filter(|line| !line.starts_with('#'));
    lines.filter(|line| !line.is_empty()).collect()
}

/// Round 1 and the anchor in round 4, with fewer records than P7 has.
#[test]
fn an_indirect_decision() {
    let shown = shown_of(&THROUGH, Kind::Anchors);
    assert!(shown.starts_with("# settle: rules Settled { number: 0,"));
    let text = read(&shown).expect("a right text");
    let ways = decide_all(&Table::read(text.n, &text.table));
    assert_eq!(text.n, 4);
    assert_eq!(ways.len(), 6);
    assert!(matches!(ways[0], Way::IndirectCommit { .. }));
    assert!(lines(&shown).len() < 1 + 24, "{shown}");
}

#[test]
fn two_records_of_an_author() {
    let shown = shown_of(&SPLIT, Kind::TwinsPastF);
    let [authors, first, second] = lines(&shown)[..] else {
        panic!("{shown}");
    };
    assert_eq!(authors, "authors 4");
    assert_eq!(second, format!("{first} mark 2"));
    assert!(shown.contains("# lent: 1 cells, 2 order places, 2 taken bytes; before: [0] [0, 0]"));
}

/// The same among random tables: each is shown with what made it.
#[test]
fn what_the_comparison_shows() {
    let shown = compare(&SPLIT, 60, 1).to_string();
    let differences: Vec<&str> = shown.split("DIFFERS: --kind ").skip(1).collect();
    assert_eq!(differences.len(), 5);
    for difference in differences {
        let (made_by, small) = difference.split_once("; made small:\n").expect("a case");
        assert!(made_by.contains(" --seed "), "{made_by}");
        assert!(small.contains("\nauthors 4\n\nround 1 author "), "{small}");
        assert_eq!(small.matches("\nround 1 author ").count(), 2, "{small}");
    }
}

/// The buffers stay too short as the table gets smaller.
#[test]
fn a_short_buffer() {
    let shown = shown_of(&SHORT, Kind::Full);
    assert_eq!(lines(&shown).len(), 2, "{shown}");
    assert!(shown.contains(", position: 1, "), "{shown}");
}

/// The name goes along when the records get other names.
#[test]
fn a_name() {
    let shown = shown_of(&BEFORE, Kind::HalfLeaders);
    // One beside a vertex of round 1, or three below a vertex of round 2.
    assert!(lines(&shown).len() <= 1 + 4, "{shown}");
    let (last, _) = lines(&shown)[4].split_once(" refs").expect("references");
    assert!(
        shown.contains(&format!("# looked up: {last} mark 1\n")),
        "{shown}"
    );
}

/// A damaged record stays damaged, and all else of it becomes usual.
#[test]
fn a_wrong_sum() {
    let shown = shown_of(
        &SUM,
        Kind::from_name("FaultySum").expect("a kind of damage"),
    );
    let [_, record] = lines(&shown)[..] else {
        panic!("{shown}");
    };
    let fields = record.split_whitespace().step_by(2);
    assert!(fields.eq(["round", "author", "sum"]), "{shown}");
}

/// What is no whole record is shown too.
#[test]
fn bytes_behind() {
    let mut table = p7().table();
    table.extend([7; 100]);
    let shown = shown::case(&LENGTH, &Case::drawn(4, table, 1));
    assert_eq!(lines(&shown), ["authors 4"], "{shown}");
    assert!(
        shown.ends_with("# behind it 1 bytes, which no text has: 07\n"),
        "{shown}"
    );
}

/// A program that tells a skip where a round is undecided.
#[test]
fn a_program() {
    let file = std::env::temp_dir().join(format!("second-{}.sh", std::process::id()));
    let second = env!("CARGO_BIN_EXE_second");
    let script = format!("#!/bin/sh\n'{second}' settle | sed 's/^R 2 undecided$/R 2 skip/'\n");
    std::fs::write(&file, script).expect("a file");
    let executable = std::fs::Permissions::from_mode(0o755);
    std::fs::set_permissions(&file, executable).expect("its permissions");
    let runner = file.to_str().expect("a plain path");
    let told = through(runner, 40, 1).map(|through| through.to_string());
    std::fs::remove_file(&file).expect("the file");
    let told = told.expect("it runs");
    let begin = told.find("# the rules print:").expect("a difference");
    let (shown, _) = told[begin..].split_once("\nDIFFERS").expect("another");
    assert_eq!(lines(shown).len(), 1 + 3 + 1, "{shown}");
    let text = read(shown).expect("a right text");
    let printed = String::from_utf8(run(&text.input())).expect("a text");
    assert_eq!(printed, "S 4 2 1 0 0\nR 1 undecided\nR 2 undecided\n");
    assert!(shown.contains("# the command prints:\n#   S 4 2 1 0 0\n#   R 1 undecided\n#   R 2 skip\n# and ends well\n"));
}
