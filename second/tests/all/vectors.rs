//! The stored tables of the crate `vectors`.

use second::check::Refusal;
use second::vectors::{files, vectors, write, Stored};
use std::collections::BTreeSet;
use std::path::{Path, PathBuf};

fn stored() -> PathBuf {
    Path::new(env!("CARGO_MANIFEST_DIR")).join("../crates/vectors")
}

/// What is stored is what is made, and nothing else.
#[test]
fn stored_files_are_these() {
    let files = files();
    for Stored { path, bytes } in &files {
        let there = std::fs::read(stored().join(path)).expect(path);
        assert!(there == *bytes, "{path} is another");
    }
    let named = |entry: std::io::Result<std::fs::DirEntry>| {
        let name = entry.expect("the folder is read").file_name();
        format!("data/{}", name.to_str().expect("plain text"))
    };
    let folder = std::fs::read_dir(stored().join("data")).expect("data");
    let there: BTreeSet<String> = folder.map(named).collect();
    let made = files.into_iter().map(|file| file.path);
    let made: BTreeSet<String> = made.filter(|path| path.starts_with("data/")).collect();
    assert_eq!(there, made);
}

#[test]
fn small_but_for_two() {
    let lengths: Vec<usize> = files().iter().map(|file| file.bytes.len()).collect();
    let large = |least| lengths.iter().filter(|&&length| length > least).count();
    assert_eq!(large(150_000), 2);
    assert!(lengths.iter().sum::<usize>() < 1_700_000);
}

/// An argument is one word, and no two vectors share a name.
#[test]
fn names_are_words() {
    let vectors = vectors();
    let names: BTreeSet<&str> = vectors.iter().map(|v| v.name.as_str()).collect();
    assert_eq!(names.len(), vectors.len());
    let letter = |c: char| c.is_ascii_lowercase() || c.is_ascii_digit() || c == '_';
    assert!(names.iter().all(|name| name.chars().all(letter)));
}

/// Every refusal but 12, which only the program gives; those about a record at the first
/// that can have it, at a middle one and at the last. 9 is retired.
#[test]
fn every_refusal_is_given() {
    let given: BTreeSet<(u8, usize)> = vectors()
        .iter()
        .flat_map(|vector| vector.refusals())
        .flatten()
        .map(|Refusal { number, position }| (number, position))
        .collect();
    for number in [1, 2, 3, 10, 11] {
        assert!(given.contains(&(number, 0)), "{number}");
    }
    for number in [4, 5, 18, 19, 20, 6, 7, 8] {
        // The first record has no name before it.
        let first = usize::from(number == 6);
        for position in [first, 6, 11] {
            assert!(given.contains(&(number, position)), "{number} {position}");
        }
    }
    let numbers: BTreeSet<u8> = given.iter().map(|&(number, _)| number).collect();
    let all = [1, 2, 3, 4, 5, 6, 7, 8, 10, 11, 18, 19, 20];
    assert_eq!(numbers, BTreeSet::from(all));
}

/// A vector's name says what its answer is to be.
#[test]
fn names_say_the_answers() {
    for vector in vectors() {
        let (name, answer) = (vector.name.as_str(), vector.answer());
        let passes = name.ends_with("_passes");
        assert_eq!(passes, answer == "passed\n", "{name}");
        let found = name.contains("_found") && !name.contains("not_found");
        assert_eq!(found, answer.starts_with("found\npart 138\nV "), "{name}");
        if let Some((first, _)) = name.split_once("_before_") {
            assert!(answer.starts_with(&format!("X {first} ")), "{name}");
        }
    }
}

fn answer_of(name: &str) -> String {
    let named = vectors().into_iter().find(|vector| vector.name == name);
    named.expect("it is there").answer()
}

/// The first settlement of P1 to P14 begins as document 01 says.
#[test]
fn examples_are_those_of_the_document() {
    let first_lines = [
        ("p1", "S 0 0 1 0 0"),
        ("p2", "S 12 3 2 1 0"),
        ("p3", "S 11 3 2 1 0"),
        ("p4", "S 10 3 1 0 0"),
        ("p5", "S 6 2 2 0 0"),
        ("p6", "S 5 2 1 0 0"),
        ("p7", "S 24 6 5 13 0"),
        ("p8", "S 24 6 5 11 0"),
        ("p9", "S 9 2 1 0 1"),
        ("p10", "X 5 0"),
        ("p11", "X 4 0"),
        ("p12", "X 6 1"),
        ("p13", "X 7 3"),
        ("p14", "X 8 3"),
    ];
    for (name, line) in first_lines {
        let checked = match line.starts_with('S') {
            true => "passed",
            false => line,
        };
        let begin = format!("{checked}\n{line}\n");
        assert!(answer_of(name).starts_with(&begin), "{name}");
    }
}

/// P7 in full: exact buffers, each one short, longer and empty in turn.
#[test]
fn all_that_is_lent_is_shown() {
    let answer = answer_of("p7");
    let exact = "\
V 4 3 1
cells 2 7 12 17 0*2
order 0 1 2 3 5 6 7 10 4 8 9 11 15 9999*11
taken 1*12 0*3 1 0*8
X 10 0
cells 9999*5
order 9999*24
taken 9*24
";
    assert!(answer.contains(exact), "{answer}");
    let longer = "\
cells 2 7 12 17 0*2 9999*2
order 0 1 2 3 5 6 7 10 4 8 9 11 15 9999*13
taken 1*12 0*3 1 0*8 9*2
";
    assert!(answer.contains(longer), "{answer}");
    let empty = "X 10 0\ncells\norder\ntaken\n";
    assert!(answer.ends_with(empty), "{answer}");
    assert_eq!(answer.matches("X 10 0\n").count(), 8);
    assert_eq!(answer.matches("S 24 6 5 13 0\n").count(), 5);
}

/// All a settlement can come to is among the vectors.
#[test]
fn settlements_reach_every_decision() {
    for (name, line) in [
        ("p7", "R 1 commit 0 1"),
        ("p8", "R 1 skip"),
        ("undecided_round_stops_the_search", "R 1 undecided"),
        ("skipped_round_does_not", "R 1 commit 0 1"),
        ("past_f_lowest_mark", "R 1 commit 0 2"),
        ("past_f_lowest_that_qualifies", "R 1 commit 0 256"),
        ("past_f_lowest_through_an_anchor", "R 1 commit 0 2"),
        ("past_f_lowest_in_the_history", "R 1 commit 0 256"),
        ("past_f_commit_though_blank", "R 1 commit 0 1"),
        ("past_f_skip_without_commit", "R 1 skip"),
        ("past_f_skip_though_anchored", "R 1 skip"),
        ("twins_alone", "R 1 skip"),
        ("twins_certified", "R 1 commit 0 127"),
        ("twins_certified_in_the_third_part", "R 1 commit 0 255"),
        ("twins_through_an_anchor", "R 1 commit 0 128"),
        ("records_4096", "R 1364 skip"),
    ] {
        let answer = answer_of(name);
        assert!(answer.lines().any(|told| told == line), "{name}: {answer}");
    }
}

#[test]
fn every_file_is_written() {
    let folder = std::env::temp_dir().join(format!("second-vectors-{}", std::process::id()));
    let count = write(&folder).expect("it is written");
    assert_eq!(count, files().len());
    for Stored { path, bytes } in files() {
        let there = std::fs::read(folder.join(&path)).expect(&path);
        assert!(there == bytes, "{path} is another");
    }
    std::fs::remove_dir_all(folder).expect("it is removed");
}
