//! The binary's sub-commands.

use crate::stored::folder;
use second::examples::{p2, p7};
use second::generate::{input, Kind};
use std::io::Write;
use std::process::{Command, Output, Stdio};

/// Runs the binary with these arguments and this standard input.
fn second(arguments: &[&str], standard_input: &[u8]) -> Output {
    let mut child = Command::new(env!("CARGO_BIN_EXE_second"))
        .args(arguments)
        .stdin(Stdio::piped())
        .stdout(Stdio::piped())
        .stderr(Stdio::piped())
        .spawn()
        .expect("the binary starts");
    let mut pipe = child.stdin.take().expect("it was asked for");
    // A sub-command that reads nothing may have ended before.
    let _ = pipe.write_all(standard_input);
    drop(pipe);
    child.wait_with_output().expect("the binary ends")
}

#[test]
fn settle_reads_standard_input() {
    let made = p7();
    let output = second(&["settle"], &[vec![4], made.table()].concat());
    assert!(output.status.success());
    assert_eq!(output.stdout, made.prints().into_bytes());
    assert_eq!(second(&["settle"], &[]).stdout, b"X 1 0\n");
    assert_eq!(second(&["settle"], &[4]).stdout, b"S 0 0 1 0 0\n");
    assert_eq!(second(&["settle"], &[4; 65_414]).stdout, b"X 12 0\n");
}

/// The text form there and back, from a file and from standard input.
#[test]
fn table_and_text_undo_each_other() {
    let input = [vec![4], p7().table()].concat();
    let text = second(&["text"], &input).stdout;
    assert_eq!(second(&["table", "-"], &text).stdout, input);
    let stored = folder().join("p07.txt");
    let stored = stored.to_str().expect("a plain path");
    assert_eq!(second(&["table", stored], &[]).stdout, input);
}

#[test]
fn draw_writes_a_picture() {
    let output = second(&["draw", "-"], b"authors 4\nround 1 author 0\n");
    assert!(output.status.success());
    assert!(output.stdout.starts_with(b"<svg "));
    assert!(output.stdout.ends_with(b"</svg>\n"));
}

#[test]
fn a_wrong_text_is_told_with_file_and_line() {
    for (arguments, standard_input, told) in [
        (
            ["table", "-"],
            "authors 4\nround x\n",
            "second: -: line 2: ",
        ),
        (["table", "-"], "\u{7f}\n", "second: -: line 1: "),
        (["table", "none.txt"], "", "second: none.txt: "),
    ] {
        let output = second(&arguments, standard_input.as_bytes());
        assert_eq!(output.status.code(), Some(2));
        assert!(output.stdout.is_empty());
        let error = String::from_utf8_lossy(&output.stderr);
        assert!(error.starts_with(told), "{error}");
    }
    let output = second(&["table", "-"], &[0xFF]);
    assert_eq!(output.stderr, b"second: -: not a text in UTF-8\n");
}

#[test]
fn generate_writes_an_input() {
    let output = second(&["generate", "--kind", "TwinsPastF", "--seed", "7"], &[]);
    assert!(output.status.success());
    assert_eq!(output.stdout, input(Kind::TwinsPastF, 7));
}

#[test]
fn shares_and_help_print() {
    let output = second(&["shares", "--cases", "50", "--seed", "1"], &[]);
    assert!(output.status.success());
    assert!(output.stdout.starts_with(b"50 cases"));
    assert!(second(&["help"], &[]).status.success());
}

/// A program that prints what it reads is wrong on every input.
#[test]
fn another_program_is_told_apart() {
    let words = ["program", "--runner", "cat", "--cases", "60", "--seed", "1"];
    let output = second(&words, &[]);
    assert_eq!(output.status.code(), Some(1));
    assert!(output.stdout.ends_with(b"\n0 passed, 60 failed\n"));
}

#[test]
fn unknown_arguments_are_told() {
    for arguments in [
        &[][..],
        &["nothing"],
        &["settle", "more"],
        &["generate", "--kind", "None", "--seed", "1"],
        &["generate", "--kind", "Full", "--seed", "x"],
        &["shares", "--cases", "-1", "--seed", "1"],
    ] {
        let output = second(arguments, &p2().table());
        assert_eq!(output.status.code(), Some(2), "{arguments:?}");
        assert!(output.stdout.is_empty());
        assert!(!output.stderr.is_empty());
    }
}

/// A binary that does not have the proved code says so.
#[cfg(not(feature = "library"))]
#[test]
fn without_the_library_is_told() {
    let compare = ["compare", "--cases", "1", "--seed", "1"];
    for arguments in [&compare[..], &["attack"], &["bench"]] {
        let output = second(arguments, &[]);
        assert_eq!(output.status.code(), Some(2), "{arguments:?}");
        assert!(output.stdout.is_empty());
        let told = String::from_utf8_lossy(&output.stderr);
        assert!(told.contains("built without the library"), "{told}");
    }
}
