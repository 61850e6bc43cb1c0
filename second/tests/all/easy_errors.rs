//! For each of the "Easy errors here" of document 01, and for counts that are off
//! by one, a table on which the error would give another answer.

use second::examples::{
    blank_by_two_authors, certified_by_two_authors, p7, p7_up_to, p8, skipped_in_between,
    supporting, undecided_in_between,
};
use second::made::Made;

/// Three vertices of round 3 certify, of two authors.
#[test]
fn certifying_authors_are_counted_and_not_vertices() {
    let mut made = certified_by_two_authors();
    let expected = "\
S 11 3 1 0 1
R 1 undecided
R 2 undecided
R 3 undecided
";
    assert_eq!(made.prints(), expected);
    // A third author makes it a commit.
    made.one(3, 3, &[0, 1, 2, 3]);
    assert_eq!(made.settled().cells[..3], [2, 0, 0]);
}

/// Three vertices of round 2 are blank, of two authors.
#[test]
fn blank_authors_are_counted_and_not_vertices() {
    let mut made = blank_by_two_authors();
    let expected = "\
S 7 2 1 0 1
R 1 undecided
R 2 undecided
";
    assert_eq!(made.prints(), expected);
    made.one(2, 3, &[1, 2, 3]);
    assert_eq!(made.settled().cells[..2], [1, 0]);
}

/// Round 2 is committed, and its history has no certificate for round 1. Looked
/// at as an anchor it would make round 1 skipped.
#[test]
fn the_search_does_not_start_at_r_plus_1() {
    let expected = "\
S 16 4 1 0 0
R 1 undecided
R 2 commit 1 1
R 3 undecided
R 4 undecided
";
    assert_eq!(p7_up_to(4).prints(), expected);
}

/// The same with round 3.
#[test]
fn the_search_does_not_start_at_r_plus_2() {
    let expected = "\
S 20 5 1 0 0
R 1 undecided
R 2 commit 1 1
R 3 commit 2 1
R 4 undecided
R 5 undecided
";
    assert_eq!(p7_up_to(5).prints(), expected);
}

/// Round 4 alone is committed among the rounds above 3; a search from r+4 would
/// find nothing for round 1.
#[test]
fn the_search_does_not_start_at_r_plus_4() {
    assert_eq!(p7().settled().cells[..6], [2, 7, 12, 17, 0, 0]);
}

/// Round 4 is undecided, half for and half blank. Round 5 is committed and its
/// history has the certificate for round 1.
#[test]
fn an_undecided_round_is_not_passed_over() {
    let expected = "\
S 28 7 1 0 0
R 1 undecided
R 2 commit 1 1
R 3 commit 2 1
R 4 undecided
R 5 commit 0 1
R 6 undecided
R 7 undecided
";
    assert_eq!(undecided_in_between().prints(), expected);
}

/// Round 4 is skipped, so the search goes on to round 5.
#[test]
fn a_skipped_round_is_passed_over() {
    let expected = "\
S 28 7 6 17 0
R 1 commit 0 1
R 2 commit 1 1
R 3 commit 2 1
R 4 skip
R 5 commit 0 1
R 6 undecided
R 7 undecided
V 1 0 1
V 1 1 1
V 1 2 1
V 1 3 1
V 2 1 1
V 2 2 1
V 2 3 1
V 3 2 1
V 2 0 1
V 3 0 1
V 3 1 1
V 3 3 1
V 4 0 1
V 4 1 1
V 4 2 1
V 4 3 1
V 5 0 1
";
    assert_eq!(skipped_in_between().prints(), expected);
}

/// (3,0) certifies and is not in the history of (4,3); but (4,0) and others have
/// it in theirs.
#[test]
fn the_certificate_is_looked_for_in_the_anchors_history() {
    assert_eq!(p8().settled().cells[..6], [1, 7, 12, 17, 0, 0]);
}

/// Two support mark 1 and two mark 2; four reference the leader one way or other.
#[test]
fn a_reference_to_one_leader_vertex_is_no_support_for_the_other() {
    let expected = "\
S 13 3 1 0 1
R 1 undecided
R 2 undecided
R 3 undecided
";
    assert_eq!(supporting([1, 1, 2, 2]).prints(), expected);
}

/// The second of the leader's vertices is the one with support.
#[test]
fn the_supported_mark_is_committed() {
    let expected = "\
S 13 3 2 1 1
R 1 commit 0 2
R 2 undecided
R 3 undecided
V 1 0 2
";
    assert_eq!(supporting([1, 2, 2, 2]).prints(), expected);
}

/// A vertex of round 3 with references to two supporters and one other does not
/// certify, and one with references to three supporters does.
#[test]
fn a_certificate_takes_2f_plus_1_supporters() {
    let mut made = Made::new(4);
    made.full(1);
    made.some(2, &[0, 1, 2]);
    made.one(2, 3, &[1, 2, 3]);
    for author in 0..4 {
        made.one(3, author, &[1, 2, 3]);
    }
    assert_eq!(made.settled().cells[..3], [0, 0, 0]);
    for vertex in &mut made.vertices[8..11] {
        vertex.refs[0] = 1;
    }
    assert_eq!(made.settled().cells[..3], [2, 0, 0]);
}

/// Commit and skip go by 2f+1 for a larger n too, and leaders by n.
#[test]
fn seven_authors() {
    let mut made = Made::new(7);
    for round in 1..=7 {
        made.full(round);
    }
    made.some(8, &[0, 1, 2, 3]);
    assert_eq!(made.settled().counts().first_undecided, 6);
    made.some(8, &[4]);
    assert_eq!(made.settled().counts().first_undecided, 7);
    made.some(8, &[5, 6]);
    for author in 0..4 {
        made.one(9, author, &[0, 2, 3, 4, 5, 6]);
    }
    // The leader of round 8 is author 0, whom all reference; that of round 9 is
    // author 1.
    let lines = made.prints();
    assert!(lines.contains("\nR 5 commit 4 1\nR 6 commit 5 1\nR 7 undecided\n"));
    made.full(10);
    assert_eq!(made.prints(), "X 8 60\n");
}

#[test]
fn five_of_seven_blank_is_a_skip() {
    let mut made = Made::new(7);
    made.full(1);
    for author in 0..4 {
        made.one(2, author, &[1, 2, 3, 4, 5]);
    }
    made.some(2, &[4, 5]);
    assert_eq!(made.settled().cells[..2], [0, 0]);
    made.one(2, 6, &[1, 2, 3, 4, 5]);
    assert_eq!(made.settled().cells[..2], [1, 0]);
}

/// A leader's missing vertex does not by itself make a skip or an error.
#[test]
fn no_leader_vertex_and_one_round() {
    let mut made = Made::new(4);
    made.some(1, &[1, 2, 3]);
    assert_eq!(made.prints(), "S 3 1 1 0 0\nR 1 undecided\n");
}

/// What two leaders reach is written once, and in table order for each leader.
#[test]
fn histories_are_written_once() {
    let mut made = Made::new(4);
    for round in 1..=5 {
        made.full(round);
    }
    let given = made.settled();
    assert_eq!(given.cells[..5], [2, 7, 12, 0, 0]);
    assert_eq!(given.written(), [0, 1, 2, 3, 5, 4, 6, 7, 10]);
    assert_eq!(given.counts().written, 9);
}
