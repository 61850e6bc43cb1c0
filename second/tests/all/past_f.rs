//! More than f equivocators: the lowest mark and commit before skip make a
//! difference here, and nowhere else.

use second::examples::{
    blank_and_certified, blank_with_an_anchor, both_certified, both_in_the_anchors_history,
    the_higher_in_the_anchors_history, twins_alone, twins_certified, twins_through_an_anchor,
};
use second::made::Made;

/// Both leader vertices are certified by all four authors.
#[test]
fn the_lowest_mark_is_committed_directly() {
    let expected = "\
S 21 3 2 1 4
R 1 commit 0 2
R 2 undecided
R 3 undecided
V 1 0 2
";
    assert_eq!(both_certified(4).prints(), expected);
}

/// The same where only the higher one has 2f+1 certifying authors.
#[test]
fn the_lowest_that_qualifies_is_committed_directly() {
    let printed = both_certified(2).prints();
    assert!(printed.starts_with("S 19 3 2 1 4\nR 1 commit 0 256\n"));
}

#[test]
fn the_lowest_mark_is_committed_through_an_anchor() {
    let printed = both_in_the_anchors_history().prints();
    let lines: Vec<&str> = printed.lines().take(7).collect();
    assert_eq!(lines[1], "R 1 commit 0 2");
    assert_eq!(lines[4], "R 4 commit 3 1");
}

#[test]
fn the_lowest_in_the_anchors_history_is_committed() {
    let printed = the_higher_in_the_anchors_history().prints();
    let lines: Vec<&str> = printed.lines().take(7).collect();
    assert_eq!(lines[1], "R 1 commit 0 256");
    assert_eq!(lines[4], "R 4 commit 3 1");
}

#[test]
fn commit_is_tried_before_skip() {
    // Two certify: not enough, and so the blank ones count.
    assert_eq!(blank_and_certified(2).settled().cells[..3], [1, 0, 0]);
    // Three do: the blank ones are not asked.
    let expected = "\
S 15 3 2 1 4
R 1 commit 0 1
R 2 undecided
R 3 undecided
V 1 0 1
";
    assert_eq!(blank_and_certified(3).prints(), expected);
}

/// Three hundred vertices of the leader: nobody's, then two that qualify.
#[test]
fn hundreds_of_twins() {
    assert_eq!(twins_alone(300).settled().cells[..3], [1, 2 + 303, 0]);
    let direct = twins_certified(300, &[255, 300]).settled();
    assert_eq!(direct.cells[..3], [2 + 254, 0, 0]);
    assert_eq!(direct.counts().equivocators, 4);
    let indirect = twins_through_an_anchor(300, [127, 254]).settled();
    assert_eq!(indirect.cells[0], 2 + 126);
}

/// An anchor's certificate is not asked where a direct skip is there.
#[test]
fn skip_is_tried_before_the_anchor() {
    let given = blank_with_an_anchor().settled();
    assert_eq!(given.cells[0], 1);
    assert_eq!(given.cells[3], 2 + 19);
    assert_eq!(given.counts().equivocators, 4);
}

/// One blank author of three is blank through the second of its two vertices.
#[test]
fn an_author_is_blank_by_any_of_its_vertices() {
    let mut made = Made::new(4);
    made.full(1);
    made.one(2, 0, &[0, 1, 2, 3]);
    made.one(2, 1, &[0, 1, 2, 3]);
    made.twin(2, 1, 2, &[1, 2, 3]);
    made.one(2, 2, &[1, 2, 3]);
    assert_eq!(made.settled().cells[..2], [0, 0]);
    made.one(2, 3, &[1, 2, 3]);
    assert_eq!(made.settled().cells[..2], [1, 0]);
}
