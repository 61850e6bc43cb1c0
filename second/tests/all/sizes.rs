//! Tables of 4,096 and 4,097 records, and as many rounds as there can be.

use second::authors::quorum;
use second::check::{check, MOST_ROUNDS};
use second::examples::tallest;
use second::made::{refusal, Made};
use second::settle::{settle, Lent, Outcome};

/// Each author count, and the most rounds that a table for it can have: one on top of as many
/// as 4,095 records suffice for, with 2f+1 in each.
const MOST: [(u8, u32); 10] = [
    (4, 1_366),
    (7, 820),
    (10, 586),
    (13, 456),
    (16, 373),
    (19, 316),
    (22, 274),
    (25, 241),
    (28, 216),
    (31, 196),
];

/// 1,024 full rounds.
#[test]
fn records_4_096() {
    let made = Made::full_rounds(4, 4_096);
    let table = made.table();
    assert_eq!(check(4, &table), Ok(()));
    let counts = made.settled().counts();
    assert_eq!(counts.records, 4_096);
    assert_eq!(counts.highest_round, 1_024);
    assert_eq!(counts.first_undecided, 1_023);
    // (1022,1) and all of 1,021 rounds.
    assert_eq!(counts.written, 4_085);
    assert_eq!(counts.equivocators, 0);
}

#[test]
fn records_4_097() {
    let made = Made::full_rounds(4, 4_097);
    assert_eq!(check(4, &made.table()), Err(refusal(3, 0)));
    let outcome = settle(4, &made.table(), &mut Lent::enough(0));
    assert_eq!(outcome, Outcome::Refused(refusal(3, 0)));
}

/// The most rounds that a table can have.
#[test]
fn rounds_1_366() {
    let given = tallest(4).settled();
    let counts = given.counts();
    assert_eq!(counts.records, 4_096);
    assert_eq!(counts.highest_round, 1_366);
    assert_eq!(counts.first_undecided, 1_365);
    // Author 3 has no vertex and leads every fourth round.
    for round in 1..=1_364 {
        let expected = match (round - 1) % 4 {
            3 => 1,
            leader => 2 + 3 * (round - 1) + leader,
        };
        assert_eq!(given.cells[round as usize - 1], expected);
    }
    assert_eq!(given.cells[1_364..1_367], [0, 0, 99_999]);
}

/// The tallest table for each count needs exactly so many cells, and none needs more than
/// 1,366.
#[test]
fn the_most_rounds_for_every_count() {
    for (n, rounds) in MOST {
        let table = tallest(n).table();
        assert_eq!(table.len(), 138 * 4_096);
        assert_eq!(check(n, &table), Ok(()), "n = {n}");
        let settled_in = |cells: u32| {
            let mut lent = Lent::filled(cells as usize, 4_096, 4_096, 99_999, 99);
            (settle(n, &table, &mut lent), lent.cells)
        };
        let (outcome, cells) = settled_in(rounds);
        let Outcome::Settled(counts) = outcome else {
            panic!("n = {n}: {outcome:?}");
        };
        assert_eq!((counts.records, counts.highest_round), (4_096, rounds));
        assert!(!cells.contains(&99_999), "n = {n}");
        let (outcome, cells) = settled_in(rounds - 1);
        assert_eq!(outcome, Outcome::Refused(refusal(10, 0)), "n = {n}");
        assert!(cells.iter().all(|&cell| cell == 99_999), "n = {n}");
        assert!(rounds <= MOST_ROUNDS);
    }
}

/// One record in the round above these, each of which has 2f+1.
fn one_above(n: u8, rounds: u32) -> Made {
    let made = Made::thin_rounds(n, quorum(n) * rounds as usize + 1);
    assert_eq!(made.vertices.last().map(|v| v.round), Some(rounds + 1));
    made
}

/// One round more, with all records that it stands on: they are 4,097 or more.
#[test]
fn one_round_more_has_too_many_records() {
    for (n, rounds) in MOST {
        let made = one_above(n, rounds);
        assert!(made.vertices.len() > 4_096, "n = {n}");
        assert_eq!(check(n, &made.table()), Err(refusal(3, 0)), "n = {n}");
        // The same with one round fewer passes, so nothing else is wrong with it.
        assert_eq!(check(n, &one_above(n, rounds - 1).table()), Ok(()));
    }
}

/// One round more, and as many records of one round below it are left out as are too many:
/// those of its highest authors, with n = 4 all three. The first record of the round above
/// that one stands where they began, and it names them (8) or has too few entries (7).
#[test]
fn one_round_more_within_4_096_records() {
    for (n, rounds) in MOST {
        for round in [1, 2, rounds / 2, rounds] {
            let mut made = one_above(n, rounds);
            let end = quorum(n) * round as usize;
            let begin = end - (made.vertices.len() - 4_096);
            let left_out = made.vertices.drain(begin..end);
            let authors: Vec<usize> = left_out.map(|v| usize::from(v.author)).collect();
            let case = format!("n = {n}, round {round}");
            assert_eq!(made.vertices.len(), 4_096, "{case}");
            assert_eq!(check(n, &made.table()), Err(refusal(8, begin)), "{case}");
            for vertex in made.vertices.iter_mut().filter(|v| v.round == round + 1) {
                authors.iter().for_each(|&author| vertex.refs[author] = 0);
            }
            assert_eq!(check(n, &made.table()), Err(refusal(7, begin)), "{case}");
        }
    }
}

/// 4,096 vertices of one author in one round.
#[test]
fn one_author_with_every_record() {
    let mut made = Made::new(4);
    for mark in 1..=4_096 {
        made.put(1, 0, mark, &[]);
    }
    let counts = made.settled().counts();
    assert_eq!((counts.records, counts.highest_round), (4_096, 1));
    assert_eq!((counts.first_undecided, counts.equivocators), (1, 1));
}
