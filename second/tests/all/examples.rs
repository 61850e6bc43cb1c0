//! The examples of document 01: sums, P1 to P14, and those that are run.

use second::examples::{p13_or_p14, p2, p5, p_tables, padded};
use second::made::{prints, vertex};
use second::record::{decode, encode, encode_mended, sum_of};

#[test]
fn sums() {
    let first = vertex(1, 0, 1, &[]);
    assert_eq!(sum_of(&encode(&first)), 2);

    let mut second = vertex(2, 3, 1, &[(0, 1), (1, 1), (2, 1), (3, 1)]);
    second.batches = 5;
    assert_eq!(sum_of(&encode(&second)), 15);

    let mut third = vertex(1, 2, 65_535, &[]);
    third.batches = 65_535;
    assert_eq!(sum_of(&encode(&third)), 1);
}

/// The record's layout, byte by byte.
#[test]
fn layout() {
    let mut bytes = [0; 138];
    bytes[0..4].copy_from_slice(&[0x11, 0x22, 0x33, 0x44]);
    bytes[4..8].copy_from_slice(&[0x55, 0x66, 0x77, 0x88]);
    bytes[8..12].copy_from_slice(&[1, 2, 3, 4]);
    bytes[128..132].copy_from_slice(&[5, 6, 7, 8]);
    bytes[132..134].copy_from_slice(&[9, 10]);
    bytes[134] = 30;
    bytes[135] = 7;
    bytes[136..138].copy_from_slice(&[11, 12]);
    let vertex = decode(&bytes);
    assert_eq!(vertex.round, 0x4433_2211);
    assert_eq!(vertex.mark, 0x8877_6655);
    assert_eq!(vertex.refs[0], 0x0403_0201);
    assert_eq!(vertex.refs[1..30], [0; 29]);
    assert_eq!(vertex.refs[30], 0x0807_0605);
    assert_eq!(vertex.batches, 0x0A09);
    assert_eq!(vertex.author, 30);
    assert_eq!(vertex.padding, 7);
    assert_eq!(vertex.sum, 0x0C0B);
    assert_eq!(encode(&vertex), bytes);
}

/// Lines that the document says of P1 to P14; `examples/` has what each prints in whole.
#[test]
fn p1_to_p14() {
    let said: [&[&str]; 14] = [
        &["S 0 0 1 0 0"],
        &["S 12 3 2 1 0"],
        &["R 1 commit 0 1"],
        &["R 1 undecided"],
        &["S 6 2 2 0 0", "R 1 skip"],
        &["S 5 2 1 0 0"],
        &["S 24 6 5 13 0", "R 1 commit 0 1"],
        &["S 24 6 5 11 0", "R 1 skip"],
        &["S 9 2 1 0 1", "R 1 undecided"],
        &["X 5 0"],
        &["X 4 0"],
        &["X 6 1"],
        &["X 7 3"],
        &["X 8 3"],
    ];
    for (number, (table, lines)) in (1..).zip(p_tables().into_iter().zip(said)) {
        let printed = prints(4, &table);
        for wanted in lines {
            let there = printed.lines().any(|line| line == *wanted);
            assert!(there, "P{number}: {wanted}\n{printed}");
        }
    }
}

/// The one that the document has in whole.
#[test]
fn p2_full() {
    let expected = "\
S 12 3 2 1 0
R 1 commit 0 1
R 2 undecided
R 3 undecided
V 1 0 1
";
    assert_eq!(p2().prints(), expected);
}

/// P6 and P13, P14, whichever author it is; and P11 with other wrong sums.
#[test]
fn it_does_not_matter_which_one() {
    for author in 1..=3 {
        let p6 = p5().without(2, author).prints();
        assert!(p6.starts_with("S 5 2 1 0 0\n"), "{p6}");
    }
    for author in 0..4 {
        assert_eq!(p13_or_p14(author, &[0, 1]).prints(), "X 7 3\n");
        assert_eq!(p13_or_p14(author, &[1, 2, 3]).prints(), "X 8 3\n");
    }
    // One that doesn't count the padding is wrong too: it is byte 135, the high half of a word.
    for off in [65_535, 0u16.wrapping_sub(256)] {
        assert_eq!(prints(4, &padded(off)), "X 4 0\n");
    }
}

#[test]
fn author_counts() {
    let table = p2().table();
    assert_eq!(prints(5, &table), "X 1 0\n");
    assert_eq!(prints(34, &table), "X 1 0\n");
    for n in 0..=255 {
        let right = [4, 7, 10, 13, 16, 19, 22, 25, 28, 31].contains(&n);
        let expected = if right { "S 0 0 1 0 0\n" } else { "X 1 0\n" };
        assert_eq!(prints(n, &[]), expected, "n = {n}");
    }
}

#[test]
fn one_byte_less_than_a_record() {
    let record = encode_mended(&vertex(1, 0, 1, &[]));
    assert_eq!(prints(4, &record[..137]), "X 2 0\n");
    assert_eq!(prints(4, &record), "S 1 1 1 0 0\nR 1 undecided\n");
}
