//! Every part of the checks of a record, and which of several failing checks answers.

use second::check::{check, Refusal};
use second::examples::p2;
use second::made::{refusal, vertex, Made};
use second::record::{encode, encode_mended, Vertex};

fn checked(made: &Made) -> Result<(), Refusal> {
    check(made.n, &made.table())
}

/// P2 with one record changed, its sum right.
fn changed(position: usize, how: impl FnOnce(&mut Vertex)) -> Result<(), Refusal> {
    let mut made = p2();
    how(&mut made.vertices[position]);
    checked(&made)
}

#[test]
fn every_byte_is_summed() {
    let table = p2().table();
    for at in 0..table.len() {
        let mut damaged = table.clone();
        damaged[at] ^= 0x80;
        assert_eq!(check(4, &damaged), Err(refusal(4, at / 138)), "byte {at}");
    }
}

#[test]
fn five_for_every_padding_but_0() {
    for padding in 1..=255 {
        assert_eq!(changed(6, |v| v.padding = padding), Err(refusal(5, 6)));
    }
}

#[test]
fn eighteen_and_nineteen() {
    assert_eq!(changed(6, |v| v.round = 0), Err(refusal(18, 6)));
    assert_eq!(changed(6, |v| v.mark = 0), Err(refusal(19, 6)));
    // Only the whole number is 0 or is not.
    assert_eq!(changed(11, |v| v.mark = 256), Ok(()));
    assert_eq!(changed(11, |v| v.mark = 0x100_0000), Ok(()));
    assert_eq!(changed(11, |v| v.round = 256), Err(refusal(8, 11)));
}

/// The last record of a round may be of any author that there is.
#[test]
fn twenty_for_every_author_past_the_last() {
    for author in 4..=255 {
        assert_eq!(changed(11, |v| v.author = author), Err(refusal(20, 11)));
    }
    assert_eq!(changed(11, |v| v.author = 3), Ok(()));
}

#[test]
fn zero_is_ordinary_for_author_and_batches() {
    assert_eq!(changed(0, |v| v.batches = 0), Ok(()));
    assert_eq!(changed(0, |v| v.batches = 65_535), Ok(()));
    assert_eq!(decoded_author(&p2()), 0);
}

fn decoded_author(made: &Made) -> u8 {
    second::record::decode(&made.table()[..138]).author
}

#[test]
fn six_by_round_then_author_then_mark() {
    // Two records of round 1 whose names are in this order or the other.
    for (low, high) in [((0, 1), (1, 1)), ((0, 9), (1, 1)), ((2, 1), (2, 2))] {
        let mut made = Made::new(4);
        made.put(1, low.0, low.1, &[]);
        made.put(1, high.0, high.1, &[]);
        assert_eq!(checked(&made), Ok(()));
        made.vertices.swap(0, 1);
        assert_eq!(checked(&made), Err(refusal(6, 1)));
    }
    // A higher author and mark do not help against a lower round.
    let mut made = p2();
    made.put(1, 3, 2, &[]);
    assert_eq!(checked(&made), Err(refusal(6, 12)));
}

/// 2 is below 256 and 65,535 below 65,536, though not byte by byte.
#[test]
fn six_goes_by_numbers() {
    for (low, high) in [(2, 256), (65_535, 65_536), (1, u32::MAX)] {
        let mut made = Made::new(4);
        made.put(1, 0, low, &[]);
        made.put(1, 0, high, &[]);
        assert_eq!(checked(&made), Ok(()));
        made.vertices.swap(0, 1);
        assert_eq!(checked(&made), Err(refusal(6, 1)));
    }
}

#[test]
fn seven() {
    assert_eq!(changed(1, |v| v.refs[0] = 1), Err(refusal(7, 1)));
    assert_eq!(changed(1, |v| v.refs[30] = 1), Err(refusal(7, 1)));
    assert_eq!(changed(5, |v| v.refs[4] = 1), Err(refusal(7, 5)));
    assert_eq!(changed(5, |v| v.refs[30] = u32::MAX), Err(refusal(7, 5)));
    assert_eq!(changed(5, |v| v.refs[2] = 0), Ok(()));
    assert_eq!(changed(5, |v| v.refs[2..4].fill(0)), Err(refusal(7, 5)));
}

/// 2f+1 references for every n; one fewer is refused.
#[test]
fn seven_for_every_count() {
    for (n, quorum) in [(4, 3), (7, 5), (10, 7), (13, 9), (16, 11)]
        .into_iter()
        .chain([(19, 13), (22, 15), (25, 17), (28, 19), (31, 21)])
    {
        let mut made = Made::new(n);
        made.full(1);
        let authors: Vec<u8> = (n - quorum..n).collect();
        made.one(2, 0, &authors);
        assert_eq!(checked(&made), Ok(()), "n = {n}");
        made.one(2, 1, &authors[1..]);
        let position = usize::from(n) + 1;
        assert_eq!(checked(&made), Err(refusal(7, position)), "n = {n}");
    }
}

#[test]
fn eight() {
    // No such mark; no such record because it comes later; no such round.
    assert_eq!(changed(5, |v| v.refs[2] = 2), Err(refusal(8, 5)));
    assert_eq!(changed(5, |v| v.refs[2] = 0x101), Err(refusal(8, 5)));
    assert_eq!(changed(11, |v| v.round = 4), Err(refusal(8, 11)));
    let mut made = p2();
    let moved = made.vertices.remove(0);
    made.vertices.push(moved);
    assert_eq!(checked(&made), Err(refusal(8, 3)));
    // References go to the round before and to no other.
    let mut made = p2().without(2, 3);
    made.vertices.truncate(7);
    made.one(3, 0, &[1, 2, 3]);
    assert_eq!(checked(&made), Err(refusal(8, 7)));
}

/// No check is left that bounds a round, 9 is retired: a far round is refused by 8, since the
/// round below it isn't there.
#[test]
fn eight_for_far_rounds() {
    for round in [1_400, 1_401, 65_537, u32::MAX] {
        assert_eq!(changed(11, |v| v.round = round), Err(refusal(8, 11)));
        let mut alone = Made::new(4);
        alone.one(round, 0, &[0, 1, 2]);
        assert_eq!(checked(&alone), Err(refusal(8, 0)));
    }
}

#[test]
fn of_checks_1_to_3_the_earliest() {
    let too_many = vec![0; 138 * 4_097];
    let odd = vec![0; 138 * 4_097 + 1];
    assert_eq!(check(5, &odd), Err(refusal(1, 0)));
    assert_eq!(check(5, &too_many), Err(refusal(1, 0)));
    assert_eq!(check(4, &odd), Err(refusal(2, 0)));
    assert_eq!(check(4, &too_many), Err(refusal(3, 0)));
    // The records are all bad, which is seen only after 3.
    let mut marked = vec![1; 138 * 4_096];
    assert_eq!(check(4, &marked), Err(refusal(4, 0)));
    marked.push(1);
    assert_eq!(check(4, &marked), Err(refusal(2, 0)));
}

/// One record that fails everything, mended from check to check.
#[test]
fn of_the_checks_of_a_record_the_earliest() {
    let mut made = p2();
    let mut bad = vertex(0, 4, 0, &[(0, 7), (30, 1)]);
    bad.padding = 1;
    made.vertices[6] = bad;
    let mut table = made.table();
    table[6 * 138 + 136] ^= 1;
    assert_eq!(check(4, &table), Err(refusal(4, 6)));
    assert_eq!(checked(&made), Err(refusal(5, 6)));
    made.vertices[6].padding = 0;
    assert_eq!(checked(&made), Err(refusal(18, 6)));
    made.vertices[6].round = 1;
    assert_eq!(checked(&made), Err(refusal(19, 6)));
    made.vertices[6].mark = 1;
    assert_eq!(checked(&made), Err(refusal(20, 6)));
    made.vertices[6].author = 2;
    assert_eq!(checked(&made), Err(refusal(6, 6)));
    made.vertices[6].round = 2;
    assert_eq!(checked(&made), Err(refusal(7, 6)));
    made.vertices[6].refs = vertex(2, 2, 1, &[(0, 7), (1, 1), (2, 1)]).refs;
    assert_eq!(checked(&made), Err(refusal(8, 6)));
    made.vertices[6].refs[0] = 1;
    assert_eq!(checked(&made), Ok(()));
}

/// All of an earlier record's checks come before any of a later one's.
#[test]
fn of_records_the_earliest() {
    let mut made = p2();
    made.vertices[5].refs[0] = 2;
    made.vertices[6].padding = 1;
    made.vertices[7].author = 2;
    let mut table = made.table();
    table[8 * 138] ^= 1;
    assert_eq!(check(4, &table), Err(refusal(8, 5)));
    table[5 * 138..6 * 138].copy_from_slice(&encode_mended(&p2().vertices[5]));
    assert_eq!(check(4, &table), Err(refusal(5, 6)));
    table[6 * 138..7 * 138].copy_from_slice(&encode_mended(&p2().vertices[6]));
    assert_eq!(check(4, &table), Err(refusal(6, 7)));
    table[7 * 138..8 * 138].copy_from_slice(&encode_mended(&p2().vertices[7]));
    assert_eq!(check(4, &table), Err(refusal(4, 8)));
    // A record of zeros has a right sum and round 0.
    let zeros = encode(&vertex(0, 0, 0, &[]));
    assert_eq!(check(4, &zeros), Err(refusal(18, 0)));
}
