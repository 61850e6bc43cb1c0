//! Tables made by hand, each for one sentence of document 01: its examples P2 to P14,
//! tables on which an easy error shows, and tables with more than f equivocators.
//! All are for n = 4 but the largest. P1 is the table with no record.

use crate::made::{vertex, Made};
use crate::record::{encode, sum_of, MOST_RECORDS};

// ---- P2 to P14

/// Rounds 1 to 3 full.
pub fn p2() -> Made {
    Made::full_rounds(4, 12)
}

/// P2 without author 3 in round 3.
pub fn p3() -> Made {
    p2().without(3, 3)
}

/// P3 without author 2 in round 3.
pub fn p4() -> Made {
    p3().without(3, 2)
}

/// Authors 1, 2, 3 in two rounds.
pub fn p5() -> Made {
    let mut made = Made::new(4);
    made.some(1, &[1, 2, 3]);
    for author in 1..=3 {
        made.one(2, author, &[1, 2, 3]);
    }
    made
}

/// One round 2 vertex fewer.
pub fn p6() -> Made {
    p5().without(2, 3)
}

/// P7 up to a round.
pub fn p7_up_to(rounds: u32) -> Made {
    let mut made = Made::new(4);
    made.full(1);
    made.some(2, &[0, 1, 2]);
    made.one(2, 3, &[1, 2, 3]);
    made.one(3, 0, &[0, 1, 2]);
    made.one(3, 1, &[1, 2, 3]);
    made.one(3, 2, &[1, 2, 3]);
    made.one(3, 3, &[1, 2, 3]);
    for round in 4..=rounds {
        made.full(round);
    }
    made
}

/// A commit through the anchor in round 4.
pub fn p7() -> Made {
    p7_up_to(6)
}

/// P7, but (4,3) references 1, 2, 3.
pub fn p8() -> Made {
    let mut made = p7_up_to(3);
    made.some(4, &[0, 1, 2]);
    made.one(4, 3, &[1, 2, 3]);
    made.full(5);
    made.full(6);
    made
}

/// A second vertex of the leader, and one that supports each.
pub fn p9() -> Made {
    let mut made = two_leader_vertices(1, 2);
    made.one(2, 0, &[1, 2, 3]);
    made.one(2, 1, &[0, 1, 2, 3]);
    made.put(2, 2, 1, &[(0, 2), (1, 1), (2, 1), (3, 1)]);
    made.one(2, 3, &[1, 2, 3]);
    made
}

/// One round 1 record with padding 1, its sum off by this much: P10 by 0, P11 by 1.
pub fn padded(off: u16) -> Vec<u8> {
    let mut padded = vertex(1, 0, 1, &[]);
    padded.padding = 1;
    padded.sum = sum_of(&encode(&padded)).wrapping_add(off);
    encode(&padded).to_vec()
}

/// A record twice.
pub fn p12() -> Made {
    let mut made = Made::new(4);
    made.some(1, &[0, 0]);
    made
}

/// Round 1 of three authors, then a round 2 record of this author with these
/// references: P13 has 0, 1 and P14 has 1, 2, 3.
pub fn p13_or_p14(author: u8, authors: &[u8]) -> Made {
    let mut made = Made::new(4);
    made.some(1, &[0, 1, 2]);
    made.one(2, author, authors);
    made
}

/// The tables of P1 to P14, in this order.
pub fn p_tables() -> [Vec<u8>; 14] {
    [
        Vec::new(),
        p2().table(),
        p3().table(),
        p4().table(),
        p5().table(),
        p6().table(),
        p7().table(),
        p8().table(),
        p9().table(),
        padded(0),
        padded(1),
        p12().table(),
        p13_or_p14(0, &[0, 1]).table(),
        p13_or_p14(0, &[1, 2, 3]).table(),
    ]
}

// ---- easy errors

/// Three vertices of round 3 certify, of two authors.
pub fn certified_by_two_authors() -> Made {
    let mut made = Made::full_rounds(4, 8);
    made.one(3, 0, &[0, 1, 2, 3]);
    made.twin(3, 0, 2, &[0, 1, 2, 3]);
    made.one(3, 1, &[0, 1, 2, 3]);
    made
}

/// Three vertices of round 2 are blank, of two authors.
pub fn blank_by_two_authors() -> Made {
    let mut made = Made::full_rounds(4, 4);
    made.one(2, 1, &[1, 2, 3]);
    made.twin(2, 1, 2, &[1, 2, 3]);
    made.one(2, 2, &[1, 2, 3]);
    made
}

/// Round 4 is undecided, half for and half blank. Round 5 is committed and its
/// history has the certificate for round 1.
pub fn undecided_in_between() -> Made {
    let mut made = p7_up_to(4);
    made.some(5, &[0, 1]);
    made.one(5, 2, &[0, 1, 2]);
    made.one(5, 3, &[0, 1, 2]);
    made.full(6);
    made.full(7);
    made
}

/// Round 4 is skipped, so the search for round 1 goes on to round 5. (5,0) references
/// (4,0), and that references (3,0), which certifies.
pub fn skipped_in_between() -> Made {
    let mut made = p7_up_to(4);
    made.some(5, &[0]);
    for author in 1..=3 {
        made.one(5, author, &[0, 1, 2]);
    }
    made.full(6);
    made.full(7);
    made
}

/// Round 1 has two vertices of the leader, and each author of round 2 supports the one
/// with this mark.
pub fn supporting(leader_marks: [u32; 4]) -> Made {
    let mut made = two_leader_vertices(1, 2);
    for (author, mark) in (0..).zip(leader_marks) {
        made.put(2, author, 1, &[(0, mark), (1, 1), (2, 1), (3, 1)]);
    }
    made.full(3);
    made
}

// ---- more than f equivocators: the lowest mark and commit before skip make a
// difference here, and nowhere else

pub const LOW: u32 = 2;
/// Above LOW, though its first byte is below.
pub const HIGH: u32 = 256;

/// Round 1 with two vertices of author 0, the leader.
fn two_leader_vertices(low: u32, high: u32) -> Made {
    let mut made = Made::new(4);
    made.put(1, 0, low, &[]);
    made.put(1, 0, high, &[]);
    made.some(1, &[1, 2, 3]);
    made
}

/// References to this mark of all four.
pub fn all(mark: u32) -> [(u8, u32); 4] {
    [(0, mark), (1, mark), (2, mark), (3, mark)]
}

/// Round 2: each author supports both leader vertices, with mark 1 the lower and with
/// mark 2 the higher.
fn both_supported() -> Made {
    let mut made = two_leader_vertices(LOW, HIGH);
    for author in 0..4 {
        made.put(2, author, 1, &[(0, LOW), (1, 1), (2, 1), (3, 1)]);
        made.put(2, author, 2, &[(0, HIGH), (1, 1), (2, 1), (3, 1)]);
    }
    made
}

/// So many authors certify the lower leader vertex, and all four the higher.
pub fn both_certified(lower: u8) -> Made {
    let mut made = both_supported();
    for author in 0..4 {
        if author < lower {
            made.put(3, author, 1, &all(1));
        }
        made.put(3, author, 2, &all(2));
    }
    made
}

/// In round 3 two authors certify the lower one and two the higher one. The anchor
/// (4,3) has all in its history.
pub fn both_in_the_anchors_history() -> Made {
    let mut made = both_supported();
    for author in 0..4 {
        // Which of the two goes first makes no difference.
        let mark = if author < 2 { 2 } else { 1 };
        made.put(3, author, 1, &all(mark));
    }
    made.full(4);
    made.full(5);
    made.full(6);
    made
}

/// Only author 3 certifies the lower one, and the anchor leaves it out.
pub fn the_higher_in_the_anchors_history() -> Made {
    let mut made = both_supported();
    // Only two of its references are to supporters of the higher one.
    made.put(3, 0, 1, &[(0, 1), (1, 2), (2, 2), (3, 1)]);
    made.put(3, 1, 1, &all(2));
    made.put(3, 2, 1, &all(2));
    made.put(3, 3, 1, &all(1));
    made.some(4, &[0, 1, 2]);
    made.one(4, 3, &[0, 1, 2]);
    made.full(5);
    made.full(6);
    made
}

/// Round 2: each author with mark 1 supports the leader, with mark 2 is blank. So many
/// authors of round 3 certify: two are not enough, and the blank ones count.
pub fn blank_and_certified(certifying: u8) -> Made {
    let mut made = Made::full_rounds(4, 4);
    for author in 0..4 {
        made.one(2, author, &[0, 1, 2, 3]);
        made.twin(2, author, 2, &[1, 2, 3]);
    }
    let authors: Vec<u8> = (0..certifying).collect();
    made.some(3, &authors);
    made
}

/// A direct skip is there, and an anchor has a certificate in its history.
pub fn blank_with_an_anchor() -> Made {
    let mut made = blank_and_certified(2);
    for author in [2, 3] {
        made.put(3, author, 1, &all(2));
    }
    made.full(4);
    made.full(5);
    made.full(6);
    made
}

// ---- hundreds of twins

/// The leader of round 1 has so many vertices, marks from 1 on.
fn many_twins(twins: u32) -> Made {
    let mut made = Made::new(4);
    for mark in 1..=twins {
        made.put(1, 0, mark, &[]);
    }
    made.some(1, &[1, 2, 3]);
    made
}

/// Nobody references any of the twins.
pub fn twins_alone(twins: u32) -> Made {
    let mut made = many_twins(twins);
    for round in 2..=4 {
        for author in 1..=3 {
            made.one(round, author, &[1, 2, 3]);
        }
    }
    made
}

/// The authors of round 2 support these twins, each with a vertex of its own that has
/// the twin's mark.
fn twins_supported(twins: u32, supported: &[u32]) -> Made {
    let mut made = many_twins(twins);
    for author in 0..4 {
        for &twin in supported {
            made.put(2, author, twin, &[(0, twin), (1, 1), (2, 1), (3, 1)]);
        }
    }
    made
}

/// All four authors certify each of these twins.
pub fn twins_certified(twins: u32, certified: &[u32]) -> Made {
    let mut made = twins_supported(twins, certified);
    for author in 0..4 {
        for &twin in certified {
            made.put(3, author, twin, &all(twin));
        }
    }
    made
}

/// Each of these two twins is certified by two authors, and the anchor (4,3) has all
/// in its history.
pub fn twins_through_an_anchor(twins: u32, [low, high]: [u32; 2]) -> Made {
    let mut made = twins_supported(twins, &[low, high]);
    for (author, twin) in [(0, high), (1, high), (2, low), (3, low)] {
        made.put(3, author, 1, &all(twin));
    }
    made.full(4);
    made.full(5);
    made.full(6);
    made
}

// ---- the largest

/// The most rounds that a table for n can have, with the most records: 2f+1 in each round but
/// the highest, which has what is left. With n = 4 these are 1,365 rounds of three and one more.
pub fn tallest(n: u8) -> Made {
    Made::thin_rounds(n, MOST_RECORDS)
}
