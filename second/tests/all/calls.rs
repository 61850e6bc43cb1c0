//! What the calls give: lent memory, lookup, the program's input.

use second::examples::{p2, p7, p7_up_to, p8};
use second::made::{prints, refusal, settled, vertex, Made};
use second::program::run;
use second::record::{encode_mended, name};
use second::settle::{lookup, settle, Counts, Lent, Outcome};

const PLACE: u32 = 0xABCD_0123;
const BYTE: u8 = 0xA5;

/// Memory of these lengths that no settlement would write.
fn lent(cells: usize, order: usize, taken: usize) -> Lent {
    Lent::filled(cells, order, taken, PLACE, BYTE)
}

/// Settles P7 with memory of these lengths.
fn p7_with(cells: usize, order: usize, taken: usize) -> (Outcome, Lent) {
    let mut lent = lent(cells, order, taken);
    (settle(4, &p7().table(), &mut lent), lent)
}

const P7_CELLS: [u32; 6] = [2, 7, 12, 17, 0, 0];
const P7_ORDER: [u32; 13] = [0, 1, 2, 3, 5, 6, 7, 10, 4, 8, 9, 11, 15];
const P7_TAKEN: [u8; 24] = [
    1, 1, 1, 1, 1, 1, 1, 1, 1, 1, 1, 1, 0, 0, 0, 1, 0, 0, 0, 0, 0, 0, 0, 0,
];

const P7_COUNTS: Counts = Counts {
    records: 24,
    highest_round: 6,
    first_undecided: 5,
    written: 13,
    equivocators: 0,
};

#[test]
fn exact_memory() {
    let (outcome, lent) = p7_with(6, 24, 24);
    assert_eq!(outcome, Outcome::Settled(P7_COUNTS));
    assert_eq!(lent.cells, P7_CELLS);
    assert_eq!(lent.order[..13], P7_ORDER);
    assert_eq!(lent.order[13..], [PLACE; 11]);
    assert_eq!(lent.taken, P7_TAKEN);
}

#[test]
fn longer_memory_keeps_its_end() {
    let (outcome, lent) = p7_with(9, 30, 27);
    assert_eq!(outcome, Outcome::Settled(P7_COUNTS));
    assert_eq!(lent.cells[..6], P7_CELLS);
    assert_eq!(lent.cells[6..], [PLACE; 3]);
    assert_eq!(lent.order[..13], P7_ORDER);
    assert_eq!(lent.order[13..], [PLACE; 17]);
    assert_eq!(lent.taken[..24], P7_TAKEN);
    assert_eq!(lent.taken[24..], [BYTE; 3]);
}

#[test]
fn one_short_is_10_and_changes_nothing() {
    for (cells, order, taken) in [
        (5, 24, 24),
        (6, 23, 24),
        (6, 24, 23),
        (0, 24, 24),
        (5, 23, 23),
    ] {
        let (outcome, after) = p7_with(cells, order, taken);
        assert_eq!(outcome, Outcome::Refused(refusal(10, 0)));
        assert_eq!(after, lent(cells, order, taken));
    }
}

#[test]
fn a_refused_table_changes_nothing_and_comes_before_10() {
    let mut made = p7();
    made.vertices[23].padding = 1;
    for memory in [0, 23, 24, 40] {
        let before = lent(memory, memory, memory);
        let mut after = before.clone();
        let outcome = settle(4, &made.table(), &mut after);
        assert_eq!(outcome, Outcome::Refused(refusal(5, 23)));
        assert_eq!(after, before);
    }
}

#[test]
fn an_empty_table_needs_no_memory() {
    let given = settled(4, &[]);
    let counts = Counts {
        records: 0,
        highest_round: 0,
        first_undecided: 1,
        written: 0,
        equivocators: 0,
    };
    assert_eq!(given.outcome, Outcome::Settled(counts));
    let mut after = lent(1, 0, 0);
    assert_eq!(settle(4, &[], &mut after), Outcome::Settled(counts));
    assert_eq!(after, lent(1, 0, 0));
}

#[test]
fn p8_cells() {
    let given = p8().settled();
    assert_eq!(given.cells[..6], [1, 7, 12, 17, 0, 0]);
    assert_eq!(given.written(), [0, 1, 2, 3, 5, 6, 7, 10, 9, 11, 15]);
}

/// A decided round past the first undecided one is in its cell, and nothing of
/// it is written.
#[test]
fn cells_past_the_first_undecided_round() {
    let given = p7_up_to(4).settled();
    assert_eq!(given.cells[..4], [0, 7, 0, 0]);
    assert_eq!(given.counts().first_undecided, 1);
    assert_eq!(given.counts().written, 0);
    assert_eq!(given.taken, vec![0; 16]);
}

/// Two authors have two records in a round; a third has two in two rounds.
#[test]
fn equivocators_are_counted_once_and_by_round() {
    let mut made = Made::new(4);
    for mark in [1, 2, 3] {
        made.put(1, 0, mark, &[]);
    }
    made.some(1, &[1, 2, 3]);
    made.one(2, 0, &[0, 1, 2, 3]);
    made.twin(2, 0, 2, &[0, 1, 2, 3]);
    made.one(2, 1, &[0, 1, 2, 3]);
    made.twin(2, 1, 2, &[0, 1, 2, 3]);
    assert_eq!(made.settled().counts().equivocators, 2);
    assert_eq!(p7().settled().counts().equivocators, 0);
}

#[test]
fn lookup_found() {
    let table = p7().table();
    for (position, vertex) in p7().vertices.iter().enumerate() {
        let found = lookup(4, &table, vertex.name());
        assert_eq!(found, Ok(138 * position));
    }
}

#[test]
fn lookup_of_no_such_name() {
    let table = p7().table();
    for (round, author, mark) in [
        (7, 0, 1),
        (6, 4, 1),
        (6, 0, 2),
        (0, 0, 1),
        (1, 0, 0),
        (1, 255, 1),
        (u32::MAX, 255, u32::MAX),
        (0, 0, 0),
    ] {
        let found = lookup(4, &table, name(round, author, mark));
        assert_eq!(found, Err(refusal(11, 0)));
    }
    assert_eq!(lookup(4, &[], name(1, 0, 1)), Err(refusal(11, 0)));
}

#[test]
fn lookup_tells_one_mark_from_another() {
    let mut made = Made::new(4);
    for mark in [2, 256, 65_536] {
        made.put(1, 0, mark, &[]);
    }
    let table = made.table();
    assert_eq!(lookup(4, &table, name(1, 0, 256)), Ok(138));
    assert_eq!(lookup(4, &table, name(1, 0, 65_536)), Ok(276));
    assert_eq!(lookup(4, &table, name(1, 0, 1)), Err(refusal(11, 0)));
}

#[test]
fn lookup_checks_the_table_first() {
    let mut made = p7();
    made.vertices[20].mark = 0;
    let refused = Err(refusal(19, 20));
    assert_eq!(lookup(4, &made.table(), name(1, 0, 1)), refused);
    assert_eq!(lookup(4, &made.table(), name(9, 9, 9)), refused);
    assert_eq!(lookup(5, &p7().table(), name(1, 0, 1)), Err(refusal(1, 0)));
    assert_eq!(lookup(4, &[0], name(1, 0, 1)), Err(refusal(2, 0)));
}

#[test]
fn program_input_empty_and_one_byte() {
    assert_eq!(run(&[]), b"X 1 0\n");
    assert_eq!(run(&[4]), b"S 0 0 1 0 0\n");
    assert_eq!(run(&[31]), b"S 0 0 1 0 0\n");
    assert_eq!(run(&[0]), b"X 1 0\n");
    assert_eq!(run(&[5]), b"X 1 0\n");
    assert_eq!(run(&[4, 0]), b"X 2 0\n");
}

/// 474 records, the last two of round 119.
#[test]
fn program_input_of_65_413_bytes() {
    let mut made = Made::new(4);
    for round in 1..=118 {
        made.full(round);
    }
    made.some(119, &[0, 1]);
    let input = [vec![4], made.table()].concat();
    assert_eq!(input.len(), 65_413);
    let printed = String::from_utf8(run(&input)).unwrap();
    let lines: Vec<&str> = printed.lines().collect();
    assert_eq!(lines.len(), 1 + 119 + 461);
    assert_eq!(lines[0], "S 474 119 117 461 0");
    assert_eq!(lines[116], "R 116 commit 3 1");
    assert_eq!(
        lines[117..120],
        ["R 117 undecided", "R 118 undecided", "R 119 undecided"]
    );
    assert_eq!(lines[580], "V 116 3 1");
}

/// 12 comes before all else, so a wrong n or a wrong length makes no difference.
#[test]
fn program_input_of_65_414_bytes_and_more() {
    for n in [0, 4, 5, 255] {
        for length in [65_413, 65_412 + 138, 100_000] {
            assert_eq!(prints(n, &vec![0; length]), "X 12 0\n");
        }
    }
    assert_eq!(prints(5, &vec![0; 65_412]), "X 1 0\n");
    assert_eq!(prints(4, &vec![0; 65_411]), "X 2 0\n");
    assert_eq!(prints(4, &vec![0; 65_412]), "X 18 0\n");
}

#[test]
fn batches_make_no_difference() {
    let mut made = p2();
    for (i, vertex) in made.vertices.iter_mut().enumerate() {
        vertex.batches = 65_535 - i as u16;
    }
    assert_eq!(made.prints(), p2().prints());
}

/// Marks are printed as they are.
#[test]
fn a_high_mark_is_printed_whole() {
    let mark = u32::MAX;
    let mut made = Made::new(4);
    made.put(1, 0, mark, &[]);
    made.some(1, &[1, 2, 3]);
    for author in 0..4 {
        made.put(2, author, 1, &[(0, mark), (1, 1), (2, 1), (3, 1)]);
    }
    made.full(3);
    let expected = "\
S 12 3 2 1 0
R 1 commit 0 4294967295
R 2 undecided
R 3 undecided
V 1 0 4294967295
";
    assert_eq!(made.prints(), expected);
    assert_eq!(
        prints(4, &encode_mended(&vertex(1, 3, mark, &[]))),
        "S 1 1 1 0 0\nR 1 undecided\n"
    );
}
