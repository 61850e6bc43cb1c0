//! The families of the attack.

use super::Attack;
use crate::ask::Case;
use crate::authors::{quorum, AUTHOR_COUNTS};
use crate::check::MOST_ROUNDS;
use crate::damage::Record;
use crate::examples::{all, p13_or_p14, p2, p7, p9, padded, supporting, tallest};
use crate::generate::needed;
use crate::made::{sum_off, vertex, Made};
use crate::record::{encode_mended, mend, name, Vertex, RECORD_BYTES};
use crate::rng::Rng;
use crate::settle::Lent;

// ---- damage

/// 13 records with two vertices of the leader, the second of which is committed.
fn twins() -> Made {
    supporting([1, 2, 2, 2])
}

/// The table with one bit changed.
fn changed(table: &[u8], bit: usize) -> Vec<u8> {
    let mut damaged = table.to_vec();
    damaged[bit / 8] ^= 1 << (bit % 8);
    damaged
}

/// The same with the sum of that record right.
fn changed_and_mended(table: &[u8], bit: usize) -> Vec<u8> {
    let mut damaged = changed(table, bit);
    let begin = bit / 8 / RECORD_BYTES * RECORD_BYTES;
    let record = &mut damaged[begin..begin + RECORD_BYTES];
    mend(record.try_into().expect("a record's length"));
    damaged
}

/// Each bit in turn, with the sum as it was and with the sum mended.
pub fn bits(attack: &mut Attack) {
    let table = twins().table();
    for bit in 0..8 * table.len() {
        attack.ask(4, &changed(&table, bit));
        attack.ask(4, &changed_and_mended(&table, bit));
    }
}

/// Each bit of P7, with the sum mended: an anchor decides there.
pub fn bits_behind_the_sum(attack: &mut Attack) {
    let table = p7().table();
    for bit in 0..8 * table.len() {
        attack.ask(4, &changed_and_mended(&table, bit));
    }
}

// ---- all tables of a few records

/// A small table has at most so many records.
const SMALL: usize = 5;

/// Mark 1 of three authors, which is enough.
const THREE: &[(u8, u32)] = &[(0, 1), (1, 1), (2, 1)];

/// References of a record above round 1: entry 0 none, mark 1 or mark 2, and the others
/// none or mark 1, in every combination; then to a second mark, to no record and past n.
fn references() -> Vec<Vec<(u8, u32)>> {
    let mut all = Vec::new();
    for first in 0..=2 {
        for others in 0..8 {
            let of = |author: u8| (author, others >> (author - 1) & 1);
            all.push(vec![(0, first), of(1), of(2), of(3)]);
        }
    }
    for (author, mark) in [(1, 2), (2, 9), (4, 1)] {
        all.push([THREE, &[(author, mark)]].concat());
    }
    all
}

/// Every record over a few values of its fields, with the right sum; then some with a
/// field that no record may have, and one with the sum off.
fn alphabet() -> Vec<Record> {
    let above = references();
    let mut vertices = Vec::new();
    for author in 0..4 {
        for mark in 1..=2 {
            vertices.push(vertex(1, author, mark, &[]));
            vertices.push(vertex(1, author, mark, &[(3, 1)]));
            for round in 2..=3 {
                let all = above.iter();
                vertices.extend(all.map(|references| vertex(round, author, mark, references)));
            }
        }
    }
    for (round, author, mark) in [(0, 0, 1), (1, 0, 0), (1, 4, 1), (2, 255, 1)] {
        vertices.push(vertex(round, author, mark, &[]));
        vertices.push(vertex(round, author, mark, THREE));
    }
    let mut records: Vec<Record> = vertices.iter().map(encode_mended).collect();
    for off in [0, 1] {
        records.push(padded(off).try_into().expect("one record"));
    }
    records
}

/// All tables of up to five records of the alphabet whose records but the last pass; and
/// those that are refused with one more record behind, which must not matter.
pub fn small_tables(attack: &mut Attack) {
    let alphabet = alphabet();
    attack.ask(4, &[]);
    longer_by_one(attack, &alphabet, &mut Vec::new());
}

fn longer_by_one(attack: &mut Attack, alphabet: &[Record], table: &mut Vec<u8>) {
    let length = table.len();
    for record in alphabet {
        table.extend(record);
        let passes = attack.ask(4, table);
        let room = table.len() < SMALL * RECORD_BYTES;
        match passes {
            true if room => longer_by_one(attack, alphabet, table),
            false if room => with_one_behind(attack, alphabet, table),
            _ => {}
        }
        table.truncate(length);
    }
}

/// A record that fits behind many, one whose sum is off, and one that is below.
fn with_one_behind(attack: &mut Attack, alphabet: &[Record], table: &mut Vec<u8>) {
    let length = table.len();
    let fits = encode_mended(&vertex(3, 3, 2, THREE));
    let sum_off = alphabet[alphabet.len() - 1];
    for record in [fits, sum_off, alphabet[0]] {
        table.extend(record);
        attack.ask(4, table);
        table.truncate(length);
    }
}

// ---- all graphs of a few rounds

/// One of so many choices for each of four authors, in every combination.
fn choices(of: usize) -> impl Iterator<Item = [usize; 4]> {
    (0..of.pow(4)).map(move |i| [i % of, i / of % of, i / of / of % of, i / of / of / of])
}

/// Round 1 with two vertices of its leader, and round 2: each author supports none of
/// them, the first or the second, or isn't there.
fn two_rounds(supports: [usize; 4]) -> Made {
    let mut made = Made::new(4);
    made.put(1, 0, 1, &[]);
    made.put(1, 0, 2, &[]);
    made.some(1, &[1, 2, 3]);
    for (author, support) in (0..).zip(supports) {
        let mark = support as u32;
        if support < 3 {
            made.put(2, author, 1, &[(0, mark), (1, 1), (2, 1), (3, 1)]);
        }
    }
    made
}

/// Round 3: each author references all that there are in round 2, or all but one of
/// them, or isn't there.
fn third_round(made: &mut Made, choices: [usize; 4]) {
    let of_two = made.vertices.iter().filter(|vertex| vertex.round == 2);
    let there: Vec<u8> = of_two.map(|vertex| vertex.author).collect();
    for (author, choice) in (0..).zip(choices) {
        let left_out = [None, Some(1), Some(3)];
        if let Some(&left_out) = left_out.get(choice) {
            let kept = there.iter().copied().filter(|&a| Some(a) != left_out);
            made.one(3, author, &kept.collect::<Vec<u8>>());
        }
    }
}

pub fn graphs(attack: &mut Attack) {
    for supports in choices(4) {
        for certifies in choices(4) {
            let mut made = two_rounds(supports);
            third_round(&mut made, certifies);
            attack.ask(4, &made.table());
        }
    }
}

/// The same where all are there, and below an anchor.
pub fn graphs_below_an_anchor(attack: &mut Attack) {
    for supports in choices(3) {
        for certifies in choices(3) {
            let mut made = two_rounds(supports);
            third_round(&mut made, certifies);
            below_an_anchor(attack, &made);
        }
    }
}

/// Three rounds more, so that round 4 is committed. Its leader references all of round
/// 3, or all but author 0.
fn below_an_anchor(attack: &mut Attack, three_rounds: &Made) {
    for anchor in [&[0, 1, 2, 3][..], &[1, 2, 3]] {
        let mut made = three_rounds.clone();
        made.some(4, &[0, 1, 2]);
        made.one(4, 3, anchor);
        made.full(5);
        made.full(6);
        attack.ask(4, &made.table());
    }
}

/// Each author has two vertices in round 2. A pair says which of the leader's two the
/// first one supports and which the second one, 0 for none.
fn two_rounds_past_f(supports: [(u32, u32); 4]) -> Made {
    let mut made = two_rounds([3; 4]);
    for (author, (first, second)) in (0..).zip(supports) {
        made.put(2, author, 1, &[(0, first), (1, 1), (2, 1), (3, 1)]);
        made.put(2, author, 2, &[(0, second), (1, 1), (2, 1), (3, 1)]);
    }
    made
}

/// More than f equivocators: each author has two vertices in round 3 too, which
/// reference all the first ones and all the second ones of round 2.
pub fn graphs_past_f(attack: &mut Attack) {
    for supports in choices(9) {
        let pairs = supports.map(|pair| (pair as u32 % 3, pair as u32 / 3));
        let mut made = two_rounds_past_f(pairs);
        for author in 0..4 {
            made.put(3, author, 1, &all(1));
            made.put(3, author, 2, &all(2));
        }
        attack.ask(4, &made.table());
    }
}

/// The same with one vertex of each author in round 3, which references the first ones,
/// the second ones or some of both, below an anchor.
pub fn graphs_past_f_below_an_anchor(attack: &mut Attack) {
    let both = [(0, 1), (1, 2), (2, 2), (3, 1)];
    for supports in choices(2) {
        for references in choices(3) {
            let mut made = two_rounds_past_f(supports.map(|pair| [(1, 2), (2, 1)][pair]));
            for (author, choice) in (0..).zip(references) {
                made.put(3, author, 1, &[all(1), all(2), both][choice]);
            }
            below_an_anchor(attack, &made);
        }
    }
}

// ---- noise

/// Every length up to 2,000, with each n of 256 in turn and with one that is a count.
pub fn noise(attack: &mut Attack) {
    let mut rng = Rng::new(2_000);
    for length in 0..=2_000 {
        let bytes: Vec<u8> = (0..length).map(|_| rng.byte()).collect();
        attack.ask(length as u8, &bytes);
        attack.ask(rng.pick(&AUTHOR_COUNTS), &bytes);
    }
}

/// Records of a few rounds with fields that are mostly right, and right sums.
pub fn random_fields(attack: &mut Attack) {
    let mut rng = Rng::new(138);
    for case in 0..20_000 {
        let n = rng.pick(&[4, 4, 4, 7, 31]);
        let mut vertices: Vec<Vertex> = (0..case % 20).map(|_| any_vertex(n, &mut rng)).collect();
        if rng.chance(90) {
            vertices.sort_by_key(Vertex::name);
            vertices.dedup_by_key(|vertex| vertex.name());
        }
        attack.ask(n, &Made { n, vertices }.table());
    }
}

fn any_vertex(n: u8, rng: &mut Rng) -> Vertex {
    let round = match rng.chance(98) {
        true => rng.pick(&[1, 1, 1, 1, 2, 2, 2, 3]),
        false => rng.pick(&[0, 5, 1_400, 1_401, u32::MAX]),
    };
    let author = match rng.chance(98) {
        true => rng.below(usize::from(n)) as u8,
        false => rng.byte(),
    };
    let mut vertex = vertex(round, author, rng.pick(&[1, 1, 1, 2, 0x1_0000]), &[]);
    if round > 1 || rng.chance(2) {
        for entry in &mut vertex.refs[..usize::from(n)] {
            *entry = rng.pick(&[1, 1, 1, 1, 1, 1, 0, 2]);
        }
    }
    vertex.batches = rng.word() as u16;
    vertex
}

// ---- buffers

/// Far more than any table needs.
const HUGE: usize = 1_000_000;

/// None, one too few, as many as are needed, one more, and far more: each for each of
/// the three buffers.
pub fn buffers(attack: &mut Attack) {
    let refused = p13_or_p14(0, &[0, 1]).table();
    let tables = [
        (4, Vec::new()),
        (4, p9().table()),
        (4, twins().table()),
        (4, p7().table()),
        (4, refused),
        (5, p2().table()),
    ];
    for (n, table) in tables {
        let (cells, records) = needed(n, &table);
        for cells in sizes(cells) {
            for order in sizes(records) {
                for taken in sizes(records) {
                    attack.ask_case(Case {
                        n,
                        table: table.clone(),
                        lent: filled(cells, order, taken),
                        name: name(1, 0, 1),
                    });
                }
            }
        }
    }
}

fn sizes(needed: usize) -> [usize; 5] {
    [0, needed.saturating_sub(1), needed, needed + 1, HUGE]
}

/// Every place holds another number than its neighbours.
fn filled(cells: usize, order: usize, taken: usize) -> Lent {
    let numbers = |length: usize, salt: u32| (0..length as u32).map(move |i| i ^ salt).collect();
    Lent {
        cells: numbers(cells, 0x5A00_0000),
        order: numbers(order, 0xA500_0000),
        taken: (0..taken).map(|i| i as u8 | 0x40).collect(),
    }
}

// ---- every n, and names

/// Each table with every n, and with its own n each of many names.
pub fn counts_and_names(attack: &mut Attack) {
    let tables = [
        (4, Vec::new()),
        (4, vec![0]),
        (4, p7().table()),
        (4, twins().table()),
        (7, Made::full_rounds(7, 28).table()),
        (31, Made::full_rounds(31, 100).table()),
        (4, padded(0)),
    ];
    for (own, table) in &tables {
        for n in 0..=255 {
            attack.ask(n, table);
        }
        names(attack, *own, table);
    }
}

/// Names that are there, next to them, and far from them.
fn names(attack: &mut Attack, n: u8, table: &[u8]) {
    for round in [0, 1, 2, 3, 4, 5, 6, 7, 256, u32::MAX] {
        for author in [0, 1, 2, 3, 4, 30, 31, 255] {
            for mark in [0, 1, 2, 3, 257, u32::MAX] {
                let case = Case {
                    name: name(round, author, mark),
                    ..Case::drawn(n, table.to_vec(), 0)
                };
                attack.ask_case(case);
            }
        }
    }
}

// ---- the most rounds

/// For every n the table with the most rounds, and what stands next to it. No check is left
/// that bounds a round by itself, so here is where rounds end: 3, 8 and 10 have to answer. The
/// tables are the largest there are, so each n has few cases.
pub fn as_tall_as_can_be(attack: &mut Attack) {
    for n in AUTHOR_COUNTS {
        let made = tallest(n);
        attack.ask(n, &made.table());
        in_higher_rounds(attack, &made);
        with_a_gap(attack, &made);
        with_one_more(attack, &made);
        in_so_many_cells(attack, &made);
    }
}

fn last(made: &Made) -> &Vertex {
    made.vertices.last().expect("the table has records")
}

/// The last record is put in the next round or a far one, and what it names in the round below
/// isn't there, or not all of it: 8. 1,400 was the bound of the row that is retired. Of 65,537
/// two bytes alone would be round 1, and no number of four bytes is above the last one.
fn in_higher_rounds(attack: &mut Attack, made: &Made) {
    let next = last(made).round + 1;
    for round in [next, 1_400, 1_401, 65_537, u32::MAX] {
        let mut higher = made.clone();
        let end = higher.vertices.len() - 1;
        higher.vertices[end].round = round;
        attack.ask(higher.n, &higher.table());
    }
}

/// Every round but the highest has just enough records, so one taken out of the middle leaves
/// the round above it without what it names, far below where the table ends: 8.
fn with_a_gap(attack: &mut Attack, made: &Made) {
    let middle = last(made).round / 2;
    attack.ask(made.n, &made.without(middle, 0).table());
}

/// The next author in the highest round, right in all but that it is one record too many: 3.
fn with_one_more(attack: &mut Attack, made: &Made) {
    let mut more = made.clone();
    let mut vertex = last(made).clone();
    vertex.author += 1;
    more.vertices.push(vertex);
    attack.ask(more.n, &more.table());
}

/// As many cells as rounds, one fewer (10), and as many as are enough with every n. The name is
/// the last one, which a search comes to after all others.
fn in_so_many_cells(attack: &mut Attack, made: &Made) {
    let (rounds, records) = (last(made).round as usize, made.vertices.len());
    for cells in [rounds, rounds - 1, MOST_ROUNDS as usize] {
        attack.ask_case(Case {
            n: made.n,
            table: made.table(),
            lent: filled(cells, records, records),
            name: last(made).name(),
        });
    }
}

// ---- the four field faults

/// Rows 5, 18, 19 and 20 in all combinations, at the first record, one amid and the last: which
/// of them answers must depend on nothing that stands behind them, in the record or in the
/// table. There are two rounds, and three records in the second.
pub fn field_faults(attack: &mut Attack) {
    for n in AUTHOR_COUNTS {
        let right = Made::thin_rounds(n, quorum(n) + 3);
        let last = right.vertices.len() - 1;
        for position in [0, last - 1, last] {
            for also in ALSO {
                let mut made = right.clone();
                also(n, &mut made.vertices[position]);
                in_all_combinations(attack, &made, position);
            }
        }
    }
}

/// What else is wrong with the record.
const ALSO: [fn(u8, &mut Vertex); 4] = [
    |_, _| {},
    below_the_one_before,
    with_wrong_entries,
    naming_nothing,
];

/// 6 and no other, whatever the author and the mark become; the first record is as it was.
fn below_the_one_before(_: u8, vertex: &mut Vertex) {
    vertex.round = 1;
    vertex.refs.fill(0);
}

/// 7: a reference in round 1, and none above it.
fn with_wrong_entries(_: u8, vertex: &mut Vertex) {
    let entry = u32::from(vertex.round == 1);
    vertex.refs.fill(0);
    vertex.refs[0] = entry;
}

/// 8: enough references, to a round that isn't there.
fn naming_nothing(n: u8, vertex: &mut Vertex) {
    vertex.round = 9;
    vertex.refs[..quorum(n)].fill(1);
}

/// With the right sum, with another (4), and with another sum of the last record, where that
/// is a later one.
fn in_all_combinations(attack: &mut Attack, made: &Made, position: usize) {
    let (n, last) = (made.n, made.vertices.len() - 1);
    for vertex in with_field_faults(n, &made.vertices[position]) {
        let mut made = made.clone();
        made.vertices[position] = vertex;
        let table = made.table();
        attack.ask(n, &table);
        attack.ask(n, &sum_off(table.clone(), position, 1));
        if position < last {
            attack.ask(n, &sum_off(table, last, 1));
        }
    }
}

/// Each of the four fields as it is and with wrong values, in all combinations: the lowest and
/// the highest that is wrong, the highest bit alone for the padding, and n's neighbour.
fn with_field_faults(n: u8, right: &Vertex) -> Vec<Vertex> {
    let mut all = Vec::new();
    for padding in [0, 1, 128, 255] {
        for round in [right.round, 0] {
            for mark in [right.mark, 0] {
                for author in [right.author, n, n + 1, 255] {
                    all.push(Vertex {
                        padding,
                        round,
                        mark,
                        author,
                        ..right.clone()
                    });
                }
            }
        }
    }
    all
}
