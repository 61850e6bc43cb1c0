//! Faults to put into the records of a table that passes.

use crate::authors::quorum;
use crate::record::{decode, encode_mended, mend, Vertex, RECORD_BYTES};
use crate::rng::Rng;

pub type Record = [u8; RECORD_BYTES];

/// One fault. All leave the sums right unless said. The number is the refusal
/// aimed at; where a fault also breaks another check, the earlier one answers.
///
/// None aims at 9, which is retired: a record of a far round either names a record that
/// isn't there (8), or stands on more than 4,096 records (3).
#[derive(Clone, Copy, Debug, PartialEq, Eq)]
pub enum Fault {
    /// 4: only the sum is changed.
    Sum,
    /// 4: some byte is changed, the sum is not mended.
    Byte,
    /// Any: some byte is changed.
    ByteMended,
    /// 4: padding set, the sum not mended.
    PaddingUnmended,
    /// 5.
    Padding,
    /// 18.
    RoundZero,
    /// 19.
    MarkZero,
    /// 20.
    AuthorPast,
    /// 5, 18 or 19: two or more of the four above in one record.
    SeveralFields,
    /// 6 or 8: two records change places.
    Swap,
    /// 6: a record is there twice.
    Double,
    /// 6 or 8: a record gets the name before it, or one below.
    NameBefore,
    /// 7: an entry in round 1.
    FirstRoundEntry,
    /// 7: an entry for author n or more.
    EntryPast,
    /// 7: fewer than 2f+1 entries.
    TooFewEntries,
    /// 8: a mark that no record has.
    OtherMark,
    /// 8: a record is taken out.
    Drop,
    /// 8: a record is put later in the table than one that references it.
    Later,
    /// 8: the last record is put in a round far above.
    FarRound,
}

impl Fault {
    pub const ALL: [Fault; 19] = [
        Fault::Sum,
        Fault::Byte,
        Fault::ByteMended,
        Fault::PaddingUnmended,
        Fault::Padding,
        Fault::RoundZero,
        Fault::MarkZero,
        Fault::AuthorPast,
        Fault::SeveralFields,
        Fault::Swap,
        Fault::Double,
        Fault::NameBefore,
        Fault::FirstRoundEntry,
        Fault::EntryPast,
        Fault::TooFewEntries,
        Fault::OtherMark,
        Fault::Drop,
        Fault::Later,
        Fault::FarRound,
    ];

    /// Each for a row of its own: 5, 18, 19 and 20, in the order of the rows.
    const OF_FIELDS: [Fault; 4] = [
        Fault::Padding,
        Fault::RoundZero,
        Fault::MarkZero,
        Fault::AuthorPast,
    ];
}

/// Puts one fault into a table, at any record that can have it. A table that has
/// no such record stays as it is.
pub fn put(fault: Fault, n: u8, records: &mut Vec<Record>, rng: &mut Rng) {
    if records.is_empty() {
        return;
    }
    let p = rng.below(records.len());
    match fault {
        Fault::Sum | Fault::Byte | Fault::ByteMended | Fault::PaddingUnmended => {
            put_in_bytes(fault, &mut records[p], rng);
        }
        Fault::Swap | Fault::Double | Fault::Drop | Fault::Later => {
            put_in_places(fault, p, records, rng);
        }
        Fault::NameBefore => name_before(p, records, rng),
        Fault::FarRound => {
            let last = records.len() - 1;
            let far = rng.pick(&[1_399, 1_400, 1_401, 65_536, u32::MAX]);
            change(&mut records[last], |vertex| vertex.round = far);
        }
        _ => put_in_fields(fault, n, records, rng),
    }
}

/// Changes fields of a record and mends its sum.
fn change(record: &mut Record, how: impl FnOnce(&mut Vertex)) {
    let mut vertex = decode(record);
    how(&mut vertex);
    *record = encode_mended(&vertex);
}

/// Any position whose vertex is wanted.
fn some_position(
    records: &[Record],
    wanted: impl Fn(&Vertex) -> bool,
    rng: &mut Rng,
) -> Option<usize> {
    let wanted = |p: &usize| wanted(&decode(&records[*p]));
    let positions: Vec<usize> = (0..records.len()).filter(wanted).collect();
    match positions.is_empty() {
        true => None,
        false => Some(rng.pick(&positions)),
    }
}

fn put_in_bytes(fault: Fault, record: &mut Record, rng: &mut Rng) {
    let at = match fault {
        Fault::Sum => rng.between(136, 137),
        Fault::PaddingUnmended => 135,
        _ => rng.below(RECORD_BYTES),
    };
    let any = not_0(rng);
    record[at] ^= rng.pick(&[1, 2, 0x80, 0xFF, any]);
    if fault == Fault::ByteMended {
        mend(record);
    }
}

fn not_0(rng: &mut Rng) -> u8 {
    rng.byte().max(1)
}

fn put_in_places(fault: Fault, p: usize, records: &mut Vec<Record>, rng: &mut Rng) {
    let q = rng.below(records.len());
    match fault {
        Fault::Swap if p + 1 < records.len() && rng.chance(50) => records.swap(p, p + 1),
        Fault::Swap => records.swap(p, q),
        Fault::Double if rng.chance(70) => records.insert(p, records[p]),
        Fault::Double => records.insert(q, records[p]),
        Fault::Drop => {
            records.remove(p);
        }
        _ => {
            let record = records.remove(p.min(q));
            records.insert(p.max(q), record);
        }
    }
}

fn name_before(p: usize, records: &mut [Record], rng: &mut Rng) {
    if p == 0 {
        return;
    }
    let before = decode(&records[p - 1]);
    let lower = rng.below(4);
    change(&mut records[p], |vertex| {
        vertex.round = before.round;
        vertex.author = before.author;
        vertex.mark = before.mark;
        // The same name, or below it by one part.
        match lower {
            1 if before.mark > 1 => vertex.mark -= 1,
            2 if before.author > 0 => {
                vertex.author -= 1;
                vertex.mark = u32::MAX;
            }
            3 if before.round > 1 => {
                vertex.round -= 1;
                vertex.mark = u32::MAX;
            }
            _ => {}
        }
    });
}

fn put_in_fields(fault: Fault, n: u8, records: &mut [Record], rng: &mut Rng) {
    let position = match fault {
        Fault::FirstRoundEntry => some_position(records, |vertex| vertex.round == 1, rng),
        Fault::TooFewEntries | Fault::OtherMark => {
            some_position(records, |vertex| vertex.round > 1, rng)
        }
        _ => Some(rng.below(records.len())),
    };
    let before_6 = fault == Fault::SeveralFields || Fault::OF_FIELDS.contains(&fault);
    if let Some(p) = position {
        change(&mut records[p], |vertex| {
            // Now and then 6 fails as well, and mostly 7, which come later.
            if before_6 && rng.chance(30) {
                vertex.round = 1;
            }
            field(fault, n, vertex, rng);
        });
    }
}

fn field(fault: Fault, n: u8, vertex: &mut Vertex, rng: &mut Rng) {
    let n = usize::from(n);
    match fault {
        Fault::Padding => vertex.padding = not_0(rng),
        Fault::RoundZero => vertex.round = 0,
        Fault::MarkZero => vertex.mark = 0,
        Fault::AuthorPast => vertex.author = rng.pick(&[n, n + 1, 31, 255]) as u8,
        Fault::SeveralFields => several_fields(n as u8, vertex, rng),
        Fault::FirstRoundEntry => vertex.refs[rng.below(n)] = rng.pick(&[1, 0x1_0000, u32::MAX]),
        Fault::EntryPast if n < 31 => vertex.refs[rng.between(n, 30)] = 1,
        Fault::TooFewEntries => {
            let keep = rng.below(quorum(n as u8));
            let mut authors: Vec<usize> = (0..n).filter(|&a| vertex.refs[a] != 0).collect();
            rng.shuffle(&mut authors);
            for &author in authors.iter().skip(keep) {
                vertex.refs[author] = 0;
            }
        }
        Fault::OtherMark => {
            let author = rng.below(n);
            vertex.refs[author] = vertex.refs[author].wrapping_add(rng.pick(&[1, 0x1_0000]));
        }
        _ => {}
    }
}

/// Each of the three that can be the first of several is that equally often.
fn several_fields(n: u8, vertex: &mut Vertex, rng: &mut Rng) {
    let last = Fault::OF_FIELDS.len() - 1;
    let first = rng.below(last);
    let another = rng.between(first + 1, last);
    for i in first..=last {
        if i == first || i == another || rng.chance(50) {
            field(Fault::OF_FIELDS[i], n, vertex, rng);
        }
    }
}
