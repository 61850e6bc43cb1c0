//! The check in plain Rust without a heap: the same algorithm as the proved one, with
//! the same search by halves, written for speed. The benchmark measures the proved
//! code against it; the rules of this package do not use it.

use crate::check::Refusal;
use crate::record::{Name, ENTRIES, MOST_RECORDS, RECORD_BYTES};

pub(crate) type Record = [u8; RECORD_BYTES];

/// A call of its own, as the proved check is one.
#[inline(never)]
pub fn check(n: u8, table: &[u8]) -> Result<(), Refusal> {
    if !(4..=31).contains(&n) || n % 3 != 1 {
        return Err(Refusal::at_0(1));
    }
    let (records, rest) = table.as_chunks::<RECORD_BYTES>();
    if !rest.is_empty() {
        return Err(Refusal::at_0(2));
    }
    if records.len() > MOST_RECORDS {
        return Err(Refusal::at_0(3));
    }
    for (position, record) in records.iter().enumerate() {
        if let Some(number) = failing(n, &records[..position], record) {
            return Err(Refusal { number, position });
        }
    }
    Ok(())
}

/// The first check that one record fails, of 4, 5, 18, 19, 20, 6, 7, 8 in this order.
#[inline]
fn failing(n: u8, earlier: &[Record], record: &Record) -> Option<u8> {
    if sum_of(record) != u16_at(record, 136) {
        return Some(4);
    }
    if record[135] != 0 {
        return Some(5);
    }
    let name = name_of(record);
    if name.round == 0 {
        return Some(18);
    }
    if name.mark == 0 {
        return Some(19);
    }
    if name.author >= n {
        return Some(20);
    }
    if earlier
        .last()
        .is_some_and(|last| !below(name_of(last), name))
    {
        return Some(6);
    }
    let refs = refs_of(record);
    if entries_are_wrong(n, name.round, &refs) {
        return Some(7);
    }
    if !all_stand(earlier, name.round, &refs[..usize::from(n)]) {
        return Some(8);
    }
    None
}

#[inline]
fn entries_are_wrong(n: u8, round: u32, refs: &[u32; ENTRIES]) -> bool {
    let own = filled(&refs[..usize::from(n)]);
    let all = filled(refs);
    let quorum = 2 * (usize::from(n) / 3) + 1;
    (round == 1 && all > 0) || own < all || (round > 1 && all < quorum)
}

#[inline]
fn filled(entries: &[u32]) -> usize {
    entries.iter().filter(|&&mark| mark != 0).count()
}

/// Every reference names an earlier record. In round 1 there is none. Each one has a
/// higher author than the one before, so its name stands above it.
#[inline]
fn all_stand(earlier: &[Record], round: u32, refs: &[u32]) -> bool {
    let mut from = 0;
    for (author, &mark) in (0u8..).zip(refs) {
        if mark == 0 {
            continue;
        }
        let name = Name {
            round: round.wrapping_sub(1),
            author,
            mark,
        };
        match place_from(earlier, from, name) {
            Some(found) => from = found + 1,
            None => return false,
        }
    }
    true
}

/// The search by halves from a position on, among records whose names rise.
#[inline]
fn place_from(earlier: &[Record], from: usize, name: Name) -> Option<usize> {
    let (mut low, mut high) = (from, earlier.len());
    while low < high {
        let middle = low.midpoint(high);
        let there = name_of(&earlier[middle]);
        if same(there, name) {
            return Some(middle);
        }
        match below(there, name) {
            true => low = middle + 1,
            false => high = middle,
        }
    }
    None
}

// By hand: with the order that Rust derives, the search takes a tenth more
// instructions.

#[inline]
pub(crate) fn same(a: Name, b: Name) -> bool {
    a.round == b.round && a.author == b.author && a.mark == b.mark
}

#[inline]
pub(crate) fn below(a: Name, b: Name) -> bool {
    if a.round != b.round {
        return a.round < b.round;
    }
    if a.author != b.author {
        return a.author < b.author;
    }
    a.mark < b.mark
}

#[inline]
fn sum_of(record: &Record) -> u16 {
    let (words, _) = record[..136].as_chunks::<2>();
    let words = words.iter().map(|&word| u16::from_le_bytes(word));
    words.fold(0, u16::wrapping_add)
}

#[inline]
fn refs_of(record: &Record) -> [u32; ENTRIES] {
    std::array::from_fn(|author| u32_at(record, 8 + 4 * author))
}

#[inline]
pub(crate) fn name_of(record: &Record) -> Name {
    Name {
        round: u32_at(record, 0),
        author: record[134],
        mark: u32_at(record, 4),
    }
}

#[inline]
fn u16_at(record: &Record, at: usize) -> u16 {
    u16::from_le_bytes([record[at], record[at + 1]])
}

#[inline]
pub(crate) fn u32_at(record: &Record, at: usize) -> u32 {
    u32::from_le_bytes([record[at], record[at + 1], record[at + 2], record[at + 3]])
}
