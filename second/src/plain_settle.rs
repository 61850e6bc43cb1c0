//! The settlement in plain Rust without a heap: the same algorithm as the proved one,
//! with the taken bytes as work space. The benchmark measures the proved code against
//! it; the rules of this package do not use it.

use crate::authors::quorum;
use crate::check::Refusal;
use crate::plain::{below, check, name_of, same, u32_at, Record};
use crate::record::{Name, ENTRIES, RECORD_BYTES};
use crate::settle::{Counts, Lent, Outcome};
use std::ops::Range;

/// In a work byte: the vertex is in the anchor's history. The rest of it is a tag.
const IN_HISTORY: u8 = 128;
/// So many vertices the tags tell apart.
const WINDOW: usize = 127;

/// How far down the history of an anchor is marked.
#[derive(Clone, Copy)]
struct Walk {
    anchor: usize,
    done: usize,
}

/// A table that passes the check.
#[derive(Clone, Copy)]
struct Table<'a> {
    n: u8,
    records: &'a [Record],
}

/// A call of its own, as the proved settlement is one.
#[inline(never)]
pub fn settle(n: u8, table: &[u8], lent: &mut Lent) -> Outcome {
    let Lent {
        cells,
        order,
        taken,
    } = lent;
    if let Err(refusal) = check(n, table) {
        return Outcome::Refused(refusal);
    }
    let (records, _) = table.as_chunks::<RECORD_BYTES>();
    let table = Table { n, records };
    let highest_round = records.last().map_or(0, |last| name_of(last).round);
    let rounds = highest_round as usize;
    if cells.len() < rounds || order.len() < records.len() || taken.len() < records.len() {
        return Outcome::Refused(Refusal::at_0(10));
    }
    let (cells, taken) = (&mut cells[..rounds], &mut taken[..records.len()]);
    decide_all(table, cells, taken);
    let written = write_order(table, cells, order, taken);
    let decided = cells.iter().take_while(|&&cell| cell != 0).count();
    Outcome::Settled(Counts {
        records: records.len(),
        highest_round,
        first_undecided: decided as u32 + 1,
        written,
        equivocators: equivocators(records),
    })
}

impl Table<'_> {
    /// The first of the first `count` positions whose name is not below this one.
    #[inline]
    fn place(self, count: usize, name: Name) -> usize {
        let (mut low, mut high) = (0, count);
        while low < high {
            let middle = low.midpoint(high);
            match below(name_of(&self.records[middle]), name) {
                true => low = middle + 1,
                false => high = middle,
            }
        }
        low
    }

    #[inline]
    fn find(self, count: usize, name: Name) -> Option<usize> {
        let place = self.place(count, name);
        (place < count && same(name_of(&self.records[place]), name)).then_some(place)
    }

    #[inline]
    fn begin(self, round: u32, author: u8) -> usize {
        let name = Name {
            round,
            author,
            mark: 0,
        };
        self.place(self.records.len(), name)
    }

    fn of_round(self, round: u32) -> Range<usize> {
        self.begin(round, 0)..self.begin(round + 1, 0)
    }

    fn leader(self, round: u32) -> u8 {
        ((round - 1) % u32::from(self.n)) as u8
    }

    #[inline]
    fn entry(self, p: usize, author: u8) -> u32 {
        u32_at(&self.records[p], 8 + 4 * usize::from(author))
    }

    /// The positions that the vertex at p references.
    #[inline]
    fn references(self, p: usize, mut each: impl FnMut(usize)) {
        let round = name_of(&self.records[p]).round.wrapping_sub(1);
        for author in 0..self.n {
            let mark = self.entry(p, author);
            let name = Name {
                round,
                author,
                mark,
            };
            if mark != 0 {
                if let Some(q) = self.find(p, name) {
                    each(q);
                }
            }
        }
    }

    /// The leader vertex of the round that the vertex at w, two rounds up, certifies.
    /// A quorum is more than half, so that there is one at most.
    fn certified_at(self, w: usize, round: u32) -> Option<usize> {
        let leader = self.leader(round);
        let mut backed = [0; ENTRIES];
        self.references(w, |q| {
            let author = name_of(&self.records[q]).author;
            backed[usize::from(author)] = self.entry(q, leader);
        });
        let backers = |mark| backed.iter().filter(|&&other| other == mark).count();
        let mut marks = backed.iter().copied();
        let mark = marks.find(|&mark| mark != 0 && backers(mark) >= quorum(self.n))?;
        let name = Name {
            round,
            author: leader,
            mark,
        };
        self.find(self.records.len(), name)
    }

    /// How many authors have a vertex of the round with the tag.
    fn authors_tagged(self, round: u32, tag: u8, work: &[u8]) -> usize {
        let mut from = self.begin(round, 0);
        let mut authors = 0;
        for author in 0..self.n {
            let to = self.begin(round, author + 1);
            let tagged = work[from..to].iter().any(|byte| byte & !IN_HISTORY == tag);
            authors += usize::from(tagged);
            from = to;
        }
        authors
    }
}

fn retag(byte: &mut u8, tag: u8) {
    *byte = *byte & IN_HISTORY | tag;
}

fn decide_all(table: Table, cells: &mut [u32], work: &mut [u8]) {
    let mut walk = Walk {
        anchor: table.records.len(),
        done: 0,
    };
    for round in (1..=cells.len() as u32).rev() {
        cells[round as usize - 1] = if let Some(p) = direct_commit(table, round, work) {
            2 + p as u32
        } else if direct_skip(table, round, work) {
            1
        } else {
            indirect(table, round, cells, &mut walk, work)
        };
    }
}

/// The lowest-mark leader vertex that a quorum certifies.
fn direct_commit(table: Table, round: u32, work: &mut [u8]) -> Option<usize> {
    let leader = table.leader(round);
    let end = table.begin(round, leader + 1);
    let mut first = table.begin(round, leader);
    while first < end {
        let window = first..end.min(first + WINDOW);
        for w in table.of_round(round + 2) {
            let certified = table.certified_at(w, round);
            let certified = certified.filter(|p| window.contains(p));
            retag(&mut work[w], certified.map_or(0, |p| (p - first) as u8 + 1));
        }
        let mut in_window = window.clone();
        let committed = in_window.find(|p| {
            let tag = (p - first) as u8 + 1;
            table.authors_tagged(round + 2, tag, work) >= quorum(table.n)
        });
        if committed.is_some() {
            return committed;
        }
        first = window.end;
    }
    None
}

fn direct_skip(table: Table, round: u32, work: &mut [u8]) -> bool {
    let leader = table.leader(round);
    for q in table.of_round(round + 1) {
        retag(&mut work[q], u8::from(table.entry(q, leader) == 0));
    }
    table.authors_tagged(round + 1, 1, work) >= quorum(table.n)
}

/// The cell of a round that no direct rule decides, where the cells above it are
/// decided.
fn indirect(table: Table, round: u32, cells: &[u32], walk: &mut Walk, work: &mut [u8]) -> u32 {
    let later = cells.iter().skip(round as usize + 2);
    let anchor = match later.copied().find(|&cell| cell != 1) {
        None | Some(0) => return 0,
        Some(cell) => cell as usize - 2,
    };
    walk_to(table, anchor, table.begin(round + 3, 0), walk, work);
    let certifiers = table.of_round(round + 2).filter(|&w| work[w] >= IN_HISTORY);
    let certified = certifiers.filter_map(|w| table.certified_at(w, round));
    certified.min().map_or(1, |p| 2 + p as u32)
}

/// Marks the history of the anchor as far down as `to`. Rounds that have one anchor
/// go on where the round before stopped.
fn walk_to(table: Table, anchor: usize, to: usize, walk: &mut Walk, work: &mut [u8]) {
    if walk.anchor != anchor {
        for byte in work.iter_mut() {
            *byte &= !IN_HISTORY;
        }
        work[anchor] |= IN_HISTORY;
        *walk = Walk {
            anchor,
            done: anchor + 1,
        };
    }
    for p in (to..walk.done).rev() {
        if work[p] >= IN_HISTORY {
            table.references(p, |q| work[q] |= IN_HISTORY);
        }
    }
    walk.done = walk.done.min(to);
}

/// The rounds before the first undecided one. Gives how many positions are written.
fn write_order(table: Table, cells: &[u32], order: &mut [u32], taken: &mut [u8]) -> usize {
    taken.fill(0);
    let mut written = 0;
    for &cell in cells.iter().take_while(|&&cell| cell != 0) {
        if cell != 1 {
            written = write_leader(table, cell as usize - 2, order, taken, written);
        }
    }
    written
}

/// Taken byte 1: written; 2: to be written next.
fn write_leader(
    table: Table,
    leader_vertex: usize,
    order: &mut [u32],
    taken: &mut [u8],
    mut written: usize,
) -> usize {
    let mut low = leader_vertex;
    let mut p = leader_vertex + 1;
    if taken[leader_vertex] == 0 {
        taken[leader_vertex] = 2;
    }
    while low < p {
        p -= 1;
        if taken[p] == 2 {
            table.references(p, |q| {
                if taken[q] == 0 {
                    taken[q] = 2;
                    low = low.min(q);
                }
            });
        }
    }
    for (p, byte) in (low..).zip(&mut taken[low..=leader_vertex]) {
        if *byte == 2 {
            *byte = 1;
            order[written] = p as u32;
            written += 1;
        }
    }
    written
}

/// Two records of one author and round stand side by side.
fn equivocators(records: &[Record]) -> usize {
    let mut twice = [false; ENTRIES];
    for pair in records.windows(2) {
        let (one, other) = (name_of(&pair[0]), name_of(&pair[1]));
        if one.round == other.round && one.author == other.author {
            twice[usize::from(one.author)] = true;
        }
    }
    twice.iter().filter(|&&twice| twice).count()
}
