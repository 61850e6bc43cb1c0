//! The check written once more, row by row, so that a row can be put in another place, changed
//! or added; and the rules' calls behind such a check. Each wrong one has to be found.

use second::answers::{answer, settled, Calls, RULES};
use second::authors::{is_author_count, quorum};
use second::check::Refusal;
use second::record::{decode, sum_of, Name, Vertex};
use second::record_box::Part;
use second::settle::Outcome;
use std::collections::BTreeSet;

/// A record as the rows see it.
pub struct Seen<'a> {
    pub n: u8,
    pub record: &'a [u8],
    pub vertex: Vertex,
    /// The names before it. They rise, so the highest of them is the last.
    pub earlier: &'a BTreeSet<Name>,
}

/// The rows that are put to a record, as they stand where nothing else is said.
pub trait Rows {
    /// Their numbers, in the order in which they are put.
    fn order() -> Vec<u8> {
        vec![4, 5, 18, 19, 20, 6, 7, 8]
    }

    /// Whether a record fails the row of this number.
    fn fails(row: u8, seen: &Seen) -> bool {
        seen.fails(row)
    }
}

/// The rows as they stand.
pub struct Right;

impl Rows for Right {}

impl Seen<'_> {
    pub fn fails(&self, row: u8) -> bool {
        let (vertex, name) = (&self.vertex, self.vertex.name());
        match row {
            4 => vertex.sum != sum_of(self.record),
            5 => vertex.padding != 0,
            18 => vertex.round == 0,
            19 => vertex.mark == 0,
            20 => vertex.author >= self.n,
            6 => self.earlier.last().is_some_and(|&before| name <= before),
            7 => self.has_wrong_entries(),
            8 => self.names_nothing(),
            _ => unreachable!("no row {row}"),
        }
    }

    fn has_wrong_entries(&self) -> bool {
        let references = self.vertex.references();
        let enough = match self.vertex.round {
            1 => references == 0,
            _ => references >= quorum(self.n),
        };
        let mut past_n = self.vertex.refs.iter().skip(usize::from(self.n));
        !enough || past_n.any(|&mark| mark != 0)
    }

    fn names_nothing(&self) -> bool {
        let mut named = self.vertex.referenced();
        named.any(|name| !self.earlier.contains(&name))
    }
}

/// The check by these rows.
pub fn check_by<R: Rows>(n: u8, table: &[u8]) -> Result<(), Refusal> {
    if !is_author_count(n) {
        return Err(Refusal::at_0(1));
    }
    if !table.len().is_multiple_of(138) {
        return Err(Refusal::at_0(2));
    }
    if table.len() / 138 > 4_096 {
        return Err(Refusal::at_0(3));
    }
    let order = R::order();
    let mut earlier = BTreeSet::new();
    for (position, record) in table.chunks(138).enumerate() {
        let seen = Seen {
            n,
            record,
            vertex: decode(record),
            earlier: &earlier,
        };
        if let Some(&number) = order.iter().find(|&&row| R::fails(row, &seen)) {
            return Err(Refusal { number, position });
        }
        let name = seen.vertex.name();
        earlier.insert(name);
    }
    Ok(())
}

/// The rules' calls, each behind that check.
pub fn calls_by<R: Rows>() -> Calls {
    Calls {
        check: |n, table| answer(check_by::<R>(n, table)),
        lookup: |n, table, name| match check_by::<R>(n, table) {
            Ok(()) => (RULES.lookup)(n, table, name),
            Err(_) => Part {
                begin: 0,
                length: 0,
            },
        },
        lookup_answer: |n, table, name| match check_by::<R>(n, table) {
            Ok(()) => (RULES.lookup_answer)(n, table, name),
            refused => answer(refused),
        },
        settle: |n, table, lent| match check_by::<R>(n, table) {
            Ok(()) => (RULES.settle)(n, table, lent),
            Err(refusal) => settled(Outcome::Refused(refusal)),
        },
    }
}
