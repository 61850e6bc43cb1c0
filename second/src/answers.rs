//! The calls of the C interface (`record_box`): those of this package's rules, and whichever
//! are compared with them.

use crate::check::{check, Refusal};
use crate::record::{Name, RECORD_BYTES};
use crate::record_box::{Answer, Part, Settled};
use crate::settle::{lookup, settle, Counts, Lent, Outcome};

/// Every call of the interface.
#[derive(Clone, Copy)]
pub struct Calls {
    pub check: fn(u8, &[u8]) -> Answer,
    pub lookup: fn(u8, &[u8], Name) -> Part,
    pub lookup_answer: fn(u8, &[u8], Name) -> Answer,
    pub settle: fn(u8, &[u8], &mut Lent) -> Settled,
}

/// The rules of this package.
pub const RULES: Calls = Calls {
    check: |n, table| answer(check(n, table)),
    lookup: |n, table, name| part(lookup(n, table, name)),
    lookup_answer: |n, table, name| answer(lookup(n, table, name).map(|_| ())),
    settle: |n, table, lent| settled(settle(n, table, lent)),
};

pub fn answer(result: Result<(), Refusal>) -> Answer {
    match result {
        Ok(()) => Answer {
            number: 0,
            position: 0,
        },
        Err(refusal) => Answer {
            number: u32::from(refusal.number),
            position: refusal.position,
        },
    }
}

/// The part that a lookup hands back.
fn part(found: Result<usize, Refusal>) -> Part {
    match found {
        Ok(begin) => Part {
            begin,
            length: RECORD_BYTES,
        },
        Err(_) => Part {
            begin: 0,
            length: 0,
        },
    }
}

pub fn settled(outcome: Outcome) -> Settled {
    let (refusal, counts) = match outcome {
        Outcome::Settled(counts) => (Ok(()), counts),
        Outcome::Refused(refusal) => (Err(refusal), NO_COUNTS),
    };
    let Answer { number, position } = answer(refusal);
    Settled {
        number,
        position,
        records: counts.records,
        highest: counts.highest_round,
        undecided: counts.first_undecided,
        written: counts.written,
        equivocators: counts.equivocators,
    }
}

/// What a refusal has for counts.
const NO_COUNTS: Counts = Counts {
    records: 0,
    highest_round: 0,
    first_undecided: 0,
    written: 0,
    equivocators: 0,
};
