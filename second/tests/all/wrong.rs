//! Calls that are wrong on purpose, each in one thing.

use second::answers::{Calls, RULES};
use second::decide::{decide_all, Way};
use second::record_box::{Answer, Part, Settled};
use second::table::Table;

/// A position that is one off.
pub const POSITION: Calls = Calls {
    check: |n, table| {
        let answer = (RULES.check)(n, table);
        let position = answer.position + usize::from(answer.number == 8);
        Answer { position, ..answer }
    },
    ..RULES
};

/// A lookup that hands back the record before.
pub const BEFORE: Calls = Calls {
    lookup: |n, table, name| {
        let part = (RULES.lookup)(n, table, name);
        let begin = part.begin.saturating_sub(138);
        Part { begin, ..part }
    },
    ..RULES
};

/// 11 before the refusals of the table.
pub const UNNAMED: Calls = Calls {
    lookup_answer: |n, table, name| {
        let answer = (RULES.lookup_answer)(n, table, name);
        match answer.number {
            7 => Answer {
                number: 11,
                position: 0,
            },
            _ => answer,
        }
    },
    ..RULES
};

/// A count of one more.
pub const WRITTEN: Calls = Calls {
    settle: |n, table, lent| {
        let settled = (RULES.settle)(n, table, lent);
        let written = settled.written + usize::from(settled.written == 13);
        Settled { written, ..settled }
    },
    ..RULES
};

/// The first place past the number written is not kept.
pub const KEPT: Calls = Calls {
    settle: |n, table, lent| {
        let settled = (RULES.settle)(n, table, lent);
        if let (0, Some(place)) = (settled.number, lent.order.get_mut(settled.written)) {
            *place = 0;
        }
        settled
    },
    ..RULES
};

/// The last of a million taken bytes is changed by a refusal.
pub const REFUSED: Calls = Calls {
    settle: |n, table, lent| {
        let settled = (RULES.settle)(n, table, lent);
        if let (10, Some(byte)) = (settled.number, lent.taken.get_mut(999_999)) {
            *byte ^= 1;
        }
        settled
    },
    ..RULES
};

/// A count of one more where a round is committed through an anchor.
pub const THROUGH: Calls = Calls {
    settle: |n, table, lent| {
        let settled = (RULES.settle)(n, table, lent);
        let indirect = |way: &Way| matches!(way, Way::IndirectCommit { .. });
        let wrong = settled.number == 0 && decide_all(&Table::read(n, table)).iter().any(indirect);
        let written = settled.written + usize::from(wrong);
        Settled { written, ..settled }
    },
    ..RULES
};

/// One equivocator too few.
pub const SPLIT: Calls = Calls {
    settle: |n, table, lent| {
        let settled = (RULES.settle)(n, table, lent);
        let equivocators = settled.equivocators.saturating_sub(1);
        Settled {
            equivocators,
            ..settled
        }
    },
    ..RULES
};

/// A position with the refusal of short buffers.
pub const SHORT: Calls = Calls {
    settle: |n, table, lent| match (RULES.settle)(n, table, lent) {
        settled if settled.number == 10 => Settled {
            position: 1,
            ..settled
        },
        settled => settled,
    },
    ..RULES
};

/// Does not mind the sum of the first record.
pub const SUM: Calls = Calls {
    check: |n, table| match (RULES.check)(n, table) {
        Answer {
            number: 4,
            position: 0,
        } => (RULES.check)(n, &[]),
        answer => answer,
    },
    ..RULES
};

/// Does not mind the length.
pub const LENGTH: Calls = Calls {
    check: |n, table| match (RULES.check)(n, table) {
        Answer { number: 2, .. } => (RULES.check)(n, &[]),
        answer => answer,
    },
    ..RULES
};
