//! How many bytes of stack each call takes.

use crate::generate::honest;
use crate::hostile::hostile;
use crate::library::{self, stack_of};
use crate::record::{decode, Name, MOST_RECORDS, RECORD_BYTES};
use crate::settle::Lent;
use std::fmt::{Display, Formatter};
use std::hint::black_box;

/// The most authors, so that every loop over them is the longest.
const N: u8 = 31;

/// Each call with what it takes, or nothing where it can't be measured.
pub struct Stacks(Vec<(&'static str, Option<usize>)>);

/// Each call on a full table, where no check stops early, and on a name at its end.
pub fn stacks() -> Stacks {
    let table = honest(N, MOST_RECORDS);
    let name = last_name(&table);
    let check = || library::check(N, &table);
    let lookup = || library::lookup(N, &table, name);
    let lookup_answer = || library::lookup_answer(N, &table, name);
    Stacks(vec![
        ("no call at all", taken_by(|| ())),
        ("check", taken_by(check)),
        ("lookup", taken_by(lookup)),
        ("lookup_answer", taken_by(lookup_answer)),
        ("settle", settle_stack(&table)),
    ])
}

fn taken_by<T>(mut call: impl FnMut() -> T) -> Option<usize> {
    stack_of(|| {
        black_box(call());
    })
}

/// The most that a settlement takes: an honest table has no indirect decision, so the
/// hostile ones are settled too.
fn settle_stack(honest: &[u8]) -> Option<usize> {
    let mut lent = Lent::enough(MOST_RECORDS);
    let mut stack = |table: &[u8]| taken_by(|| library::settle(N, table, &mut lent));
    let hostile = hostile(N);
    let stacks = hostile.iter().map(|hostile| stack(&hostile.table));
    let most = stacks.max().flatten();
    most.max(stack(honest))
}

fn last_name(table: &[u8]) -> Name {
    let record = table.chunks(RECORD_BYTES).last();
    decode(record.expect("the table has records")).name()
}

impl Display for Stacks {
    fn fmt(&self, f: &mut Formatter<'_>) -> std::fmt::Result {
        for (call, bytes) in &self.0 {
            match bytes {
                Some(bytes) => writeln!(f, "stack, {call}: {bytes} bytes")?,
                None => writeln!(f, "stack, {call}: not measured here")?,
            }
        }
        Ok(())
    }
}
