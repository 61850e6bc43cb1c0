//! Times of the proved calls beside plain ones, on the same tables in the same run, and the
//! stack that each call takes.

mod checks;
mod settlements;
mod stacks;
mod times;

use crate::generate::honest;
use crate::library;
use crate::plain;
use checks::Checks;
use settlements::Settlements;
use stacks::Stacks;
use std::fmt::{Display, Formatter};

/// For whoever runs the binary under an emulator, to say so.
const EMULATOR: &str = "SECOND_EMULATOR";

pub struct Bench {
    emulator: Option<String>,
    checks: Checks,
    stacks: Stacks,
    settlements: Settlements,
}

impl Bench {
    /// Whether the calls that are timed do not answer the same.
    pub fn differed(&self) -> bool {
        self.checks.differed() || self.settlements.differed()
    }
}

pub fn bench() -> Bench {
    let emulator = std::env::var(EMULATOR).ok();
    Bench {
        emulator: emulator.filter(|name| !name.is_empty()),
        checks: checks::checks(),
        stacks: stacks::stacks(),
        settlements: settlements::settlements(),
    }
}

/// One check of an honest full table, for whoever counts its instructions. Says
/// whether it passed, or nothing if there is no such check.
pub fn once(by: &str, n: u8, records: usize) -> Option<bool> {
    let table = honest(n, records);
    match by {
        "proved" => Some(library::check(n, &table).number == 0),
        "plain" => Some(plain::check(n, &table).is_ok()),
        _ => None,
    }
}

impl Display for Bench {
    fn fmt(&self, f: &mut Formatter<'_>) -> std::fmt::Result {
        if let Some(emulator) = &self.emulator {
            let under = format!("under {emulator}: the times are the emulator's. A ratio says how");
            writeln!(f, "{under}")?;
            let what = "much the emulator has to do for each, not what a processor needs.";
            writeln!(f, "{what}")?;
        }
        write!(f, "{}{}{}", self.checks, self.stacks, self.settlements)
    }
}
