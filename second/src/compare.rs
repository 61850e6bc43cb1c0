//! Asks the rules of this package and other calls the same questions on random tables,
//! and counts where they differ.

use crate::answers::Calls;
use crate::ask::{ask, differ, Case};
use crate::generate::{table, Kind};
use crate::rng::Rng;
use crate::shown;
use std::collections::BTreeMap;

/// Of all cases that differ, this many are shown.
const SHOWN: usize = 5;

/// What the comparison counted.
pub struct Comparison {
    agreed: u64,
    differed: u64,
    /// How often each call was answered with each word.
    words: BTreeMap<(&'static str, String), u64>,
    /// The first cases that differ: what made each, and a small one in its place.
    shown: Vec<(String, String)>,
}

impl Comparison {
    pub fn differed(&self) -> u64 {
        self.differed
    }

    fn count(&mut self, calls: &Calls, kind: Kind, seed: u64) {
        let (n, table) = table(kind, seed);
        let case = Case::drawn(n, table, seed);
        let answers = ask(calls, &case);
        match differ(&answers) {
            false => self.agreed += 1,
            true => {
                self.differed += 1;
                if self.shown.len() < SHOWN {
                    let made_by = format!("--kind {} --seed {seed}", kind.name());
                    self.shown.push((made_by, shown::case(calls, &case)));
                }
            }
        }
        for asked in answers {
            *self.words.entry((asked.call, asked.word)).or_default() += 1;
        }
    }
}

/// Draws this many cases over all kinds and compares each.
pub fn compare(calls: &Calls, cases: u64, seed: u64) -> Comparison {
    let mut rng = Rng::new(seed);
    let mut comparison = Comparison {
        agreed: 0,
        differed: 0,
        words: BTreeMap::new(),
        shown: Vec::new(),
    };
    for _ in 0..cases {
        let kind = Kind::draw(&mut rng);
        comparison.count(calls, kind, rng.draw());
    }
    comparison
}

impl std::fmt::Display for Comparison {
    fn fmt(&self, f: &mut std::fmt::Formatter<'_>) -> std::fmt::Result {
        let cases = self.agreed + self.differed;
        writeln!(f, "{cases} cases; answers of each call:")?;
        for ((call, word), &count) in &self.words {
            let in_100 = 100.0 * count as f64 / cases as f64;
            writeln!(f, "{count:8} {in_100:6.2}%  {call}: {word}")?;
        }
        writeln!(f, "{} cases differ", self.differed)?;
        for (made_by, small) in &self.shown {
            writeln!(f, "DIFFERS: {made_by}; made small:\n{small}")?;
        }
        writeln!(f, "{} passed, {} failed", self.agreed, self.differed)
    }
}
