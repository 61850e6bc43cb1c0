//! Times of the proved settlement beside a plain one, on honest tables and on hostile
//! ones.

use super::times::{bar_line, over, time, Times};
use crate::answers::{settled, RULES};
use crate::generate::honest;
use crate::hostile::{hostile, Hostile};
use crate::library;
use crate::plain_settle;
use crate::record::{MOST_RECORDS, RECORD_BYTES};
use crate::record_box::Settled;
use crate::settle::Lent;
use std::fmt::{Display, Formatter};
use std::hint::black_box;

const RUNS: usize = 20;
/// On an honest table the proved settlement may take this many times as long as the
/// plain one.
const PLAIN_BAR: f64 = 1.5;
/// A hostile table may take this many times as long as the honest one of the same n.
const HOSTILE_BAR: f64 = 50.0;
/// Twice the records may take this many times as long.
const GROWTH_BAR: f64 = 2.4;

/// One table and how long each settlement of it takes.
struct Timed {
    what: &'static str,
    records: usize,
    times: Times,
    outcome: Settled,
}

/// What a bar is set on.
type Measure = fn(&Group) -> f64;

/// All tables of one n.
struct Group {
    n: u8,
    half: Timed,
    full: Timed,
    hostile: Vec<Timed>,
}

impl Group {
    fn growth(&self) -> f64 {
        over(self.full.times.proved, self.half.times.proved)
    }

    fn honest_ratio(&self) -> f64 {
        self.half.times.ratio().max(self.full.times.ratio())
    }

    /// How many times as long as the honest full table this one takes.
    fn factor(&self, timed: &Timed) -> f64 {
        over(timed.times.proved, self.full.times.proved)
    }

    fn highest_factor(&self) -> f64 {
        let factors = self.hostile.iter().map(|timed| self.factor(timed));
        factors.fold(0.0, f64::max)
    }
}

pub struct Settlements {
    groups: Vec<Group>,
    /// Tables on which the proved settlement and the rules differ.
    differed: Vec<String>,
}

impl Settlements {
    pub fn differed(&self) -> bool {
        !self.differed.is_empty()
    }
}

fn by_plain(n: u8, table: &[u8], lent: &mut Lent) -> Settled {
    settled(plain_settle::settle(n, table, lent))
}

pub fn settlements() -> Settlements {
    let mut differed = Vec::new();
    let groups = [4, 31].map(|n| group(n, &mut differed));
    Settlements {
        groups: groups.into(),
        differed,
    }
}

fn group(n: u8, differed: &mut Vec<String>) -> Group {
    let mut timed = |what, table: &[u8]| {
        differed.extend(difference(what, n, table));
        timed(what, n, table)
    };
    Group {
        n,
        half: timed("honest, half", &honest(n, MOST_RECORDS / 2)),
        full: timed("honest", &honest(n, MOST_RECORDS)),
        hostile: hostile(n)
            .iter()
            .map(|Hostile { what, table }| timed(what, table))
            .collect(),
    }
}

fn timed(what: &'static str, n: u8, table: &[u8]) -> Timed {
    let mut lent = Lent::enough(MOST_RECORDS);
    let mut again = lent.clone();
    Timed {
        what,
        records: table.len() / RECORD_BYTES,
        outcome: library::settle(n, table, &mut lent),
        times: Times::fastest(
            RUNS,
            || time(|| library::settle(black_box(n), black_box(table), &mut lent)),
            || time(|| by_plain(black_box(n), black_box(table), &mut again)),
        ),
    }
}

/// The answers of all three settlements, where they or the buffers are not one.
fn difference(what: &str, n: u8, table: &[u8]) -> Option<String> {
    let mut lent: [Lent; 3] = std::array::from_fn(|_| Lent::enough(MOST_RECORDS));
    let rules = (RULES.settle)(n, table, &mut lent[0]);
    let plain = by_plain(n, table, &mut lent[1]);
    let proved = library::settle(n, table, &mut lent[2]);
    let same = rules == plain && rules == proved && lent[0] == lent[1] && lent[0] == lent[2];
    (!same)
        .then(|| format!("n = {n}, {what}: rules {rules:?}, plain {plain:?}, library {proved:?}"))
}

impl Display for Settlements {
    fn fmt(&self, f: &mut Formatter<'_>) -> std::fmt::Result {
        writeln!(f, "settle, the fastest of {RUNS} runs of each, in turns:")?;
        write!(f, "   n  records  rounds  undecided  written  equivocators")?;
        writeln!(f, "  proved ms   plain ms  ratio  over honest")?;
        for group in &self.groups {
            write!(f, "{group}")?;
        }
        for difference in &self.differed {
            writeln!(f, "the settlements differ: {difference}")?;
        }
        let bars: [(f64, Measure, &str); 3] = [
            (PLAIN_BAR, Group::honest_ratio, "ratio of an honest table"),
            (
                HOSTILE_BAR,
                Group::highest_factor,
                "factor over the honest table",
            ),
            (GROWTH_BAR, Group::growth, "growth with twice the records"),
        ];
        for (bar, of, what) in bars {
            f.write_str(&bar_line(bar, self.groups.iter().map(of), what))?;
        }
        Ok(())
    }
}

impl Display for Group {
    fn fmt(&self, f: &mut Formatter<'_>) -> std::fmt::Result {
        for timed in [&self.half, &self.full].into_iter().chain(&self.hostile) {
            let Settled {
                highest,
                undecided,
                written,
                equivocators,
                ..
            } = timed.outcome;
            write!(
                f,
                "{:4} {:8} {highest:7} {undecided:10} ",
                self.n, timed.records
            )?;
            write!(f, "{written:8} {equivocators:13} ")?;
            write!(f, "{} ", timed.times)?;
            writeln!(f, "{:12.2}  {}", self.factor(timed), timed.what)?;
        }
        writeln!(
            f,
            "twice the records, n = {}: {:.2} times as long",
            self.n,
            self.growth()
        )
    }
}
