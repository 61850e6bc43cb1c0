//! Times of the proved check beside a plain one.

use super::times::{bar_line, over, time, Times};
use crate::answers::answer;
use crate::check::check;
use crate::generate::honest;
use crate::library;
use crate::plain;
use crate::record::MOST_RECORDS;
use std::fmt::{Display, Formatter};
use std::hint::black_box;

const RUNS: usize = 100;
/// The proved check may take this many times as long as the plain one.
const BAR: f64 = 1.5;

/// One honest table and how long each check of it takes.
struct Timed {
    n: u8,
    records: usize,
    times: Times,
}

pub struct Checks {
    /// For each n, the half-size table and then the full one.
    pairs: Vec<[Timed; 2]>,
    /// Tables on which the answers differ.
    differed: Vec<String>,
}

impl Checks {
    pub fn differed(&self) -> bool {
        !self.differed.is_empty()
    }
}

pub fn checks() -> Checks {
    let mut differed = Vec::new();
    let mut timed = |n: u8, records: usize| {
        let table = honest(n, records);
        differed.extend(difference(n, &table));
        let times = times(n, &table);
        Timed { n, records, times }
    };
    let sizes = [MOST_RECORDS / 2, MOST_RECORDS];
    let pairs = [4, 31].map(|n| sizes.map(|records| timed(n, records)));
    Checks {
        pairs: pairs.into(),
        differed,
    }
}

fn times(n: u8, table: &[u8]) -> Times {
    let proved = || time(|| library::check(black_box(n), black_box(table)));
    let plain = || time(|| plain::check(black_box(n), black_box(table)));
    Times::fastest(RUNS, proved, plain)
}

/// The answers of all three checks, where they are not one.
fn difference(n: u8, table: &[u8]) -> Option<String> {
    let rules = answer(check(n, table));
    let plain = answer(plain::check(n, table));
    let proved = library::check(n, table);
    let bytes = table.len();
    (rules != plain || rules != proved).then(|| {
        format!("n = {n}, {bytes} bytes: rules {rules:?}, plain {plain:?}, library {proved:?}")
    })
}

impl Display for Checks {
    fn fmt(&self, f: &mut Formatter<'_>) -> std::fmt::Result {
        writeln!(f, "check, the fastest of {RUNS} runs of each, in turns:")?;
        writeln!(f, "   n  records  proved ms   plain ms  ratio")?;
        for Timed { n, records, times } in self.pairs.iter().flatten() {
            writeln!(f, "{n:4} {records:8} {times}")?;
        }
        for [half, full] in &self.pairs {
            let proved = over(full.times.proved, half.times.proved);
            let plain = over(full.times.plain, half.times.plain);
            write!(f, "twice the records, n = {}: ", full.n)?;
            writeln!(f, "proved {proved:.2} times as long, plain {plain:.2}")?;
        }
        for difference in &self.differed {
            writeln!(f, "the answers differ: {difference}")?;
        }
        let ratios = self.pairs.iter().flatten().map(|timed| timed.times.ratio());
        f.write_str(&bar_line(BAR, ratios, "ratio"))
    }
}
