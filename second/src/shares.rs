//! Counts what random tables reach, so that it is seen whether any refusal or any
//! way of deciding a round goes without cases.

use crate::authors::f_of;
use crate::check::{check, Refusal};
use crate::decide::{
    certified_in_history, certifies, commit_qualifies, decide_all, skip_qualifies, Way,
};
use crate::generate::{input, lent, question, table, Kind};
use crate::program::run;
use crate::record::{decode, RECORD_BYTES};
use crate::rng::Rng;
use crate::settle::{equivocators, lookup, settle, Outcome};
use crate::table::Table;
use std::collections::{BTreeMap, BTreeSet};

/// How many cases, and how many of them showed each thing.
pub struct Shares {
    cases: u64,
    kinds: BTreeMap<String, u64>,
    shown: BTreeMap<String, u64>,
}

/// Generates this many cases over all kinds and counts.
pub fn shares(cases: u64, seed: u64) -> Shares {
    let mut rng = Rng::new(seed);
    let mut shares = Shares {
        cases,
        kinds: BTreeMap::new(),
        shown: BTreeMap::new(),
    };
    for _ in 0..cases {
        let kind = Kind::draw(&mut rng);
        *shares.kinds.entry(kind.name()).or_default() += 1;
        for thing in shown_by(kind, rng.draw()) {
            *shares.shown.entry(thing).or_default() += 1;
        }
    }
    shares
}

/// Everything that one case shows.
fn shown_by(kind: Kind, seed: u64) -> BTreeSet<String> {
    let (n, bytes) = table(kind, seed);
    let mut shown = BTreeSet::new();
    let refusal = |number: u8| format!("refusal {number:2}");
    match check(n, &bytes) {
        Err(refused) => {
            let number = refusal(refused.number);
            if is_of_fields(refused) && several_fields(n, &bytes, refused.position) {
                shown.insert(format!("{number}, another of the four fields wrong too"));
            }
            shown.insert(number);
        }
        Ok(()) => {
            shown.insert("passed".to_string());
            shown_by_rounds(&Table::read(n, &bytes), &mut shown);
        }
    }
    let mut lent = lent(n, &bytes, seed);
    let outcome = settle(n, &bytes, &mut lent);
    if let Outcome::Refused(refused) = outcome {
        shown.insert(refusal(refused.number));
    }
    match lookup(n, &bytes, question(&bytes, seed)) {
        Ok(_) => shown.insert("lookup found".to_string()),
        Err(refused) => shown.insert(refusal(refused.number)),
    };
    if run(&input(kind, seed)) == b"X 12 0\n" {
        shown.insert(refusal(12));
    }
    shown
}

fn is_of_fields(refusal: Refusal) -> bool {
    [5, 18, 19, 20].contains(&refusal.number)
}

/// Whether the record fails several of these four, of which the first was told.
fn several_fields(n: u8, table: &[u8], position: usize) -> bool {
    let vertex = decode(&table[position * RECORD_BYTES..][..RECORD_BYTES]);
    let wrong = [
        vertex.padding != 0,
        vertex.round == 0,
        vertex.mark == 0,
        vertex.author >= n,
    ];
    wrong.into_iter().filter(|&wrong| wrong).count() > 1
}

fn shown_by_rounds(table: &Table, shown: &mut BTreeSet<String>) {
    let mut show = |thing: &str| shown.insert(thing.to_string());
    let ways = decide_all(table);
    for (round, &way) in (1..).zip(&ways) {
        show(way_in_words(way));
        for &thing in &more_of_way(table, round, way) {
            show(thing);
        }
        if let Way::StoppedAt { round: at } = way {
            let mut later = ways[at as usize..].iter();
            if later.any(|later| matches!(later, Way::DirectCommit { .. })) {
                show("undecided, with a committed round after that one");
            }
        }
    }
    shown_by_whole(table, shown);
}

fn way_in_words(way: Way) -> &'static str {
    match way {
        Way::DirectCommit { .. } => "direct commit",
        Way::DirectSkip => "direct skip",
        Way::IndirectCommit { .. } => "indirect commit",
        Way::IndirectSkip { .. } => "indirect skip",
        Way::NoneFound => "undecided, the search found none",
        Way::StoppedAt { .. } => "undecided, the search stopped at an undecided round",
    }
}

/// What else there is to tell about how a round was decided.
fn more_of_way(table: &Table, round: u32, way: Way) -> Vec<&'static str> {
    let far = |anchor: usize| table.vertices[anchor].round > round + 3;
    let things = match way {
        Way::DirectCommit { .. } => vec![
            (
                commit_qualifies(table, round).len() > 1,
                "direct commit chosen among several",
            ),
            (
                skip_qualifies(table, round),
                "direct commit where skip qualifies too",
            ),
        ],
        Way::IndirectCommit { anchor, .. } => vec![
            (
                certified_in_history(table, round, anchor).len() > 1,
                "indirect commit chosen among several",
            ),
            (far(anchor), "indirect commit past a skipped round"),
        ],
        Way::IndirectSkip { anchor } => vec![
            (
                certified_by_any(table, round),
                "indirect skip with a certificate outside the history",
            ),
            (far(anchor), "indirect skip past a skipped round"),
        ],
        _ => Vec::new(),
    };
    let shown = things.into_iter().filter(|(holds, _)| *holds);
    shown.map(|(_, thing)| thing).collect()
}

fn certified_by_any(table: &Table, round: u32) -> bool {
    let leader_vertices = table.leader_vertices(round);
    let mut two_later = table.of_round(round + 2).iter();
    two_later.any(|&p| {
        let mut leaders = leader_vertices.iter();
        leaders.any(|&b| certifies(table, p, b))
    })
}

fn shown_by_whole(table: &Table, shown: &mut BTreeSet<String>) {
    let mut show = |thing: &str| shown.insert(thing.to_string());
    match equivocators(table) {
        0 => show("no equivocators"),
        some if some <= f_of(table.n) => show("equivocators, at most f"),
        _ => show("equivocators, more than f"),
    };
    if table.highest_round() >= 12 {
        show("twelve rounds or more");
    }
    if table.records() > 474 {
        show("more than 474 records");
    }
    shown.insert(format!("n = {:2}, passed", table.n));
}

impl std::fmt::Display for Shares {
    fn fmt(&self, f: &mut std::fmt::Formatter<'_>) -> std::fmt::Result {
        writeln!(f, "{} cases; cases of each kind:", self.cases)?;
        for (kind, count) in &self.kinds {
            writeln!(f, "{count:8}  {kind}")?;
        }
        writeln!(f, "cases that show:")?;
        for (thing, &count) in &self.shown {
            let in_100 = 100.0 * count as f64 / self.cases as f64;
            writeln!(f, "{count:8} {in_100:6.2}%  {thing}")?;
        }
        Ok(())
    }
}
