//! Tables, names and buffers as someone would choose them who wants a wrong answer: all
//! that there are of a family, where `compare` draws some. Every call is asked, and what
//! it answers and leaves in the buffers is compared with the rules.

mod families;

use crate::answers::Calls;
use crate::ask::{ask, differ, Case};
use crate::shown;
use std::collections::BTreeMap;
use std::fmt::{Display, Formatter};

/// Cases of one family, one after another.
type Family = fn(&mut Attack);

const FAMILIES: [(&str, Family); 13] = [
    ("every bit of 13 records with twins", families::bits),
    ("every bit of P7, sums right", families::bits_behind_the_sum),
    ("all small tables", families::small_tables),
    ("all graphs of three rounds", families::graphs),
    (
        "all graphs below an anchor",
        families::graphs_below_an_anchor,
    ),
    ("all graphs past f", families::graphs_past_f),
    (
        "the same below an anchor",
        families::graphs_past_f_below_an_anchor,
    ),
    ("random bytes of every length", families::noise),
    ("random fields, sums right", families::random_fields),
    ("buffers of every size", families::buffers),
    ("every n, and names", families::counts_and_names),
    ("as tall as can be", families::as_tall_as_can_be),
    (
        "the four field faults, all combinations",
        families::field_faults,
    ),
];

/// The attack on one set of calls, and what came of it.
pub struct Attack {
    calls: Calls,
    done: Vec<Done>,
}

/// What came of one family.
struct Done {
    name: &'static str,
    passed: u64,
    failed: u64,
    /// How often each call was answered with each word.
    words: BTreeMap<(&'static str, String), u64>,
    /// Of the cases that differ, the one with the smallest table.
    smallest: Option<Case>,
    /// That case made smaller, for a reader.
    shown: Option<String>,
}

/// Every family in turn.
pub fn attack(calls: &Calls) -> Attack {
    attack_by(calls, |_| true)
}

/// The families with these names.
pub fn attack_by(calls: &Calls, wanted: impl Fn(&str) -> bool) -> Attack {
    let mut attack = Attack {
        calls: *calls,
        done: Vec::new(),
    };
    for (name, family) in FAMILIES.into_iter().filter(|(name, _)| wanted(name)) {
        attack.done.push(Done {
            name,
            passed: 0,
            failed: 0,
            words: BTreeMap::new(),
            smallest: None,
            shown: None,
        });
        family(&mut attack);
        let done = attack.in_hand();
        done.shown = done.smallest.as_ref().map(|case| shown::case(calls, case));
    }
    attack
}

impl Attack {
    pub fn passed(&self) -> u64 {
        self.done.iter().map(|done| done.passed).sum()
    }

    pub fn failed(&self) -> u64 {
        self.done.iter().map(|done| done.failed).sum()
    }

    /// One case of the family in hand, with buffers and a name by chance. Tells whether
    /// the table is one that passes.
    fn ask(&mut self, n: u8, table: &[u8]) -> bool {
        let cases = self.passed() + self.failed();
        self.ask_case(Case::drawn(n, table.to_vec(), cases))
    }

    fn ask_case(&mut self, case: Case) -> bool {
        let answers = ask(&self.calls, &case);
        let done = self.in_hand();
        let passes = answers[0].word == "passed";
        match differ(&answers) {
            false => done.passed += 1,
            true => done.fail(case),
        }
        for asked in answers {
            *done.words.entry((asked.call, asked.word)).or_default() += 1;
        }
        passes
    }

    fn in_hand(&mut self) -> &mut Done {
        self.done.last_mut().expect("a family is in hand")
    }
}

impl Done {
    fn fail(&mut self, case: Case) {
        self.failed += 1;
        let smaller = |other: &Case| case.table.len() < other.table.len();
        if self.smallest.as_ref().is_none_or(smaller) {
            self.smallest = Some(case);
        }
    }
}

impl Display for Done {
    fn fmt(&self, f: &mut Formatter<'_>) -> std::fmt::Result {
        let cases = self.passed + self.failed;
        writeln!(f, "{}: {cases} cases, {} differ", self.name, self.failed)?;
        for call in ["check", "lookup_answer", "settle"] {
            let of_call = self.words.iter().filter(|((of, _), _)| *of == call);
            let told = of_call.map(|((_, word), count)| format!("{word} {count}"));
            writeln!(f, "  {call}: {}", told.collect::<Vec<_>>().join(", "))?;
        }
        if let Some(small) = &self.shown {
            writeln!(f, "DIFFERS, made small:\n{small}")?;
        }
        Ok(())
    }
}

impl Display for Attack {
    fn fmt(&self, f: &mut Formatter<'_>) -> std::fmt::Result {
        for done in &self.done {
            write!(f, "{done}")?;
        }
        writeln!(f, "{} passed, {} failed", self.passed(), self.failed())
    }
}
