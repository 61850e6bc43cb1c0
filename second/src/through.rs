//! The built program against this one: a command is run on random inputs of the
//! program, and what it prints is compared with what `program::run` says.

use crate::examples::p2;
use crate::generate::{input, Kind};
use crate::program::{run, PROGRAM_BYTES};
use crate::record::RECORD_BYTES;
use crate::rng::Rng;
use crate::shown::{self, MOST_LINES};
use crate::shrink::{shrink, Question};
use std::collections::BTreeMap;
use std::io::{self, Read, Write};
use std::process::{Command, Stdio};
use std::thread;

/// Of all cases that differ, this many are made small and shown.
const SHOWN: usize = 3;
/// How much is asked to make one case small, in records.
const MOST_ASKED: usize = 30_000;

/// How many cases gave what is expected, and what they began with.
pub struct Through<'a> {
    /// The command that is run.
    runner: &'a str,
    passed: u64,
    failed: u64,
    first_words: BTreeMap<String, u64>,
    differences: Vec<String>,
}

/// The inputs at the edges of what the program holds, then random ones.
pub fn through(runner: &str, cases: u64, seed: u64) -> io::Result<Through<'_>> {
    let mut rng = Rng::new(seed);
    let mut through = Through {
        runner,
        passed: 0,
        failed: 0,
        first_words: BTreeMap::new(),
        differences: Vec::new(),
    };
    for (name, bytes) in edges(&mut rng) {
        through.compare(&name, &bytes, bytes.len())?;
        through.compare(&name, &bytes, 1000)?;
    }
    // n by itself, a byte more than a record, and no piece that ends with one.
    let small = [vec![4], p2().table()].concat();
    for piece in [1, 139, 100] {
        through.compare("P2", &small, piece)?;
    }
    for _ in through.cases()..cases {
        let kind = Kind::draw(&mut rng);
        let drawn = rng.draw();
        let bytes = input(kind, drawn);
        let piece = piece_of(&mut rng, bytes.len());
        let name = format!("{} --seed {drawn}", kind.name());
        through.compare(&name, &bytes, piece)?;
    }
    Ok(through)
}

/// No byte, one byte, and both sides of the longest input: with a table that
/// passes, with another count, and with bytes that mean nothing.
fn edges(rng: &mut Rng) -> Vec<(String, Vec<u8>)> {
    let full = input(Kind::ProgramFull, rng.draw());
    let mut edges = vec![("no byte".to_string(), Vec::new())];
    for n in [0, 4, 5, 31, 34, 255] {
        edges.push((format!("one byte {n}"), vec![n]));
    }
    let lengths = [PROGRAM_BYTES - RECORD_BYTES, PROGRAM_BYTES - 1];
    for length in lengths.into_iter().chain(PROGRAM_BYTES..=PROGRAM_BYTES + 2) {
        let mut bytes = full.clone();
        bytes.resize(length, 0);
        edges.push((format!("{length} bytes of a full table"), bytes.clone()));
        bytes[0] = 5;
        edges.push((format!("{length} bytes with n = 5"), bytes));
        let noise = (0..length).map(|_| rng.draw() as u8).collect();
        edges.push((format!("{length} bytes of noise"), noise));
    }
    edges.push(("200,000 bytes".to_string(), vec![4; 200_000]));
    edges
}

/// How many bytes are written at a time: mostly all, else so few that a read
/// finds only a part of the input.
fn piece_of(rng: &mut Rng, length: usize) -> usize {
    match rng.chance(70) {
        true => length,
        false => rng.between(1 + length / 8, 1 + length / 2),
    }
}

impl Through<'_> {
    pub fn cases(&self) -> u64 {
        self.passed + self.failed
    }

    pub fn failed(&self) -> u64 {
        self.failed
    }

    fn compare(&mut self, name: &str, bytes: &[u8], piece: usize) -> io::Result<()> {
        let expected = run(bytes);
        let said = run_command(self.runner, bytes, piece)?;
        *self.first_words.entry(first_word(&expected)).or_default() += 1;
        if said.is(&expected) {
            self.passed += 1;
            return Ok(());
        }
        self.failed += 1;
        let mut difference = format!("{name}, {piece} at a time");
        if self.differences.len() < SHOWN {
            difference.push_str("; made small:\n");
            difference.push_str(&self.shown(bytes, piece)?);
        }
        self.differences.push(difference);
        Ok(())
    }

    /// A smaller input on which the command still prints another thing, and both.
    fn shown(&self, bytes: &[u8], piece: usize) -> io::Result<String> {
        // Pieces take their time, and mostly there is no need of them.
        let (piece, most) = match self.differs(bytes, usize::MAX) {
            true => (usize::MAX, MOST_ASKED),
            false => (piece, MOST_ASKED / 100),
        };
        let small = self.small(bytes, piece, most);
        let said = run_command(self.runner, &small, piece)?;
        let expected = run(&small);
        let ends = if said.ended_well { "well" } else { "badly" };
        let comments = [
            format!("the rules print:\n{}", in_lines(&expected)),
            format!("the command prints:\n{}", in_lines(&said.printed)),
            format!("and ends {ends}"),
        ];
        let (no_byte, n, table) = match small.split_first() {
            Some((&n, table)) => ("", n, table),
            None => ("# no byte at all\n", 0, &[][..]),
        };
        let shown = shown::with_comments(&comments, n, table);
        Ok(format!("{no_byte}{shown}"))
    }

    fn small(&self, bytes: &[u8], piece: usize, most: usize) -> Vec<u8> {
        let Some((&n, table)) = bytes.split_first() else {
            return Vec::new();
        };
        let differs = |question: &Question| self.differs(&question.input(), piece);
        shrink(Question::of_table(n, table), most, differs).input()
    }

    /// What can't be run is no difference.
    fn differs(&self, bytes: &[u8], piece: usize) -> bool {
        let said = run_command(self.runner, bytes, piece);
        said.is_ok_and(|said| !said.is(&run(bytes)))
    }
}

/// `S`, or `X` and the refusal's number.
fn first_word(printed: &[u8]) -> String {
    let text = String::from_utf8_lossy(printed);
    let mut words = text.split_whitespace();
    match (words.next(), words.next()) {
        (Some("X"), Some(number)) => format!("X {number:>2}"),
        (Some(word), _) => word.to_string(),
        (None, _) => "nothing".to_string(),
    }
}

/// What a command printed, and whether it ended with status 0.
struct Said {
    printed: Vec<u8>,
    ended_well: bool,
}

impl Said {
    fn is(&self, expected: &[u8]) -> bool {
        self.ended_well && self.printed == expected
    }
}

/// What is printed as a reader sees it, the beginning of it if it is long.
fn in_lines(printed: &[u8]) -> String {
    let text = String::from_utf8_lossy(printed);
    let lines = text
        .lines()
        .take(MOST_LINES)
        .map(|line| format!("  {}", line.escape_debug()));
    let mut shown: Vec<String> = lines.collect();
    let more = text.lines().count() - shown.len();
    if more > 0 {
        shown.push(format!("  and {more} lines more"));
    }
    shown.join("\n")
}

/// Runs the command with the bytes on its standard input, so many at a time.
fn run_command(runner: &str, bytes: &[u8], piece: usize) -> io::Result<Said> {
    let mut child = Command::new(runner)
        .stdin(Stdio::piped())
        .stdout(Stdio::piped())
        .spawn()?;
    let (standard_input, standard_output) = (child.stdin.take(), child.stdout.take());
    let (Some(mut to), Some(mut from)) = (standard_input, standard_output) else {
        return Err(io::Error::other("no pipe"));
    };
    let mut printed = Vec::new();
    // Both ends at once, as the program may print before it has read all. A program
    // that has enough closes its end, and the rest of the bytes is not taken.
    thread::scope(|scope| {
        scope.spawn(move || write_pieces(&mut to, bytes, piece));
        from.read_to_end(&mut printed)
    })?;
    Ok(Said {
        printed,
        ended_well: child.wait()?.success(),
    })
}

/// Several pieces with a pause between, so that each is read by itself.
fn write_pieces(to: &mut impl Write, bytes: &[u8], piece: usize) {
    let pause = std::time::Duration::from_millis(2);
    for (i, part) in bytes.chunks(piece.max(1)).enumerate() {
        if i > 0 {
            thread::sleep(pause);
        }
        if to.write_all(part).and_then(|()| to.flush()).is_err() {
            return;
        }
    }
}

impl std::fmt::Display for Through<'_> {
    fn fmt(&self, f: &mut std::fmt::Formatter<'_>) -> std::fmt::Result {
        writeln!(f, "{} cases; they begin with:", self.cases())?;
        for (word, &count) in &self.first_words {
            let in_100 = 100.0 * count as f64 / self.cases() as f64;
            writeln!(f, "{count:8} {in_100:6.2}%  {word}")?;
        }
        for difference in &self.differences {
            writeln!(f, "DIFFERS: {difference}")?;
        }
        writeln!(f, "{} passed, {} failed", self.passed, self.failed)
    }
}
