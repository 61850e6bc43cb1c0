//! The binary: the program of document 01, the generator's sub-commands, and those
//! that ask the proved code.

use second::draw::draw;
use second::files;
use second::generate::{input, Kind};
use second::program::run;
use second::shares::shares;
use second::text;
use second::through::through;
use second::vectors;
use std::io::Write;
use std::path::Path;
use std::process::ExitCode;

const HELP: &str = "\
second settle                        the program: reads n and a table, prints X or S, R, V lines
second table FILE                    a table in the text form of examples/README.md, as an input of the program; - is standard input
second text                          an input of the program, in the text form
second draw FILE                     a table in the text form, as a picture (SVG) that shows how its rounds were decided
second generate --kind NAME --seed S writes an input of the program
second shares --cases N --seed S     counts what generated tables reach
second vectors FOLDER                writes the stored tables of crates/vectors, their names and answers
second program --runner COMMAND --cases N --seed S
                                     compares what the command prints with what settle prints; a table on which they differ is made small
second help                          prints this
With the feature library, which .ci/library builds and runs:
second compare --cases N --seed S    asks the proved code too, counts where the answers differ, and shows small tables on which they do
second attack                        the same on whole families of tables, names and buffers
second bench                         times of the proved check beside a plain one, of the settlement, and the stack of each call
second once proved|plain N RECORDS   one check of an honest full table, for whoever counts its instructions
";

/// What goes to standard output, and the exit status.
struct Output {
    bytes: Vec<u8>,
    status: u8,
}

impl Output {
    fn of(bytes: Vec<u8>) -> Output {
        Output { bytes, status: 0 }
    }
}

fn main() -> ExitCode {
    let arguments: Vec<String> = std::env::args().skip(1).collect();
    let words: Vec<&str> = arguments.iter().map(String::as_str).collect();
    match answer(&words) {
        Ok(output) => match std::io::stdout().write_all(&output.bytes) {
            Ok(()) => ExitCode::from(output.status),
            Err(error) => fail(&error.to_string(), 1),
        },
        Err(message) => fail(&message, 2),
    }
}

fn fail(message: &str, status: u8) -> ExitCode {
    eprintln!("second: {message}");
    ExitCode::from(status)
}

/// What is printed, or what is wrong with the arguments.
fn answer(words: &[&str]) -> Result<Output, String> {
    match words {
        ["settle"] => Ok(Output::of(run(&files::standard_input()?))),
        ["table", file] => Ok(Output::of(files::text(file)?.input())),
        ["text"] => Ok(Output::of(
            text::of_input(&files::standard_input()?)?.into_bytes(),
        )),
        ["draw", file] => Ok(Output::of(draw(&files::text(file)?).into_bytes())),
        ["generate", "--kind", name, "--seed", seed] => {
            let kind = Kind::from_name(name).ok_or_else(|| no_kind(name))?;
            Ok(Output::of(input(kind, number(seed)?)))
        }
        ["shares", "--cases", cases, "--seed", seed] => {
            let shares = shares(number(cases)?, number(seed)?);
            Ok(Output::of(shares.to_string().into_bytes()))
        }
        ["vectors", folder] => match vectors::write(Path::new(folder)) {
            Ok(files) => Ok(Output::of(format!("{files} files\n").into_bytes())),
            Err(error) => Err(format!("{folder}: {error}")),
        },
        ["program", "--runner", runner, "--cases", cases, "--seed", seed] => {
            match through(runner, number(cases)?, number(seed)?) {
                Ok(compared) => Ok(Output {
                    bytes: compared.to_string().into_bytes(),
                    status: u8::from(compared.failed() > 0),
                }),
                Err(error) => Err(format!("{runner}: {error}")),
            }
        }
        ["compare", "--cases", cases, "--seed", seed] => {
            linked::compare(number(cases)?, number(seed)?)
        }
        ["attack"] => linked::attack(),
        ["bench"] => linked::bench(),
        ["once", by, n, records] => linked::once(by, number(n)?, number(records)?),
        ["help"] => Ok(Output::of(help().into_bytes())),
        _ => Err(format!("unknown arguments\n{HELP}")),
    }
}

/// The sub-commands that ask the proved code.
#[cfg(feature = "library")]
mod linked {
    use crate::Output;

    /// Status 1 on a difference.
    pub fn compare(cases: u64, seed: u64) -> Result<Output, String> {
        let comparison = second::compare::compare(&second::library::CALLS, cases, seed);
        Ok(Output {
            bytes: comparison.to_string().into_bytes(),
            status: u8::from(comparison.differed() > 0),
        })
    }

    /// Status 1 on a difference.
    pub fn attack() -> Result<Output, String> {
        let attack = second::attack::attack(&second::library::CALLS);
        Ok(Output {
            bytes: attack.to_string().into_bytes(),
            status: u8::from(attack.failed() > 0),
        })
    }

    /// Status 1 if the checks that are timed do not answer the same.
    pub fn bench() -> Result<Output, String> {
        let bench = second::bench::bench();
        Ok(Output {
            bytes: bench.to_string().into_bytes(),
            status: u8::from(bench.differed()),
        })
    }

    pub fn once(by: &str, n: u64, records: u64) -> Result<Output, String> {
        let n = u8::try_from(n).map_err(|_| format!("not an author count: {n}"))?;
        match second::bench::once(by, n, records as usize) {
            Some(passed) => Ok(Output::of(format!("passed: {passed}\n").into_bytes())),
            None => Err(format!("no check {by}")),
        }
    }
}

#[cfg(not(feature = "library"))]
mod linked {
    use crate::Output;

    const WITHOUT: &str = "built without the library; .ci/library builds and runs it with";

    pub fn compare(_cases: u64, _seed: u64) -> Result<Output, String> {
        Err(WITHOUT.to_string())
    }

    pub fn attack() -> Result<Output, String> {
        Err(WITHOUT.to_string())
    }

    pub fn bench() -> Result<Output, String> {
        Err(WITHOUT.to_string())
    }

    pub fn once(_by: &str, _n: u64, _records: u64) -> Result<Output, String> {
        Err(WITHOUT.to_string())
    }
}

fn number(word: &str) -> Result<u64, String> {
    word.parse().map_err(|_| format!("not a number: {word}"))
}

fn kind_names() -> String {
    let names: Vec<String> = Kind::ALL.iter().map(|kind| kind.name()).collect();
    names.join(" ")
}

fn no_kind(name: &str) -> String {
    format!("no kind {name}; the kinds are: {}", kind_names())
}

fn help() -> String {
    format!("{HELP}kinds: {}\n", kind_names())
}
