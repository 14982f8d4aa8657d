//! The rules once more, written apart from the planner and sharing no code with it, to hold it against. `scan` is a brute force by
//! the definitions, on rows that `set_file`, `plan_file` and `log_file` read; `compare` holds to it what the built programs print,
//! for cases that `cases` makes at random. `peer` finds the same quickly, for the benchmark. Times are in ticks of 100 microseconds.

mod account;
mod answer;
mod cases;
mod check;
mod compare;
mod comparison;
mod damage;
mod demand;
mod fields;
mod found;
mod hard;
mod kind;
mod log_file;
mod making;
mod options;
mod peer;
mod plan_file;
mod program;
mod random;
mod row;
mod scan;
mod set_file;

use compare::compare_all;
use comparison::{Difference, Halt};
use found::Judge;
use options::Options;
use program::about;
use std::env;
use std::fs;
use std::io::{self, Read, Write};
use std::process::ExitCode;

const HELP: &str = "\
reference: the rules of the planner, worked out apart from it

    reference compare [--seed N] [--sets N] [--files N] [--logs N] [--programs FOLDER]

compares what the programs judge_sets, plan and replay of the folder print with a brute force, for sets of rows,
plan files and logs of calls made at random from the seed, and ends at the first difference. If not said, the seed
is 1, there are 200,000 sets, 200,000 files and 20,000 logs, and the folder is target/reference.

    reference sets METHOD           what judge_sets has to print for standard input
    reference plan METHOD FILE ..   what plan has to print for the files
    reference replay METHOD FILE .. what replay has to print for the files

METHOD is one of

    brute   every window and every vector, and work added up job by job
    peer    the method of the planner: from a window straight to the next that can do
    scan    the sum of the peer, in each window in turn

With no file, plan and replay read one from standard input.

    reference hard-sets SEED COUNT [ROWS LONGEST]
    reference hard-files SEED COUNT [ROWS LONGEST]

print so many hard sets of so many rows, 12 if not said, with periods up to LONGEST, 1,000 to 1,000,000;
or plan files of the same sets, one behind the other.

Exit status: 0; 1 at a difference, where a check never came up among many cases, or where a line of a set cannot
be read; 2 where a file or a program fails, or for arguments that are not understood.
";

/// Why the program does not end with status 0, and with which it ends.
struct Failure {
    status: u8,
    text: Vec<u8>,
}

impl Failure {
    /// Answers differ, or cannot be given.
    fn of_answers(text: impl Into<Vec<u8>>) -> Failure {
        Failure { status: 1, text: text.into() }
    }

    fn of_arguments() -> Failure {
        Failure { status: 2, text: b"reference --help says what there is".to_vec() }
    }
}

impl From<io::Error> for Failure {
    fn from(error: io::Error) -> Failure {
        Failure { status: 2, text: error.to_string().into_bytes() }
    }
}

impl From<Halt> for Failure {
    fn from(halt: Halt) -> Failure {
        match halt {
            Halt::Differs(Difference { text, .. }) => Failure::of_answers(text),
            Halt::Missing(checks) => Failure::of_answers(format!("checks {checks:?} never came up")),
            Halt::Failed(error) => Failure::from(error),
        }
    }
}

fn judge_of(method: Option<String>) -> Result<Judge, Failure> {
    match method.as_deref() {
        Some("brute") => Ok(scan::judge),
        Some("peer") => Ok(peer::judge),
        Some("scan") => Ok(peer::scan),
        _ => Err(Failure::of_arguments()),
    }
}

/// What is printed for all sets on standard input.
fn answer_sets(judge: Judge) -> Result<String, Failure> {
    let text = io::read_to_string(io::stdin())?;
    set_file::answer_all(judge, &text).map_err(Failure::of_answers)
}

/// What is printed for files, or for one on standard input. `named` says whether their names are.
fn answer_files(
    names: impl Iterator<Item = String>,
    named: bool,
    answer: impl Fn(&[u8]) -> String,
) -> Result<String, Failure> {
    let mut text = String::new();
    let mut names = names.peekable();
    if names.peek().is_none() {
        let mut file = Vec::new();
        io::stdin().read_to_end(&mut file)?;
        return Ok(answer(&file));
    }
    for name in names {
        let file = fs::read(&name).map_err(|error| about(name.as_ref(), error))?;
        if named {
            text += &format!("{name}\n");
        }
        text += &answer(&file);
    }
    Ok(text)
}

/// Reads seed, count, rows and the longest period, and makes hard sets of these.
fn make_hard(
    words: impl Iterator<Item = String>,
    make: fn(u64, u64, usize, u64) -> String,
) -> Result<String, Failure> {
    let numbers: Option<Vec<u64>> = words.map(|word| word.parse().ok()).collect();
    match numbers.as_deref() {
        Some(&[seed, count]) => Ok(make(seed, count, 12, 1_000_000)),
        Some(&[seed, count, rows @ 1..=12, longest @ 1_000..=1_000_000]) => {
            Ok(make(seed, count, rows as usize, longest))
        }
        _ => Err(Failure::of_arguments()),
    }
}

fn run(mut words: impl Iterator<Item = String>) -> Result<String, Failure> {
    match words.next().as_deref() {
        Some("compare") => {
            let options = Options::read(words).ok_or_else(Failure::of_arguments)?;
            compare_all(&options)?;
            Ok(String::new())
        }
        Some("sets") => answer_sets(judge_of(words.next())?),
        Some("plan") => {
            let judge = judge_of(words.next())?;
            answer_files(words, true, |file| plan_file::answer(judge, file).text)
        }
        Some("replay") => {
            let judge = judge_of(words.next())?;
            answer_files(words, false, |log| log_file::answer(judge, log).text)
        }
        Some("hard-sets") => make_hard(words, hard::sets),
        Some("hard-files") => make_hard(words, hard::files),
        Some("--help") => Ok(String::from(HELP)),
        _ => Err(Failure::of_arguments()),
    }
}

fn main() -> ExitCode {
    let printed = run(env::args().skip(1)).and_then(|text| Ok(io::stdout().write_all(text.as_bytes())?));
    match printed {
        Ok(()) => ExitCode::SUCCESS,
        Err(Failure { status, text }) => {
            // where even this cannot be written, the status says it
            let _ = io::stderr().write_all(&[b"reference: ", &text[..], b"\n"].concat());
            ExitCode::from(status)
        }
    }
}
