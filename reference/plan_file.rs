//! Plan files: the report, or the line of the refusal.

use crate::account::Account;
use crate::answer::Answer;
use crate::check::{Blame, Check};
use crate::fields::Fields;
use crate::found::{Found, Judge};
use crate::row::MOST_ROWS;

/// The most bytes of a plan file, and of a line of a log.
pub const MOST_BYTES: usize = 4096;

/// A line, counted from 1, and what is wrong with it; line 0 is the whole file.
struct Refusal(usize, Blame);

/// What is found for the rows of a file.
fn load(judge: Judge, file: &[u8]) -> Result<Vec<Found>, Refusal> {
    let text = match file {
        [text @ .., b'\n'] if file.len() <= MOST_BYTES => text,
        _ => return Err(Refusal(0, Blame::Line(Check::Length))),
    };
    let mut lines = (1..).zip(text.split(|byte| *byte == b'\n').map(Fields::of));
    let (_, first) = lines.next().expect("a split has a first part");
    let clock = first.clock().map_err(|blame| Refusal(1, blame))?;
    let mut account = Account::new(judge, MOST_ROWS);
    for (number, fields) in lines {
        let row = fields.begin_with("row").and_then(|()| fields.row(clock));
        let held = row.and_then(|row| account.hold(row));
        held.map_err(|blame| Refusal(number, blame))?;
    }
    Ok(account.found().to_vec())
}

/// What is printed for a file.
pub fn answer(judge: Judge, file: &[u8]) -> Answer {
    let mut answer = Answer::default();
    match load(judge, file) {
        Ok(found) => answer.text.extend(found.iter().map(|row| row.fields('\t') + "\n")),
        Err(Refusal(line, blame)) => answer.refuse(line, blame),
    }
    answer
}
