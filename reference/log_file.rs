//! Logs of calls: what each line is answered.

use crate::account::Account;
use crate::answer::Answer;
use crate::check::{Blame, Check};
use crate::fields::Fields;
use crate::found::{Found, Judge};
use crate::kind::Factor;
use crate::plan_file::MOST_BYTES;
use crate::row::MOST_ROWS;

/// What the next line has to be.
enum Due {
    Table,
    /// the clock line of a table with so many places
    Clock(usize),
    /// a call, or another table line
    Call(Account, Factor),
    /// nothing: the rest is not looked at
    Nothing,
}

/// How many places the table of a table line has.
fn read_table(fields: &Fields) -> Result<usize, Blame> {
    fields.begin_with("table")?;
    fields.count(3)?;
    fields.number_up_to(2, 255)?;
    let places = fields.number_up_to(3, MOST_ROWS as u32)?;
    Ok(places as usize)
}

/// What is told of all rows.
fn tell_rows(account: &mut Account) -> String {
    let found = account.found().to_vec();
    let line = |row: &Found| {
        let state = if account.is_held(row.number) { "held" } else { "kept" };
        format!("{}\t{state}\n", row.fields('\t'))
    };
    found.iter().map(line).collect()
}

/// The number in the second and last field of a call.
fn only_number(fields: &Fields) -> Result<u32, Blame> {
    fields.count(2)?;
    fields.number(2)
}

/// Makes a call about the row of a number, and says what is done then.
fn call_about(
    account: &mut Account,
    fields: &Fields,
    call: fn(&mut Account, u32) -> Result<(), Check>,
    done: &str,
) -> Result<String, Blame> {
    let number = only_number(fields)?;
    call(account, number)?;
    Ok(format!("{done}\t{number}\n"))
}

/// What a line with a call is answered.
fn make_call(account: &mut Account, clock: Factor, fields: &Fields) -> Result<String, Blame> {
    match fields.get(1) {
        Some(b"hold") => {
            let row = fields.row(clock)?;
            account.hold(row)?;
            Ok(format!("held\t{}\n", row.number))
        }
        Some(b"keep") => call_about(account, fields, Account::keep, "kept"),
        Some(b"release") => call_about(account, fields, Account::release, "released"),
        Some(b"withdraw") => call_about(account, fields, Account::withdraw, "withdrawn"),
        Some(b"bound") => {
            let Found { number, bound, vector, .. } = account.bound(only_number(fields)?)?;
            Ok(format!("bound\t{number}\t{bound}\t{vector}\n"))
        }
        Some(b"rows") => {
            fields.count(1)?;
            Ok(tell_rows(account))
        }
        _ => Err(Blame::Field(1, Check::Word)),
    }
}

/// The text of a line, without its newline, if it is not too long and has one.
fn text_of(line: &[u8]) -> Result<&[u8], Blame> {
    match line {
        [text @ .., b'\n'] if line.len() <= MOST_BYTES => Ok(text),
        _ => Err(Blame::Line(Check::Length)),
    }
}

/// What is due behind a line.
fn answer_line(judge: Judge, answer: &mut Answer, due: Due, number: usize, line: &[u8]) -> Due {
    let fields = text_of(line).map(Fields::of);
    match due {
        Due::Table => begin_evening(answer, number, fields.and_then(|fields| read_table(&fields))),
        Due::Clock(places) => match fields.and_then(|fields| fields.clock()) {
            Ok(clock) => Due::Call(Account::new(judge, places), clock),
            Err(blame) => {
                answer.refuse(number, blame);
                Due::Nothing
            }
        },
        Due::Call(mut account, clock) => match fields {
            Ok(fields) if fields.get(1) == Some(b"table") => {
                begin_evening(answer, number, read_table(&fields))
            }
            fields => {
                match fields.and_then(|fields| make_call(&mut account, clock, &fields)) {
                    Ok(text) => answer.text += &text,
                    Err(blame) => answer.refuse(number, blame),
                }
                Due::Call(account, clock)
            }
        },
        Due::Nothing => Due::Nothing,
    }
}

/// What is due behind a table line.
fn begin_evening(answer: &mut Answer, number: usize, places: Result<usize, Blame>) -> Due {
    match places {
        Ok(places) => Due::Clock(places),
        Err(blame) => {
            answer.refuse(number, blame);
            Due::Nothing
        }
    }
}

/// What is printed for a log.
pub fn answer(judge: Judge, log: &[u8]) -> Answer {
    let mut answer = Answer::default();
    let mut due = Due::Table;
    for (number, line) in (1..).zip(log.split_inclusive(|byte| *byte == b'\n')) {
        if matches!(due, Due::Nothing) {
            break;
        }
        due = answer_line(judge, &mut answer, due, number, line);
    }
    if matches!(due, Due::Table | Due::Clock(_)) {
        answer.refuse(0, Blame::Line(Check::Length));
    }
    answer
}
