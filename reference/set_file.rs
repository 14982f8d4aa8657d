//! Sets of rows, as `judge_sets` reads them: a line for each row, and one that says what is asked of the rows before it. Single
//! blanks stand between the fields.

use crate::account::Account;
use crate::answer::Answer;
use crate::check::{Blame, Check};
use crate::found::{Judge, Late};
use crate::kind::{Factor, Jobs, Kind, Layer};
use crate::row::{Row, LOCKS, MOST_ROWS};
use std::iter::Peekable;
use std::str::Split;

/// What is asked of a set.
#[derive(Clone, Copy, Debug)]
pub enum Question {
    /// what is found for each row
    Judge,
    /// whether the last row can be held over the others, so many times
    Hold(u32),
}

impl Question {
    pub fn line(self) -> String {
        match self {
            Question::Judge => String::from("judge\n"),
            Question::Hold(times) => format!("hold {times}\n"),
        }
    }
}

/// What is said of rows that are judged, or the check that speaks against them.
fn judge_set(judge: Judge, rows: &[Row]) -> Result<String, Blame> {
    if rows.len() > MOST_ROWS {
        return Err(Blame::Line(Check::NoPlace));
    }
    let found = judge(rows).map_err(|Late(number)| Blame::Late(number))?;
    Ok(found.iter().map(|row| row.fields(' ') + "\n").collect())
}

/// Holds the last row so many times, over a table that keeps the others, and releases it each time.
fn hold_last(judge: Judge, rows: &[Row], times: u32) -> Result<String, Blame> {
    let mut account = Account::new(judge, MOST_ROWS);
    if let Some((last, others)) = rows.split_last() {
        for row in others {
            account.hold(*row)?;
            account.keep(row.number)?;
        }
        for _ in 0..times {
            account.hold(*last)?;
            account.release(last.number)?;
        }
    }
    Ok(format!("held {times}\n"))
}

/// What is printed for a set.
pub fn answer(judge: Judge, rows: &[Row], question: Question) -> Answer {
    let answered = match question {
        Question::Judge => judge_set(judge, rows),
        Question::Hold(times) => hold_last(judge, rows, times),
    };
    let refusals = answered.as_ref().err().map(|blame| blame.check());
    let text = answered.unwrap_or_else(|blame| match (question, blame) {
        (_, Blame::Late(number)) => format!("late {number}\n"),
        (Question::Judge, _) => String::from("too many\n"),
        (Question::Hold(_), _) => format!("refused {}\n", blame.check() as u32),
    });
    Answer { text: text + "end\n", refusals: refusals.into_iter().collect() }
}

/// A line: a row, or what is asked of the rows before it.
enum Line {
    Row(Row),
    Ask(Question),
}

/// A line cannot be read.
struct Unreadable;

/// The fields of a line that are left.
struct Words<'a>(Peekable<Split<'a, char>>);

fn number_of(word: &str) -> Result<u32, Unreadable> {
    word.parse().map_err(|_| Unreadable)
}

impl<'a> Words<'a> {
    fn word(&mut self) -> Result<&'a str, Unreadable> {
        self.0.next().ok_or(Unreadable)
    }

    fn numbers<const N: usize>(&mut self) -> Result<[u32; N], Unreadable> {
        let mut numbers = [0; N];
        for number in &mut numbers {
            *number = number_of(self.word()?)?;
        }
        Ok(numbers)
    }

    /// A layer, if one stands here.
    fn layer(&mut self) -> Result<Option<Layer>, Unreadable> {
        if self.0.next_if_eq(&"delayed").is_some() {
            let [delay] = self.numbers()?;
            return Ok(Some(Layer::Delayed(delay)));
        }
        if self.0.next_if_eq(&"slowed").is_some() {
            let [numerator, denominator] = self.numbers()?;
            return Ok(Some(Layer::Slowed(Factor { numerator, denominator })));
        }
        Ok(None)
    }

    fn row(&mut self) -> Result<Row, Unreadable> {
        let [number, priority, suspension, suspensions, deadline] = self.numbers()?;
        let sections = self.numbers::<LOCKS>()?;
        let outer = self.layer()?;
        let inner = self.layer()?;
        let word = self.word()?;
        let numbers = self.0.by_ref().map(number_of).collect::<Result<Vec<u32>, Unreadable>>()?;
        let jobs = Jobs::of(word.as_bytes(), &numbers).ok_or(Unreadable)?;
        let kind = Kind { jobs, layers: [inner, outer] };
        Ok(Row { number, priority, suspension, suspensions, deadline, sections, kind })
    }
}

fn read_line(line: &str) -> Result<Line, Unreadable> {
    let mut words = Words(line.split(' ').peekable());
    let line = match words.word()? {
        "row" => Line::Row(words.row()?),
        "judge" => Line::Ask(Question::Judge),
        "hold" => {
            let [times] = words.numbers()?;
            Line::Ask(Question::Hold(times))
        }
        _ => return Err(Unreadable),
    };
    match words.0.next() {
        None => Ok(line),
        Some(_) => Err(Unreadable),
    }
}

/// What is printed for all sets of a text; or why not.
pub fn answer_all(judge: Judge, text: &str) -> Result<String, String> {
    let mut answers = String::new();
    let mut rows = Vec::new();
    for (number, line) in (1usize..).zip(text.lines()) {
        match read_line(line).map_err(|Unreadable| format!("line {number} cannot be read"))? {
            Line::Row(row) => rows.push(row),
            Line::Ask(question) => {
                answers += &answer(judge, &rows, question).text;
                rows.clear();
            }
        }
    }
    if rows.is_empty() {
        Ok(answers)
    } else {
        Err(String::from("nothing is asked of the last set"))
    }
}
