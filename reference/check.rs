//! The checks, by number, and those that look at the numbers of a kind and of a row.

use crate::kind::{Factor, Jobs};
use crate::row::Row;

/// What is refused, with the number that is told.
#[derive(Clone, Copy, PartialEq, Eq, PartialOrd, Ord, Debug)]
pub enum Check {
    Job = 1,
    Period = 2,
    Delay = 3,
    Speed = 4,
    Number = 5,
    Priority = 6,
    Suspension = 7,
    Deadline = 8,
    Section = 9,
    NoPlace = 10,
    Late = 11,
    NotHeld = 12,
    NoSuchRow = 13,
    NotKept = 14,
    Count = 15,
    Digits = 16,
    Word = 17,
    Length = 18,
}

/// A check that applies, and what it names.
#[derive(Clone, Copy, PartialEq, Eq, Debug)]
pub enum Blame {
    Line(Check),
    /// a field of the line, from 1
    Field(usize, Check),
    /// the first late row
    Late(u32),
}

impl Check {
    /// Whether a call of a table is answered by it, on a line that is well formed.
    pub fn is_of_table(self) -> bool {
        (Check::Number..=Check::NotKept).contains(&self)
    }
}

impl Blame {
    pub fn check(self) -> Check {
        match self {
            Blame::Line(check) | Blame::Field(_, check) => check,
            Blame::Late(_) => Check::Late,
        }
    }

    /// What is told of it, about the line of this number.
    pub fn text(self, line: usize) -> String {
        let check = self.check() as u32;
        match self {
            Blame::Line(_) => format!("refused\t{line}\t0\t{check}\t0\n"),
            Blame::Field(field, _) => format!("refused\t{line}\t{field}\t{check}\t0\n"),
            Blame::Late(row) => format!("refused\t{line}\t0\t{check}\t{row}\n"),
        }
    }
}

impl From<Check> for Blame {
    fn from(check: Check) -> Blame {
        Blame::Line(check)
    }
}

/// The check that applies, unless this is so.
fn unless(sound: bool, check: Check) -> Result<(), Check> {
    if sound {
        Ok(())
    } else {
        Err(check)
    }
}

fn is_length(n: u32) -> bool {
    (1..=1_000_000).contains(&n)
}

/// The checks of a factor.
pub fn check_factor(factor: Factor) -> Result<(), Check> {
    let Factor { numerator, denominator } = factor;
    let sound = 1 <= denominator && denominator <= numerator && numerator <= 1000;
    unless(sound, Check::Speed)
}

/// The checks of jobs that are delayed.
pub fn check_jobs(jobs: Jobs, delay: u32) -> Result<(), Check> {
    let (job, heavy, among, period) = match jobs {
        Jobs::Every { job, period } => (job, job, 2, period),
        Jobs::Heavy { job, heavy, among, period } => (job, heavy, among, period),
    };
    unless(is_length(job) && is_length(heavy) && job <= heavy, Check::Job)?;
    unless(is_length(period) && (2..=64).contains(&among), Check::Period)?;
    unless(delay < period, Check::Delay)
}

/// The checks of a row that comes to others, where so many can stand, but for lateness.
pub fn check_row(row: &Row, others: &[Row], room: usize) -> Result<(), Check> {
    let is_name = |n: u32| (1..=255).contains(&n);
    let number_taken = others.iter().any(|other| other.number == row.number);
    unless(is_name(row.number) && !number_taken, Check::Number)?;
    let priority_taken = others.iter().any(|other| other.priority == row.priority);
    unless(is_name(row.priority) && !priority_taken, Check::Priority)?;
    let both_or_none = (row.suspension > 0) == (row.suspensions > 0);
    let in_limits = row.suspension <= 1_000_000 && row.suspensions <= 63;
    unless(both_or_none && in_limits, Check::Suspension)?;
    let deadline = u64::from(row.deadline);
    unless(1 <= deadline && deadline <= row.kind.spacing(), Check::Deadline)?;
    let longest = row.sections.iter().copied().max().unwrap_or(0);
    unless(u64::from(longest) <= row.kind.own(), Check::Section)?;
    unless(others.len() < room, Check::NoPlace)
}
