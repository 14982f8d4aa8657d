//! Lines that are read field by field: the clock line, and what stands behind the first word of a row.

use crate::check::{check_factor, check_jobs, Blame, Check};
use crate::kind::{Factor, Jobs, Kind, Layer};
use crate::row::Row;

/// The fields of a line without its newline. They are counted from 1.
pub struct Fields<'a>(Vec<&'a [u8]>);

/// The number that digits write.
fn value_of(field: &[u8]) -> Option<u32> {
    if field.is_empty() {
        return None;
    }
    field.iter().try_fold(0u32, |value, byte| {
        let digit = char::from(*byte).to_digit(10)?;
        value.checked_mul(10)?.checked_add(digit)
    })
}

impl<'a> Fields<'a> {
    pub fn of(line: &'a [u8]) -> Fields<'a> {
        Fields(line.split(|byte| *byte == b'\t').collect())
    }

    pub fn get(&self, field: usize) -> Option<&'a [u8]> {
        self.0.get(field - 1).copied()
    }

    /// Whether the first field is the word that is due.
    pub fn begin_with(&self, word: &str) -> Result<(), Blame> {
        if self.get(1) == Some(word.as_bytes()) {
            Ok(())
        } else {
            Err(Blame::Field(1, Check::Word))
        }
    }

    /// Whether there are as many fields as are due.
    pub fn count(&self, due: usize) -> Result<(), Blame> {
        if self.0.len() == due {
            Ok(())
        } else {
            Err(Blame::Line(Check::Count))
        }
    }

    /// The number in a field.
    pub fn number(&self, field: usize) -> Result<u32, Blame> {
        let value = self.get(field).and_then(value_of);
        value.ok_or(Blame::Field(field, Check::Digits))
    }

    /// The number in a field where there is a largest one.
    pub fn number_up_to(&self, field: usize, largest: u32) -> Result<u32, Blame> {
        let number = self.number(field)?;
        if largest < number {
            return Err(Blame::Field(field, Check::Digits));
        }
        Ok(number)
    }

    /// The numbers in the fields from this one on.
    fn numbers<const N: usize>(&self, first: usize) -> Result<[u32; N], Blame> {
        let mut numbers = [0; N];
        for (field, number) in (first..).zip(&mut numbers) {
            *number = self.number(field)?;
        }
        Ok(numbers)
    }

    /// The factor of a clock line.
    pub fn clock(&self) -> Result<Factor, Blame> {
        self.begin_with("clock")?;
        self.count(3)?;
        let [numerator, denominator] = self.numbers(2)?;
        let factor = Factor { numerator, denominator };
        check_factor(factor)?;
        Ok(factor)
    }

    /// The row of a line whose first word is right, under this clock.
    pub fn row(&self, clock: Factor) -> Result<Row, Blame> {
        let word = self.get(16).ok_or(Check::Count)?;
        let due = match word {
            b"every" => 18,
            b"heavy" => 20,
            _ => return Err(Blame::Field(16, Check::Word)),
        };
        self.count(due)?;
        let [number, priority, suspension, suspensions, deadline, delay] = self.numbers(2)?;
        let sections = self.numbers(8)?;
        let numbers = (17..=due).map(|field| self.number(field)).collect::<Result<Vec<u32>, Blame>>()?;
        let jobs = Jobs::of(word, &numbers).ok_or(Check::Count)?;
        check_jobs(jobs, delay)?;
        let kind = Kind { jobs, layers: [Some(Layer::Delayed(delay)), Some(Layer::Slowed(clock))] };
        Ok(Row { number, priority, suspension, suspensions, deadline, sections, kind })
    }
}
