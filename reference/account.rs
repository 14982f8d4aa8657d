//! The account of holds: what a table has to answer, by the calls alone.

use crate::check::{check_row, Blame, Check};
use crate::found::{Found, Judge, Late};
use crate::row::Row;

/// How many rows there is room for, the rows, and which of them have an unspent hold.
pub struct Account {
    judge: Judge,
    room: usize,
    rows: Vec<Row>,
    /// what is found for the rows, where that was asked since one left
    found: Option<Vec<Found>>,
    unspent: Vec<u32>,
}

impl Account {
    /// The account of a new table with room for so many rows.
    pub fn new(judge: Judge, room: usize) -> Account {
        Account { judge, room, rows: Vec::new(), found: None, unspent: Vec::new() }
    }

    /// What is found for all rows, highest first. Leaving a row out makes none late; if it did, nothing would be found, and the
    /// table would answer otherwise.
    pub fn found(&mut self) -> &[Found] {
        self.found.get_or_insert_with(|| (self.judge)(&self.rows).unwrap_or_default())
    }

    pub fn is_held(&self, number: u32) -> bool {
        self.unspent.contains(&number)
    }

    fn has_row(&self, number: u32) -> bool {
        self.rows.iter().any(|row| row.number == number)
    }

    pub fn hold(&mut self, row: Row) -> Result<(), Blame> {
        check_row(&row, &self.rows, self.room)?;
        let mut rows = self.rows.clone();
        rows.push(row);
        self.found = Some((self.judge)(&rows).map_err(|Late(number)| Blame::Late(number))?);
        self.rows = rows;
        self.unspent.push(row.number);
        Ok(())
    }

    pub fn keep(&mut self, number: u32) -> Result<(), Check> {
        let place = self.unspent.iter().position(|unspent| *unspent == number);
        self.unspent.remove(place.ok_or(Check::NotHeld)?);
        Ok(())
    }

    pub fn release(&mut self, number: u32) -> Result<(), Check> {
        self.keep(number)?;
        self.leave(number);
        Ok(())
    }

    pub fn withdraw(&mut self, number: u32) -> Result<(), Check> {
        if !self.has_row(number) {
            return Err(Check::NoSuchRow);
        }
        if self.is_held(number) {
            return Err(Check::NotKept);
        }
        self.leave(number);
        Ok(())
    }

    /// The row that is asked for its bound.
    pub fn bound(&mut self, number: u32) -> Result<Found, Check> {
        let found = self.found().iter().find(|found| found.number == number);
        found.copied().ok_or(Check::NoSuchRow)
    }

    /// Takes a row out.
    fn leave(&mut self, number: u32) {
        self.rows.retain(|row| row.number != number);
        self.found = None;
    }
}
