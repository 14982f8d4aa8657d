//! What is found for rows, by whichever method.

use crate::row::Row;

/// What is found for a row.
#[derive(Clone, Copy, PartialEq, Eq, Debug)]
pub struct Found {
    pub number: u32,
    pub bound: u32,
    pub vector: u32,
    pub blocking: u64,
}

/// The number of the first late row.
#[derive(Clone, Copy, PartialEq, Eq, Debug)]
pub struct Late(pub u32);

/// What is found for rows, highest first, or the first late one.
pub type Judged = Result<Vec<Found>, Late>;

/// A way to find it, for rows in any order.
pub type Judge = fn(&[Row]) -> Judged;

impl Found {
    /// The fields of the row's line, with this between two of them.
    pub fn fields(&self, mark: char) -> String {
        let Found { number, bound, vector, blocking } = self;
        format!("row{mark}{number}{mark}{bound}{mark}{vector}{mark}{blocking}")
    }
}
