//! Rows with their kinds, and their lines in the three formats.

use crate::kind::{Kind, Layer};

/// A row has a section length for each of so many locks.
pub const LOCKS: usize = 8;

/// The most rows of a table.
pub const MOST_ROWS: usize = 12;

/// A row with its kind.
#[derive(Clone, Copy, Debug)]
pub struct Row {
    pub number: u32,
    pub priority: u32,
    pub suspension: u32,
    pub suspensions: u32,
    pub deadline: u32,
    pub sections: [u32; LOCKS],
    pub kind: Kind,
}

impl Row {
    fn numbers(&self) -> [u32; 5] {
        [self.number, self.priority, self.suspension, self.suspensions, self.deadline]
    }

    /// The line of a set, with all layers of the kind, the outer one first.
    pub fn set_line(&self) -> String {
        let mut line = String::from("row");
        for number in self.numbers().iter().chain(&self.sections) {
            line += &format!(" {number}");
        }
        for layer in self.kind.layers.iter().rev().flatten() {
            line += &match layer {
                Layer::Delayed(delay) => format!(" delayed {delay}"),
                Layer::Slowed(factor) => {
                    format!(" slowed {} {}", factor.numerator, factor.denominator)
                }
            };
        }
        format!("{line} {}\n", self.kind.jobs)
    }

    /// The line of a plan file or of a log, which begins with this word. The clock, which slows the jobs, stands in another line.
    pub fn tab_line(&self, word: &str) -> String {
        let delay = match self.kind.layers[0] {
            Some(Layer::Delayed(delay)) => delay,
            _ => 0,
        };
        let mut line = String::from(word);
        for number in self.numbers().iter().chain([&delay]).chain(&self.sections) {
            line += &format!("\t{number}");
        }
        format!("{line} {}\n", self.kind.jobs).replace(' ', "\t")
    }
}
