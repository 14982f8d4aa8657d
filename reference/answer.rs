//! What has to be printed for a set, a plan file or a log.

use crate::check::{Blame, Check};

/// A text, and the checks by which something was refused in it, in their order there.
#[derive(Default)]
pub struct Answer {
    pub text: String,
    pub refusals: Vec<Check>,
}

impl Answer {
    /// Tells that a line is refused; line 0 is none.
    pub fn refuse(&mut self, line: usize, blame: Blame) {
        self.refusals.push(blame.check());
        self.text += &blame.text(line);
    }
}
