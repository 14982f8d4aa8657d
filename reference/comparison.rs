//! One comparison: what a program prints for some cases, with what it has to print for them.

use crate::cases::Case;
use crate::check::Check;
use crate::program::{Program, Ran};
use crate::random::Random;
use std::collections::BTreeMap;
use std::io;
use std::ops::{AddAssign, Range, RangeInclusive};
use std::path::Path;

/// What is compared.
pub struct Comparison {
    /// what the cases are called, and the parts of one
    pub cases: &'static str,
    pub parts: &'static str,
    pub program: Program,
    pub make: fn(&mut Random) -> Case,
    pub count: u64,
    /// among so many cases each check comes up that has one of these numbers
    pub many: u64,
    pub due: &'static [RangeInclusive<u32>],
}

/// What was seen: how many parts, and how often each check refused one.
#[derive(Default)]
pub struct Seen {
    pub parts: u64,
    pub refusals: BTreeMap<Check, u64>,
}

/// The number of the first case that differs, and what is told of it.
pub struct Difference {
    pub index: u64,
    pub text: Vec<u8>,
}

/// Why a comparison ends early, or its end is none.
pub enum Halt {
    Differs(Difference),
    /// the numbers of checks that are due and never came up
    Missing(Vec<u32>),
    Failed(io::Error),
}

/// Cases that go into one run of a program, with their numbers.
type Batch = Vec<(u64, Case)>;

impl From<io::Error> for Halt {
    fn from(error: io::Error) -> Halt {
        Halt::Failed(error)
    }
}

impl AddAssign<&Seen> for Seen {
    fn add_assign(&mut self, more: &Seen) {
        self.parts += more.parts;
        for (check, count) in &more.refusals {
            *self.refusals.entry(*check).or_default() += count;
        }
    }
}

impl Seen {
    fn of(cases: &Batch) -> Seen {
        let mut seen = Seen::default();
        for (_, case) in cases {
            seen.parts += case.parts;
            for check in &case.due.refusals {
                *seen.refusals.entry(*check).or_default() += 1;
            }
        }
        seen
    }
}

impl Comparison {
    /// Compares the cases of these numbers. Those that end with one status go into one run of the program, so that it shows where
    /// one of them ends with another. The folder is for the runs.
    pub fn compare(&self, folder: &Path, seed: u64, indices: Range<u64>) -> Result<Seen, Halt> {
        let make = |index| (index, (self.make)(&mut Random::of_case(seed, index)));
        let cases: Batch = indices.map(make).collect();
        if let Some(difference) = cases.iter().find_map(tell_against) {
            return Err(Halt::Differs(difference));
        }
        let seen = Seen::of(&cases);
        let (good, bad): (Batch, Batch) = cases.into_iter().partition(|(_, case)| case.status == 0);
        let differences = [self.run(folder, &good)?, self.run(folder, &bad)?];
        match differences.into_iter().flatten().min_by_key(|difference| difference.index) {
            Some(difference) => Err(Halt::Differs(difference)),
            None => Ok(seen),
        }
    }

    /// Runs the program on cases of one status. The answer is a difference, if there is one.
    fn run(&self, folder: &Path, cases: &Batch) -> io::Result<Option<Difference>> {
        let Some((_, first)) = cases.first() else {
            return Ok(None);
        };
        let ran = self.program.run(folder, cases.iter().map(|(_, case)| case))?;
        let mut rest = &ran.printed[..];
        for (place, (_, case)) in cases.iter().enumerate() {
            match self.behind(place, case, rest) {
                Some(behind) => rest = behind,
                // where too much was printed for a case, that shows at the one behind it
                None => {
                    let suspects = &cases[place.saturating_sub(1)..=place];
                    return self.tell_first(folder, suspects, &ran, rest).map(Some);
                }
            }
        }
        if rest.is_empty() && ran.ended_with(first.status) {
            return Ok(None);
        }
        self.tell_first(folder, cases, &ran, rest).map(Some)
    }

    /// What stands behind the answer that is due for the case at a place of a run, if a text begins with that.
    fn behind<'a>(&self, place: usize, case: &Case, text: &'a [u8]) -> Option<&'a [u8]> {
        self.program.behind_name(place, text)?.strip_prefix(case.due.text.as_bytes())
    }

    /// The first of some cases that differs where the program is run once more on it alone; or the last of them, with what was
    /// printed in a run with others.
    fn tell_first(
        &self,
        folder: &Path,
        suspects: &[(u64, Case)],
        ran: &Ran,
        rest: &[u8],
    ) -> io::Result<Difference> {
        for (index, case) in suspects {
            let alone = self.program.run(folder, [case])?;
            if self.behind(0, case, &alone.printed) != Some(b"") || !alone.ended_with(case.status) {
                let answer = self.program.behind_name(0, &alone.printed);
                let text = tell(case, answer.unwrap_or(&alone.printed), &alone);
                return Ok(Difference { index: *index, text });
            }
        }
        let (index, case) = suspects.last().expect("some case is suspect");
        let end = rest.len().min(case.due.text.len() + 200);
        let text = [&tell(case, &rest[..end], ran)[..], b"Alone it is answered as it should be.\n"].concat();
        Ok(Difference { index: *index, text })
    }

    /// Prints what was seen in all cases, of which none differed.
    pub fn print_seen(&self, seen: &Seen) {
        let Comparison { cases, parts, count, .. } = self;
        let refused: u64 = seen.refusals.values().sum();
        println!("{cases}: {count} compared, {} {parts}, {refused} refused, 0 differ", seen.parts);
        println!("refused, by check:");
        for (check, count) in &seen.refusals {
            println!("  {}: {count}", *check as u32);
        }
    }

    /// The numbers of the checks that are due and never came up.
    pub fn missing(&self, seen: &Seen) -> Vec<u32> {
        let came_up: Vec<u32> = seen.refusals.keys().map(|check| *check as u32).collect();
        let due = self.due.iter().cloned().flatten();
        due.filter(|check| !came_up.contains(check)).collect()
    }
}

/// What is told of a case: its input, and both answers.
fn tell(case: &Case, answer: &[u8], ran: &Ran) -> Vec<u8> {
    let due = format!("\nThe reference, exit status: {}\n{}", case.status, case.due.text);
    let program = format!("\nThe program, {}\n", ran.status);
    [b"The input:\n", &case.input[..], due.as_bytes(), program.as_bytes(), answer, b"\n", &ran.error].concat()
}

/// What is told of a case where some plan speaks against what the brute force found.
fn tell_against((index, case): &(u64, Case)) -> Option<Difference> {
    let against = case.against.as_ref()?;
    let found = format!("\nThe reference:\n{}\n{against}\n", case.due.text);
    Some(Difference { index: *index, text: [b"The input:\n", &case.input[..], found.as_bytes()].concat() })
}
