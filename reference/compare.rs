//! All comparisons, one after the other, each by several threads. It ends at the first case that differs.

use crate::cases::{some_file, some_log, some_set};
use crate::comparison::{Comparison, Difference, Halt, Seen};
use crate::options::Options;
use crate::program::{about, Feed, Program};
use std::ops::Range;
use std::path::Path;
use std::sync::{Mutex, MutexGuard};
use std::thread;
use std::{env, fs, process};

/// So many cases are taken at a time.
const BATCH: u64 = 1000;

/// How far a comparison is.
#[derive(Default)]
struct Progress {
    taken: u64,
    compared: u64,
    seen: Seen,
    difference: Option<Difference>,
}

/// A comparison that threads share.
struct Shared<'a> {
    comparison: &'a Comparison,
    seed: u64,
    progress: Mutex<Progress>,
}

impl Progress {
    /// The numbers of the next cases, if some are left and none differed.
    fn take(&mut self, count: u64) -> Option<Range<u64>> {
        let start = self.taken;
        self.taken = count.min(start + BATCH);
        (self.difference.is_none() && start < count).then_some(start..self.taken)
    }

    /// Notes a difference. That of the lowest number is kept.
    fn note_difference(&mut self, difference: Difference) {
        let lower = |other: &Difference| other.index < difference.index;
        if !self.difference.as_ref().is_some_and(lower) {
            self.difference = Some(difference);
        }
    }

    /// Notes what was seen, and tells ten times in all how far it is.
    fn note(&mut self, comparison: &Comparison, compared: u64, seen: &Seen) {
        let Comparison { cases, count, .. } = comparison;
        let before = 10 * self.compared / count;
        self.compared += compared;
        self.seen += seen;
        if before < 10 * self.compared / count {
            eprintln!("{cases}: {} of {count} compared", self.compared);
        }
    }
}

impl Shared<'_> {
    fn progress(&self) -> MutexGuard<'_, Progress> {
        self.progress.lock().expect("no thread has panicked")
    }

    /// Compares while cases are left and none differed.
    fn work(&self, folder: &Path) -> Result<(), Halt> {
        loop {
            let Some(indices) = self.progress().take(self.comparison.count) else {
                return Ok(());
            };
            let count = indices.end - indices.start;
            match self.comparison.compare(folder, self.seed, indices) {
                Ok(seen) => self.progress().note(self.comparison, count, &seen),
                Err(Halt::Differs(difference)) => self.progress().note_difference(difference),
                Err(failed) => return Err(failed),
            }
        }
    }

    /// Compares all cases, and prints what was seen.
    fn run(self, folder: &Path) -> Result<(), Halt> {
        let workers = thread::available_parallelism()?.get();
        thread::scope(|scope| {
            let shared = &self;
            let threads: Vec<_> = (0..workers)
                .map(|worker| folder.join(worker.to_string()))
                .map(|folder| scope.spawn(move || shared.work(&folder)))
                .collect();
            let mut ended = threads.into_iter().map(|thread| thread.join());
            ended.try_for_each(|ended| ended.expect("no thread has panicked"))
        })?;
        let Shared { comparison, seed, progress } = self;
        let progress = progress.into_inner().expect("no thread has panicked");
        if let Some(Difference { index, text }) = progress.difference {
            let head = format!("{}, case {index} of seed {seed}\n", comparison.cases);
            let text = [head.as_bytes(), &text].concat();
            return Err(Halt::Differs(Difference { index, text }));
        }
        comparison.print_seen(&progress.seen);
        let missing = comparison.missing(&progress.seen);
        if comparison.count < comparison.many || missing.is_empty() {
            Ok(())
        } else {
            Err(Halt::Missing(missing))
        }
    }
}

/// The comparisons that are asked for.
fn comparisons(options: &Options, programs: &Path) -> [Comparison; 3] {
    let program = |name: &str, feed| Program { path: programs.join(name), feed };
    [
        Comparison {
            cases: "sets",
            parts: "plans",
            program: program("judge_sets", Feed::Input),
            make: some_set,
            count: options.sets,
            many: Options::SETS,
            due: &[5..=11],
        },
        Comparison {
            cases: "files",
            parts: "lines",
            program: program("plan", Feed::NamedFiles),
            make: some_file,
            count: options.files,
            many: Options::FILES,
            due: &[1..=11, 15..=18],
        },
        Comparison {
            cases: "logs",
            parts: "lines",
            program: program("replay", Feed::Files),
            make: some_log,
            count: options.logs,
            many: Options::LOGS,
            due: &[1..=18],
        },
    ]
}

/// Makes all comparisons, up to the first case that differs.
pub fn compare_all(options: &Options) -> Result<(), Halt> {
    let named = &options.programs;
    let programs = fs::canonicalize(named).map_err(|error| about(named, error))?;
    let folder = env::temp_dir().join(format!("reference-{}", process::id()));
    fs::create_dir_all(&folder)?;
    let compared = comparisons(options, &programs)
        .iter()
        .filter(|comparison| comparison.count > 0)
        .try_for_each(|comparison| {
            let shared = Shared { comparison, seed: options.seed, progress: Mutex::default() };
            shared.run(&folder)
        });
    fs::remove_dir_all(&folder)?;
    compared
}
