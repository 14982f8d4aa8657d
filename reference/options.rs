//! What the arguments of a comparison ask for.

use std::path::PathBuf;

/// A seed, how many cases there are of each sort, and the folder of the programs.
pub struct Options {
    pub seed: u64,
    pub sets: u64,
    pub files: u64,
    pub logs: u64,
    pub programs: PathBuf,
}

impl Options {
    /// How many sets there are if it is not said.
    pub const SETS: u64 = 200_000;

    /// Likewise for plan files.
    pub const FILES: u64 = 200_000;

    /// Likewise for logs.
    pub const LOGS: u64 = 20_000;

    /// Reads arguments, each behind its name. What is not named has a usual value.
    pub fn read(mut words: impl Iterator<Item = String>) -> Option<Options> {
        let mut options = Options {
            seed: 1,
            sets: Options::SETS,
            files: Options::FILES,
            logs: Options::LOGS,
            programs: PathBuf::from("target/reference"),
        };
        while let Some(name) = words.next() {
            let value = words.next()?;
            match name.as_str() {
                "--seed" => options.seed = value.parse().ok()?,
                "--sets" => options.sets = value.parse().ok()?,
                "--files" => options.files = value.parse().ok()?,
                "--logs" => options.logs = value.parse().ok()?,
                "--programs" => options.programs = PathBuf::from(value),
                _ => return None,
            }
        }
        Some(options)
    }
}
