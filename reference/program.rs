//! The built programs, which answer many cases in one run.

use crate::cases::Case;
use std::fs;
use std::io::{self, Write};
use std::path::{Path, PathBuf};
use std::process::{Command, ExitStatus, Output, Stdio};
use std::thread;

/// How many seconds a run may take. A thousand cases take a tenth of one.
const LIMIT: &str = "60";

/// How a program gets its cases.
#[derive(Clone, Copy, PartialEq, Eq)]
pub enum Feed {
    /// one behind the other on standard input
    Input,
    /// as files that are named
    Files,
    /// likewise, and it prints the name of each before its answer
    NamedFiles,
}

/// A program.
pub struct Program {
    pub path: PathBuf,
    pub feed: Feed,
}

/// What a run of it came to.
pub struct Ran {
    pub printed: Vec<u8>,
    pub error: Vec<u8>,
    pub status: ExitStatus,
}

/// An error with the name of what it is about.
pub fn about(path: &Path, error: io::Error) -> io::Error {
    io::Error::other(format!("{}: {error}", path.display()))
}

impl From<Output> for Ran {
    fn from(output: Output) -> Ran {
        Ran { printed: output.stdout, error: output.stderr, status: output.status }
    }
}

impl Ran {
    /// Whether it ended with this status, and told no error.
    pub fn ended_with(&self, status: i32) -> bool {
        self.status.code() == Some(status) && self.error.is_empty()
    }
}

impl Program {
    /// A text without the name of the case at a place of a run, if the program prints that first.
    pub fn behind_name<'a>(&self, place: usize, text: &'a [u8]) -> Option<&'a [u8]> {
        match self.feed {
            Feed::NamedFiles => text.strip_prefix(format!("{place}\n").as_bytes()),
            Feed::Input | Feed::Files => Some(text),
        }
    }

    /// Runs it on some cases. The folder is made for it, with their files, and goes with the run: to write a file that is there once
    /// more takes some systems far longer.
    pub fn run<'a>(&self, folder: &Path, cases: impl IntoIterator<Item = &'a Case>) -> io::Result<Ran> {
        let cases: Vec<&Case> = cases.into_iter().collect();
        fs::create_dir(folder)?;
        let ran = self.try_to_run(folder, &cases);
        fs::remove_dir_all(folder)?;
        ran.map_err(|error| about(&self.path, error))
    }

    fn try_to_run(&self, folder: &Path, cases: &[&Case]) -> io::Result<Ran> {
        let mut command = Command::new("timeout");
        command.arg(LIMIT).arg(&self.path).current_dir(folder);
        command.stdout(Stdio::piped()).stderr(Stdio::piped());
        if self.feed == Feed::Input {
            let mut child = command.stdin(Stdio::piped()).spawn()?;
            let mut input = child.stdin.take().expect("standard input is a pipe");
            return thread::scope(|scope| {
                // a program that ends early is seen by what it printed
                scope.spawn(move || cases.iter().try_for_each(|case| input.write_all(&case.input)));
                child.wait_with_output().map(Ran::from)
            });
        }
        for (place, case) in cases.iter().enumerate() {
            let name = place.to_string();
            fs::write(folder.join(&name), &case.input)?;
            command.arg(name);
        }
        command.stdin(Stdio::null()).output().map(Ran::from)
    }
}
