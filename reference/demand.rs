//! The work of a kind, added up job by job.

use crate::kind::{Kind, Pattern, CAP, LONGEST_WINDOW};

/// A kind that can be asked for its work.
pub struct Demand {
    kind: Kind,
    delays: [u64; 2],
    /// no window is asked for that is longer, with the delays
    end: u64,
    /// when jobs are released, if the first is released when the window begins
    releases: Vec<u64>,
    /// the most that 0, 1, 2, .. jobs in a row can take
    totals: Vec<u64>,
    pub own: u64,
    pub least: u64,
}

/// Runs of jobs, one that begins at each place of a pattern, and how long each takes.
struct JobRuns {
    pattern: Pattern,
    jobs: u64,
    totals: Vec<u64>,
}

impl JobRuns {
    fn new(pattern: Pattern) -> JobRuns {
        JobRuns { pattern, jobs: 0, totals: vec![0; pattern.among as usize] }
    }

    /// Each run gets its next job.
    fn lengthen(&mut self) {
        for (place, total) in (0..).zip(&mut self.totals) {
            let is_heavy = (place + self.jobs).is_multiple_of(self.pattern.among);
            *total += if is_heavy { self.pattern.heavy } else { self.pattern.job };
        }
        self.jobs += 1;
    }

    fn longest(&self) -> u64 {
        self.totals.iter().copied().max().unwrap_or(0)
    }
}

impl Demand {
    /// A kind that is asked for its work in windows up to this long.
    pub fn new(kind: Kind, longest_window: u64) -> Demand {
        let pattern = kind.jobs.counted();
        let delays = kind.delays();
        let end = longest_window + delays.iter().sum::<u64>();
        let mut runs = JobRuns::new(pattern);
        let mut releases = Vec::new();
        let mut totals = vec![0];
        let mut release = 0;
        // more jobs than reach the cap come to the cap
        while release < end && runs.longest() < CAP {
            releases.push(release);
            runs.lengthen();
            totals.push(runs.longest());
            release += pattern.period;
        }
        Demand { kind, delays, end, releases, totals, own: kind.own(), least: kind.least() }
    }

    /// The most work in a window. Jobs that come late stand in a window that is longer by the delay.
    pub fn work(&self, window: u64) -> u64 {
        let window = self
            .delays
            .iter()
            .rev()
            .fold(window.min(LONGEST_WINDOW), |window, delay| (window + delay).min(LONGEST_WINDOW));
        assert!(window <= self.end, "asked about a longer window than was said");
        let jobs = self.releases.partition_point(|release| *release < window);
        self.kind.slow_up(self.totals[jobs])
    }
}
