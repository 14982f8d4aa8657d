//! Kinds of demand as the formats have them: which of their numbers count, the spacing, the longest and the shortest job. The work
//! is worked out twice: job by job in `demand`, and by a formula in `peer`.

use std::fmt;

/// The longest job, and the longest time from one job to the next, in ticks.
pub const LONGEST: u64 = 1_000_000;

/// No job and no work is answered longer.
pub const CAP: u64 = 2_000_000;

/// The longest window.
pub const LONGEST_WINDOW: u64 = 4_294_967_295;

/// How many times as long each job takes.
#[derive(Clone, Copy, Debug)]
pub struct Factor {
    pub numerator: u32,
    pub denominator: u32,
}

/// The jobs of a task.
#[derive(Clone, Copy, Debug)]
pub enum Jobs {
    Every { job: u32, period: u32 },
    Heavy { job: u32, heavy: u32, among: u32, period: u32 },
}

/// What is made of a kind.
#[derive(Clone, Copy, Debug)]
pub enum Layer {
    Delayed(u32),
    Slowed(Factor),
}

/// Jobs under up to two layers, the inner one first.
#[derive(Clone, Copy, Debug)]
pub struct Kind {
    pub jobs: Jobs,
    pub layers: [Option<Layer>; 2],
}

/// The numbers of jobs that count: the first of each `among` jobs takes the time `heavy`, the others the time `job`.
#[derive(Clone, Copy)]
pub struct Pattern {
    pub job: u64,
    pub heavy: u64,
    pub among: u64,
    pub period: u64,
}

/// What becomes of work under some factors, the inner one first: rounded up.
pub fn slow_up(factors: impl IntoIterator<Item = (u64, u64)>, work: u64) -> u64 {
    factors.into_iter().fold(work.min(CAP), |work, (a, b)| (work * a).div_ceil(b).min(CAP))
}

impl Factor {
    /// The clock line.
    pub fn line(self) -> String {
        format!("clock\t{}\t{}\n", self.numerator, self.denominator)
    }

    /// The numbers that count: the numerator, and the denominator.
    pub fn counted(self) -> (u64, u64) {
        let denominator = u64::from(self.denominator).clamp(1, 1000);
        (u64::from(self.numerator).clamp(denominator, 1000), denominator)
    }
}

impl Jobs {
    /// The jobs that a word and the numbers behind it say.
    pub fn of(word: &[u8], numbers: &[u32]) -> Option<Jobs> {
        match (word, numbers) {
            (b"every", &[job, period]) => Some(Jobs::Every { job, period }),
            (b"heavy", &[job, heavy, among, period]) => Some(Jobs::Heavy { job, heavy, among, period }),
            _ => None,
        }
    }

    /// The numbers that count.
    pub fn counted(self) -> Pattern {
        let length = |n: u32| u64::from(n).clamp(1, LONGEST);
        match self {
            Jobs::Every { job, period } => {
                Pattern { job: length(job), heavy: length(job), among: 1, period: length(period) }
            }
            Jobs::Heavy { job, heavy, among, period } => Pattern {
                job: length(job),
                heavy: u64::from(heavy).clamp(length(job), LONGEST),
                among: u64::from(among).clamp(2, 64),
                period: length(period),
            },
        }
    }
}

impl Kind {
    /// The delays that count, of each layer. A delay leaves at least one tick between two jobs.
    pub fn delays(self) -> [u64; 2] {
        let mut spacing = self.jobs.counted().period;
        self.layers.map(|layer| {
            let delay = match layer {
                Some(Layer::Delayed(delay)) => u64::from(delay).min(spacing - 1),
                _ => 0,
            };
            spacing -= delay;
            delay
        })
    }

    /// The least time between two jobs.
    pub fn spacing(self) -> u64 {
        self.jobs.counted().period - self.delays().iter().sum::<u64>()
    }

    /// The factors that count, the inner one first.
    pub fn factors(self) -> impl Iterator<Item = (u64, u64)> {
        self.layers.into_iter().flatten().filter_map(|layer| match layer {
            Layer::Slowed(factor) => Some(factor.counted()),
            Layer::Delayed(_) => None,
        })
    }

    /// What becomes of the longest job, or of work.
    pub fn slow_up(self, time: u64) -> u64 {
        slow_up(self.factors(), time)
    }

    /// What becomes of the shortest job.
    pub fn slow_down(self, time: u64) -> u64 {
        self.factors().fold(time, |time, (a, b)| (time * a / b).min(CAP))
    }

    /// The longest job.
    pub fn own(self) -> u64 {
        self.slow_up(self.jobs.counted().heavy)
    }

    /// The shortest job.
    pub fn least(self) -> u64 {
        self.slow_down(self.jobs.counted().job)
    }
}

/// The jobs as a line has them, with a blank between two fields.
impl fmt::Display for Jobs {
    fn fmt(&self, f: &mut fmt::Formatter) -> fmt::Result {
        match self {
            Jobs::Every { job, period } => write!(f, "every {job} {period}"),
            Jobs::Heavy { job, heavy, among, period } => write!(f, "heavy {job} {heavy} {among} {period}"),
        }
    }
}
