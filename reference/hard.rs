//! Hard sets for the benchmark, the same for the same arguments: a dozen rows with periods of all lengths, of whose sets about
//! half are in time.

use crate::kind::{Factor, Jobs, Kind, Layer};
use crate::random::Random;
use crate::row::{Row, LOCKS};
use std::ops::RangeInclusive;

/// The shortest period.
const SHORTEST: u64 = 300;

/// How many times as long as its row says each job of a plan file takes.
const SLOWER: Factor = Factor { numerator: 5, denominator: 4 };

impl Random {
    fn between(&mut self, low: f64, high: f64) -> f64 {
        low + (high - low) * self.unit()
    }

    fn pick(&mut self, range: RangeInclusive<u64>) -> u64 {
        range.start() + self.next() % (range.end() - range.start() + 1)
    }

    fn chance(&mut self, share: f64) -> bool {
        self.unit() < share
    }
}

/// Distinct periods, shortest first; their logarithms are spread evenly.
fn periods(random: &mut Random, rows: usize, longest: u64) -> Vec<u64> {
    let mut periods = Vec::with_capacity(rows);
    while periods.len() < rows {
        let spread = (longest as f64 / SHORTEST as f64).powf(random.unit());
        let period = (SHORTEST as f64 * spread) as u64;
        if let Err(place) = periods.binary_search(&period) {
            periods.insert(place, period);
        }
    }
    periods
}

/// Shares of the processor that sum to `total`, with no bias (UUniFast).
fn shares(random: &mut Random, rows: usize, total: f64) -> Vec<f64> {
    let mut shares = Vec::with_capacity(rows);
    let mut left = total;
    for others in (1..rows).rev() {
        let rest = left * random.unit().powf(1.0 / others as f64);
        shares.push(left - rest);
        left = rest;
    }
    shares.push(left);
    shares
}

/// The jobs of a row, and how long most of them take.
fn jobs(random: &mut Random, period: u64, share: f64) -> (Jobs, u64) {
    let work = share * period as f64;
    if random.chance(0.25) {
        // the work of `among` jobs stays the same
        let among = random.pick(2..=16);
        let factor = random.between(1.1, 1.6);
        let job = (work / (1.0 + (factor - 1.0) / among as f64)).max(1.0) as u64;
        let heavy = period.min((job as f64 * factor) as u64);
        let jobs =
            Jobs::Heavy { job: job as u32, heavy: heavy as u32, among: among as u32, period: period as u32 };
        return (jobs, job);
    }
    let job = work.max(1.0) as u64;
    let jobs = Jobs::Every { job: job as u32, period: period as u32 };
    (jobs, job)
}

fn row(random: &mut Random, priority: usize, period: u64, share: f64, shortest: u64) -> Row {
    let (jobs, job) = jobs(random, period, share);
    let (suspension, suspensions) = if random.chance(0.6) {
        let suspension = period as f64 * random.between(0.01, 0.2);
        (suspension as u32, random.pick(1..=4) as u32)
    } else {
        (0, 0)
    };
    let deadline =
        if random.chance(0.25) { (period as f64 * random.between(0.9, 1.0)) as u32 } else { period as u32 };
    let mut sections = [0; LOCKS];
    if random.chance(0.5) {
        for _ in 0..random.pick(1..=2) {
            let lock = random.pick(0..=LOCKS as u64 - 1) as usize;
            sections[lock] = random.pick(1..=job.min(shortest / 40).max(1)) as u32;
        }
    }
    Row {
        number: 0,
        priority: priority as u32,
        suspension,
        suspensions,
        deadline,
        sections,
        kind: Kind { jobs, layers: [None; 2] },
    }
}

/// The rows of a set, in any order, with numbers from 1 on. A shorter period has a higher priority.
fn set(random: &mut Random, rows: usize, longest: u64) -> Vec<Row> {
    let periods = periods(random, rows, longest);
    let total = random.between(0.7, 0.95);
    let shares = shares(random, rows, total);
    let mut set: Vec<_> =
        (0..rows).map(|rank| row(random, rows - rank, periods[rank], shares[rank], periods[0])).collect();
    for last in (1..rows).rev() {
        set.swap(last, random.pick(0..=last as u64) as usize);
    }
    for (number, row) in (1..).zip(&mut set) {
        row.number = number;
    }
    set
}

/// What a row has to say of a time, for the job to take as long as this or hardly less.
fn faster(time: u32) -> u32 {
    (time * SLOWER.denominator / SLOWER.numerator).max(1)
}

/// The row as it stands in a plan file. Every third one has a delay.
fn in_file(row: &Row) -> Row {
    let (jobs, period) = match row.kind.jobs {
        Jobs::Every { job, period } => {
            let job = faster(job);
            (Jobs::Every { job, period }, period)
        }
        Jobs::Heavy { job, heavy, among, period } => {
            let jobs = Jobs::Heavy { job: faster(job), heavy: faster(heavy), among, period };
            (jobs, period)
        }
    };
    let delay = if row.number % 3 == 1 { period / 20 } else { 0 };
    let shorter = |length: u32| length * SLOWER.denominator / SLOWER.numerator;
    Row {
        deadline: row.deadline.min(period - delay),
        sections: row.sections.map(shorter),
        kind: Kind { jobs, layers: [Some(Layer::Delayed(delay)), Some(Layer::Slowed(SLOWER))] },
        ..*row
    }
}

/// So many sets of so many rows, with periods up to `longest`, each to be judged.
pub fn sets(seed: u64, count: u64, rows: usize, longest: u64) -> String {
    let mut random = Random::new(seed);
    let mut text = String::new();
    for _ in 0..count {
        text.extend(set(&mut random, rows, longest).iter().map(Row::set_line));
        text += "judge\n";
    }
    text
}

/// The same sets as plan files, one after the other.
pub fn files(seed: u64, count: u64, rows: usize, longest: u64) -> String {
    let mut random = Random::new(seed);
    let mut text = String::new();
    for _ in 0..count {
        text += &SLOWER.line();
        let set = set(&mut random, rows, longest);
        text.extend(set.iter().map(|row| in_file(row).tab_line("row")));
    }
    text
}
