//! The same answers quickly, for the benchmark: work by a formula, ceilings, and a search that goes from a window straight to the
//! next that can do. Of `demand` and `scan` nothing is used.

use crate::found::{Found, Judged, Late};
use crate::kind::{slow_up, Kind, Pattern, LONGEST_WINDOW};
use crate::row::{Row, LOCKS};
use std::cmp::Reverse;
use std::ops::Range;

/// A kind that can be asked for its work.
struct Demand {
    pattern: Pattern,
    delay: u64,
    factors: Vec<(u64, u64)>,
}

/// What the sum for a lower row reads of a row that is done.
struct Done {
    demand: Demand,
    wait: u64,
    jitter: u64,
}

/// The row in hand: what it needs for itself, its deadline, and the rows above it, highest first.
struct Case<'a> {
    need: u64,
    deadline: u64,
    higher: &'a [Done],
}

/// The least window up to the deadline that covers the row, and the least vector that does it.
type Search = fn(&Case) -> Option<(u64, u64)>;

impl Demand {
    fn new(kind: Kind) -> Demand {
        Demand {
            pattern: kind.jobs.counted(),
            delay: kind.delays().iter().sum(),
            factors: kind.factors().collect(),
        }
    }

    fn work(&self, window: u64) -> u64 {
        let Pattern { job, heavy, among, period } = self.pattern;
        let jobs = (window + self.delay).min(LONGEST_WINDOW).div_ceil(period);
        let mut work = jobs * job;
        if job < heavy {
            work += jobs.div_ceil(among) * (heavy - job);
        }
        slow_up(self.factors.iter().copied(), work)
    }
}

impl Case<'_> {
    /// Each vector has one bit for each row above, the lowest bit for the highest row.
    fn vectors(&self) -> Range<u64> {
        0..1 << self.higher.len()
    }

    /// The most time that is asked for in a window, under a vector. The window covers the row where this is within it.
    fn sum(&self, window: u64, vector: u64) -> u64 {
        let mut sum = self.need;
        let mut waits = 0;
        for (rank, row) in self.higher.iter().enumerate().rev() {
            let mut jitter = row.jitter;
            if (vector >> rank) & 1 == 1 {
                waits += row.wait;
                jitter = 0;
            }
            sum = sum.saturating_add(row.demand.work(window + waits + jitter));
        }
        sum
    }
}

/// The search that goes from a window straight to the next that can do.
fn search_jumping(case: &Case) -> Option<(u64, u64)> {
    let mut window = 1;
    while window <= case.deadline {
        let mut next = u64::MAX;
        for vector in case.vectors() {
            let sum = case.sum(window, vector);
            if sum <= window {
                return Some((window, vector));
            }
            next = next.min(sum);
        }
        window = next;
    }
    None
}

/// The search that tries each window in turn.
fn search_in_turn(case: &Case) -> Option<(u64, u64)> {
    for window in 1..=case.deadline {
        for vector in case.vectors() {
            if case.sum(window, vector) <= window {
                return Some((window, vector));
            }
        }
    }
    None
}

/// The greatest priority among the rows that use a lock.
fn ceiling(rows: &[Row], lock: usize) -> Option<u32> {
    let users = rows.iter().filter(|row| row.sections[lock] > 0);
    users.map(|row| row.priority).max()
}

/// The longest time that the rows below can hold up a row.
fn blocking(ceilings: &[Option<u32>; LOCKS], row: &Row, lower: &[Row]) -> u64 {
    let section = (0..LOCKS)
        .filter(|&lock| ceilings[lock] >= Some(row.priority))
        .flat_map(|lock| lower.iter().map(move |row| row.sections[lock]))
        .max()
        .unwrap_or(0);
    (u64::from(row.suspensions) + 1) * u64::from(section)
}

fn judge_by(search: Search, rows: &[Row]) -> Judged {
    let mut ranked = rows.to_vec();
    ranked.sort_by_key(|row| Reverse(row.priority));
    let ceilings = std::array::from_fn(|lock| ceiling(&ranked, lock));
    let mut higher = Vec::with_capacity(ranked.len());
    let mut found = Vec::with_capacity(ranked.len());
    for (rank, row) in ranked.iter().enumerate() {
        let blocking = blocking(&ceilings, row, &ranked[rank + 1..]);
        let wait = u64::from(row.suspension) + blocking;
        let case = Case {
            need: wait.saturating_add(row.kind.own()),
            deadline: u64::from(row.deadline),
            higher: &higher,
        };
        let (bound, vector) = search(&case).ok_or(Late(row.number))?;
        found.push(Found { number: row.number, bound: bound as u32, vector: vector as u32, blocking });
        higher.push(Done { demand: Demand::new(row.kind), wait, jitter: bound - row.kind.least() });
    }
    Ok(found)
}

/// What is found for rows in any order: the peer.
pub fn judge(rows: &[Row]) -> Judged {
    judge_by(search_jumping, rows)
}

/// The same, with the peer's sum in each window in turn.
pub fn scan(rows: &[Row]) -> Judged {
    judge_by(search_in_turn, rows)
}
