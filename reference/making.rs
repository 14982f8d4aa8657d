//! Rows with small numbers, made at random: sound ones, and some with numbers at or beyond a limit.

use crate::kind::{Factor, Jobs, Kind, Layer};
use crate::random::Random;
use crate::row::Row;

/// How the priorities of a set are dealt out: no two rows get the same.
#[derive(Clone, Copy)]
pub struct Deal {
    first: u32,
    step: u32,
}

/// How much time rows take.
#[derive(Clone, Copy, PartialEq, Eq)]
pub enum Weight {
    /// so little that twelve may fit
    Light,
    /// enough to be late now and then
    Usual,
}

impl Weight {
    /// Light once in so many times.
    pub fn some(random: &mut Random, times: u32) -> Weight {
        if random.one_in(times) {
            Weight::Light
        } else {
            Weight::Usual
        }
    }
}

impl Deal {
    pub fn new(random: &mut Random) -> Deal {
        Deal { first: random.below(13), step: random.within(1, 12) }
    }

    /// The number and the priority of the row at a place, of up to 13 places.
    fn name(self, random: &mut Random, place: u32) -> (u32, u32) {
        let turn = (self.first + place * self.step) % 13;
        (place * 9 + random.within(1, 9), turn * 10 + random.within(1, 10))
    }
}

/// Up to three locks are used, each by few rows.
fn some_sections(random: &mut Random, longest: u32) -> [u32; 8] {
    std::array::from_fn(|lock| {
        if (lock < 2 || lock == 7) && random.one_in(4) {
            random.within(1, longest)
        } else {
            0
        }
    })
}

/// How long a job suspends itself and how often; both are 0, or neither is.
fn some_suspension(random: &mut Random) -> (u32, u32) {
    if random.one_in(3) {
        (random.within(1, 6), random.within(1, 3))
    } else {
        (0, 0)
    }
}

/// Jobs of up to this length, with periods from this one on.
fn some_jobs(random: &mut Random, longest: u32, shortest: u32) -> Jobs {
    let top = random.within(1, longest);
    let job = random.within(1, top);
    let period = random.within(shortest, 40);
    if random.one_in(2) {
        return Jobs::Every { job, period };
    }
    Jobs::Heavy { job, heavy: job + random.below(4), among: random.within(2, 4), period }
}

/// Jobs that take little time.
fn light_jobs(random: &mut Random) -> Jobs {
    Jobs::Every { job: 1, period: random.within(30, 40) }
}

/// Jobs with numbers out of range, or next to it.
fn odd_jobs(random: &mut Random) -> Jobs {
    let job = random.below(3);
    let period = random.below(30);
    if random.one_in(2) {
        return Jobs::Every { job, period };
    }
    Jobs::Heavy { job, heavy: random.below(4), among: random.below(4), period }
}

fn some_factor(random: &mut Random) -> Factor {
    let denominator = random.within(1, 5);
    Factor { numerator: denominator + random.below(3), denominator }
}

/// A layer, or none. Its numbers may be out of range.
fn some_layer(random: &mut Random) -> Option<Layer> {
    match random.below(16) {
        0 => Some(Layer::Delayed(random.below(100))),
        1 => Some(Layer::Slowed(Factor { numerator: random.below(4), denominator: random.below(4) })),
        2..=5 => Some(Layer::Delayed(random.below(8))),
        6..=9 => Some(Layer::Slowed(some_factor(random))),
        _ => None,
    }
}

fn some_kind(random: &mut Random) -> Kind {
    let jobs = if random.one_in(12) { odd_jobs(random) } else { some_jobs(random, 6, 8) };
    Kind { jobs, layers: [some_layer(random), some_layer(random)] }
}

/// A row that is judged, at whose numbers nothing is checked.
fn judged_row(random: &mut Random, deal: Deal, place: u32) -> Row {
    let (number, priority) = deal.name(random, place);
    let (suspension, suspensions) =
        if random.one_in(12) { (random.below(3), random.below(3)) } else { some_suspension(random) };
    let deadline = if random.one_in(8) { random.below(20) } else { random.within(20, 60) };
    let mut row = Row {
        number,
        priority,
        suspension,
        suspensions,
        deadline,
        sections: some_sections(random, 4),
        kind: some_kind(random),
    };
    if random.one_in(50) {
        let sums = [&mut row.suspension, &mut row.suspensions, &mut row.sections[0]];
        sums.into_iter().for_each(|number| *number = random.choice(&[*number, u32::MAX]));
    }
    row
}

/// So many rows, with numbers and priorities of their own.
fn some_rows(random: &mut Random, count: u32, row: impl Fn(&mut Random, Deal, u32) -> Row) -> Vec<Row> {
    let deal = Deal::new(random);
    (0..count).map(|place| row(random, deal, place)).collect()
}

/// One to four rows that are judged.
pub fn judged_set(random: &mut Random) -> Vec<Row> {
    let count = random.within(1, 4);
    some_rows(random, count, judged_row)
}

/// One to four sound rows of all kinds, of which the last may have a fault.
pub fn sound_set(random: &mut Random) -> Vec<Row> {
    let count = random.within(1, 4);
    let mut rows = some_rows(random, count, |random, deal, place| {
        let name = deal.name(random, place);
        let kind = some_kind(random);
        sound_row(random, Weight::Usual, name, kind)
    });
    if random.one_in(3) {
        rows.last_mut().into_iter().for_each(|row| spoil(random, row));
    }
    rows
}

/// Eleven to thirteen rows that take little time.
pub fn light_set(random: &mut Random) -> Vec<Row> {
    let count = random.within(11, 13);
    some_rows(random, count, |random, deal, place| {
        let name = deal.name(random, place);
        let kind = Kind { jobs: light_jobs(random), layers: [None; 2] };
        sound_row(random, Weight::Light, name, kind)
    })
}

/// A row that passes all checks but perhaps those of its name, and that for lateness.
fn sound_row(random: &mut Random, weight: Weight, (number, priority): (u32, u32), kind: Kind) -> Row {
    let (suspension, suspensions) = match weight {
        Weight::Light => (0, 0),
        Weight::Usual => some_suspension(random),
    };
    let spacing = kind.spacing() as u32;
    let own = kind.own() as u32;
    Row {
        number,
        priority,
        suspension,
        suspensions,
        deadline: spacing.saturating_sub(random.below(3)).max(1),
        sections: some_sections(random, own.min(2)),
        kind,
    }
}

/// The clock of a file, or of an evening. Now and then it is none, or nearly so.
pub fn some_clock(random: &mut Random) -> Factor {
    match random.below(40) {
        0 => Factor {
            numerator: random.choice(&[0, 1, 2, 1000, 1001]),
            denominator: random.choice(&[0, 1, 2, 999, 1001]),
        },
        1..=20 => Factor { numerator: 1, denominator: 1 },
        _ => some_factor(random),
    }
}

/// The kind of a row under a clock: now and then with a period far longer than all others.
fn clocked_kind(random: &mut Random, weight: Weight, clock: Factor) -> Kind {
    let jobs = match weight {
        Weight::Light => light_jobs(random),
        Weight::Usual if random.one_in(2000) => Jobs::Every { job: random.within(1, 6), period: 1_000_000 },
        Weight::Usual => some_jobs(random, 3, 20),
    };
    let delay = if random.one_in(3) { random.below(8) } else { 0 };
    Kind { jobs, layers: [Some(Layer::Delayed(delay)), Some(Layer::Slowed(clock))] }
}

/// A row of a plan file.
pub fn file_row(random: &mut Random, weight: Weight, clock: Factor, deal: Deal, place: u32) -> Row {
    let kind = clocked_kind(random, weight, clock);
    let name = deal.name(random, place);
    sound_row(random, weight, name, kind)
}

/// Puts a number at or next to a limit into a row.
fn spoil(random: &mut Random, row: &mut Row) {
    match random.below(5) {
        0 => row.number = random.choice(&[0, 255, 256, u32::MAX]),
        1 => row.priority = random.choice(&[0, 255, 256, u32::MAX]),
        2 => {
            row.suspension = random.choice(&[0, 1, 1_000_000, 1_000_001]);
            row.suspensions = random.choice(&[0, 1, 63, 64]);
        }
        3 => {
            let spacing = row.kind.spacing() as u32;
            row.deadline = random.choice(&[0, 1, spacing, spacing + 1]);
        }
        _ => {
            let lock = random.below(8) as usize;
            row.sections[lock] = row.kind.own() as u32 + random.below(2);
        }
    }
}

/// The largest number of a sound row that asks to enter a table, so that some numbers repeat.
pub const LAST_NUMBER: u32 = 24;

/// A row that asks to enter a table: one in four has a fault or two.
pub fn entering_row(random: &mut Random, weight: Weight, clock: Factor) -> Row {
    let kind = clocked_kind(random, weight, clock);
    let name = (random.within(1, LAST_NUMBER), random.within(1, 60));
    let mut row = sound_row(random, weight, name, kind);
    let faults = match random.below(12) {
        0 => 2,
        1 | 2 => 1,
        _ => 0,
    };
    for _ in 0..faults {
        spoil(random, &mut row);
    }
    row
}
