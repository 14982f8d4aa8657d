//! The cases that are compared: what a program is given, made at random, and what it has to print for it.

use crate::answer::Answer;
use crate::damage::damage_some;
use crate::making::{
    entering_row, file_row, judged_set, light_set, some_clock, sound_set, Deal, Weight, LAST_NUMBER,
};
use crate::random::Random;
use crate::row::Row;
use crate::scan;
use crate::set_file::Question;
use crate::{log_file, plan_file, set_file};

/// A case.
pub struct Case {
    pub input: Vec<u8>,
    /// what has to be printed
    pub due: Answer,
    /// the exit status that is due where this is the only case
    pub status: i32,
    /// how much is compared in it: the plans of a set, the lines of a file or of a log
    pub parts: u64,
    /// what speaks against what is due
    pub against: Option<String>,
}

impl Case {
    /// A file or a log; whether it fails is said by the exit status.
    fn of_lines(input: Vec<u8>, due: Answer, fails: bool) -> Case {
        Case {
            parts: input.iter().filter(|byte| **byte == b'\n').count() as u64,
            input,
            due,
            status: i32::from(fails),
            against: None,
        }
    }
}

/// A set of rows: mostly to be judged, or its last row is to be held over the others.
pub fn some_set(random: &mut Random) -> Case {
    let question = if random.one_in(8) { Question::Hold(random.within(0, 3)) } else { Question::Judge };
    let rows = if random.one_in(500) {
        light_set(random)
    } else {
        match question {
            Question::Judge => judged_set(random),
            Question::Hold(_) => sound_set(random),
        }
    };
    let mut input: String = rows.iter().map(Row::set_line).collect();
    input += &question.line();
    let (parts, against) = match question {
        Question::Judge if rows.len() <= 4 => try_plans(&rows),
        _ => (0, None),
    };
    Case {
        input: input.into_bytes(),
        due: set_file::answer(scan::judge, &rows, question),
        status: 0,
        parts,
        against,
    }
}

/// How many plans there are, and what speaks among them against what the scan finds.
fn try_plans(rows: &[Row]) -> (u64, Option<String>) {
    let ranks = scan::rank_rows(rows);
    let judged = scan::judge_ranks(&ranks);
    (scan::plans(rows.len()).len() as u64, scan::plan_against(&ranks, &judged))
}

/// A plan file of up to five rows, or now and then of 11 to 13, sound or with some damage.
pub fn some_file(random: &mut Random) -> Case {
    let clock = some_clock(random);
    let deal = Deal::new(random);
    let weight = Weight::some(random, 400);
    let rows = match weight {
        Weight::Light => random.within(11, 13),
        Weight::Usual => random.below(6),
    };
    let mut text = clock.line();
    for place in 0..rows {
        text += &file_row(random, weight, clock, deal, place).tab_line("row");
    }
    let mut input = text.into_bytes();
    damage_some(random, &mut input);
    let due = plan_file::answer(scan::judge, &input);
    let fails = !due.refusals.is_empty();
    Case::of_lines(input, due, fails)
}

/// The number of a row that may be there.
fn some_number(random: &mut Random, numbers: &[u32]) -> u32 {
    match random.place(numbers.len()) {
        Some(place) if !random.one_in(4) => numbers[place],
        _ => random.within(0, LAST_NUMBER),
    }
}

/// The lines of an evening.
fn some_evening(random: &mut Random) -> String {
    let weight = Weight::some(random, 200);
    let (places, calls) = match weight {
        Weight::Light => (12, random.within(40, 60)),
        Weight::Usual => (random.below(13), random.within(4, 16)),
    };
    let clock = some_clock(random);
    let mut text = format!("table\t{}\t{places}\n", random.byte());
    text += &clock.line();
    // the numbers of rows that asked to enter
    let mut numbers = Vec::new();
    // where tables are to fill up, nearly all calls are holds
    let turns = match weight {
        Weight::Light => 60,
        Weight::Usual => 14,
    };
    let spend = |random: &mut Random, number| format!("{}\t{number}\n", random.choice(&["keep", "release"]));
    for _ in 0..calls {
        let number = some_number(random, &numbers);
        text += &match random.below(turns) {
            0 | 1 => format!("withdraw\t{number}\n"),
            2 => format!("bound\t{number}\n"),
            3..=5 => spend(random, number),
            _ => {
                let row = entering_row(random, weight, clock);
                numbers.push(row.number);
                row.tab_line("hold")
            }
        };
        text += "rows\n";
    }
    // half of the evenings spend all holds
    if random.one_in(2) {
        text.extend(numbers.iter().map(|number| spend(random, *number)));
        text += "rows\n";
    }
    text
}

/// A log of one evening, or now and then of up to three, sound or with some damage.
pub fn some_log(random: &mut Random) -> Case {
    let evenings = if random.one_in(4) { random.within(2, 3) } else { 1 };
    let text: String = (0..evenings).map(|_| some_evening(random)).collect();
    let mut input = text.into_bytes();
    damage_some(random, &mut input);
    let due = log_file::answer(scan::judge, &input);
    let fails = !due.refusals.iter().all(|check| check.is_of_table());
    Case::of_lines(input, due, fails)
}
