//! Damage done to the bytes of a plan file or of a log.

use crate::random::Random;
use std::ops::Range;

/// What is written in place of a field.
const EDGES: [&str; 27] = [
    "0",
    "1",
    "2",
    "12",
    "13",
    "63",
    "64",
    "65",
    "255",
    "256",
    "1000",
    "1001",
    "1000000",
    "1000001",
    "2000000",
    "4294967295",
    "4294967296",
    "99999999999999999999999",
    "007",
    "-1",
    "",
    "clock",
    "row",
    "every",
    "heavy",
    "table",
    "Row",
];

/// Bytes that stand in the formats, or nearly.
const BYTES: &[u8] = b"0123456789\t\n rowevryhacltbkpd-+.\r";

fn some_byte(random: &mut Random) -> u8 {
    if random.one_in(8) {
        random.byte()
    } else {
        random.choice(BYTES)
    }
}

/// Two of the lines are exchanged, or one stands there twice. What stands behind the last newline goes.
fn exchange_lines(random: &mut Random, text: &mut Vec<u8>) {
    let mut lines: Vec<Vec<u8>> = text
        .split_inclusive(|byte| *byte == b'\n')
        .filter(|line| line.ends_with(b"\n"))
        .map(<[u8]>::to_vec)
        .collect();
    let (Some(one), Some(other)) = (random.place(lines.len()), random.place(lines.len())) else {
        return;
    };
    if random.one_in(2) {
        lines.insert(one, lines[other].clone());
    } else {
        lines.swap(one, other);
    }
    *text = lines.concat();
}

/// What stands behind a line goes, or all that there is.
fn cut(random: &mut Random, text: &mut Vec<u8>) {
    let ends: Vec<usize> = (0..text.len()).filter(|place| text[*place] == b'\n').map(|end| end + 1).collect();
    let end = random.place(ends.len() + 1).and_then(|line| ends.get(line).copied());
    text.truncate(end.unwrap_or(0));
}

/// A field that a mark ends, which stands behind it.
fn some_field(random: &mut Random, text: &[u8]) -> Option<Range<usize>> {
    let ends: Vec<usize> = (0..text.len()).filter(|place| matches!(text[*place], b'\t' | b'\n')).collect();
    let field = random.place(ends.len())?;
    let start = if field == 0 { 0 } else { ends[field - 1] + 1 };
    Some(start..ends[field])
}

/// Damages a field, or the mark that ends it.
fn damage_field(random: &mut Random, text: &mut Vec<u8>, field: Range<usize>) {
    match random.below(8) {
        0 => text[field.end] = b' ',
        1 => text[field.end] = b'\n',
        2 => text[field.end] = b'\t',
        _ => {
            let edge = random.choice(&EDGES);
            text.splice(field, edge.bytes());
        }
    }
}

/// Puts zeros in front of a field, so that its line or the whole text is as long as may be, or a little shorter or longer.
fn lengthen(random: &mut Random, text: &mut Vec<u8>, field: Range<usize>) {
    let is_newline = |byte: &u8| *byte == b'\n';
    let now = if random.one_in(2) {
        text.len()
    } else {
        let before = text[..field.start].iter().rev().position(is_newline);
        let behind = text[field.start..].iter().position(is_newline);
        before.unwrap_or(field.start) + behind.map_or(text.len() - field.start, |mark| mark + 1)
    };
    let most = random.within(4094, 4098) as usize;
    let zeros = vec![b'0'; most.saturating_sub(now)];
    text.splice(field.start..field.start, zeros);
}

/// Does some damage to a text.
fn damage(random: &mut Random, text: &mut Vec<u8>) {
    let chosen = random.place(text.len());
    let field = some_field(random, text);
    match (random.below(60), chosen, field) {
        (0, _, Some(field)) => lengthen(random, text, field),
        (1..=5, Some(place), _) => text[place] = some_byte(random),
        (6..=10, Some(place), _) => text.insert(place, some_byte(random)),
        (11..=15, Some(place), _) => {
            text.remove(place);
        }
        (16..=19, ..) => {
            text.pop();
        }
        (20, ..) => cut(random, text),
        (21..=30, ..) => exchange_lines(random, text),
        (31.., _, Some(field)) => damage_field(random, text, field),
        _ => {}
    }
}

/// Does up to three damages to every second text or so.
pub fn damage_some(random: &mut Random, text: &mut Vec<u8>) {
    let damages = if random.one_in(4) { random.within(2, 3) } else { random.below(2) };
    for _ in 0..damages {
        damage(random, text);
    }
}
