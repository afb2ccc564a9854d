//! Texts and row buffers: valid, damaged and random.

use super::extreme::{doubled_calls, extreme};
use super::program::short_program;
use super::{damaged, program};
use crate::random::Random;
use crate::rows::{letter, CHECKED, ROW_WIDTH};
use crate::text::{read_rows, write_text};

/// The text of rows that the writer accepts.
pub fn text_of_rows(rows: &[u32]) -> Option<Vec<u8>> {
    let mut text = vec![0; rows.len() * 6 + 16];
    let length = write_text(rows, &mut text).ok()?;
    text.truncate(length);
    Some(text)
}

/// The rows of a text that the reader accepts.
pub fn rows_of_text(text: &[u8]) -> Option<Vec<u32>> {
    let lines = text.iter().filter(|byte| **byte == b'\n').count();
    let mut rows = vec![0; lines.min(CHECKED.rows) * ROW_WIDTH];
    let count = read_rows(text, &mut rows).ok()?;
    rows.truncate(count * ROW_WIDTH);
    Some(rows)
}

/// A number as it may stand in a row: mostly small, at times at an edge.
fn number(random: &mut Random) -> u32 {
    match random.below(12) {
        0 => random.pick(&[9, 10, 99, 100, 999, 1_000, 9_999, 10_000, 65_534, 65_535]),
        1 => random.pick(&[62, 63, 64, 65, 128, 253, 254, 255, 256, 257]),
        2 => random.below(65_536) as u32,
        3..=5 => random.below(300) as u32,
        _ => random.below(5) as u32,
    }
}

/// A well-formed row of any letter.
fn row(random: &mut Random) -> [u32; ROW_WIDTH] {
    let code = random.pick(&letter::ALL);
    let mut row = [code, 0, 0, 0];
    for place in &mut row[1..=letter::numbers(code).unwrap_or(0)] {
        *place = number(random);
    }
    row
}

/// Some well-formed rows without regard to a program's form.
fn loose_rows(random: &mut Random) -> Vec<u32> {
    let count = if random.chance(5) { random.below(400) } else { random.below(12) };
    (0..count).flat_map(|_| row(random)).collect()
}

/// A text: valid, damaged in a few bytes, random, or at the limit of lines.
pub fn text(random: &mut Random) -> Vec<u8> {
    match random.below(400) {
        0 => long_text(random),
        1..=39 => random_text(random),
        40..=139 => valid_text(random),
        _ => damaged_text(random),
    }
}

/// The text of a program, for the two programs that read text: mostly short and well typed; or of any size, damaged,
/// at a limit, with a long run, or with a fault in its bytes.
pub fn program_text(random: &mut Random) -> Vec<u8> {
    let rows = match random.below(20) {
        0..=11 => short_program(random),
        12 => program(random),
        13..=16 => damaged(random),
        17 => extreme(random),
        18 => doubled_calls(random.between(8, 14)),
        _ => loose_rows(random),
    };
    let mut text = text_of_rows(&rows).unwrap_or_default();
    if random.chance(8) {
        damage_bytes(&mut text, random);
    }
    text
}

/// The text of loose rows.
fn valid_text(random: &mut Random) -> Vec<u8> {
    text_of_rows(&loose_rows(random)).unwrap_or_default()
}

/// Bytes that a text may hold, and bytes that it may not.
const BYTES: &[u8] = b"CFMPXSBVTLNIZGKWRAUQJ0123456789\t\t\t\n\n\n\r -+.DEHOYcft\x00\x0b\x7f\x80\xff";

/// Random bytes, mostly such as lines have.
fn random_text(random: &mut Random) -> Vec<u8> {
    let length = random.below(40);
    let any = random.chance(20);
    (0..length).map(|_| if any { random.below(256) as u8 } else { random.pick(BYTES) }).collect()
}

/// A valid text with one to three faults.
fn damaged_text(random: &mut Random) -> Vec<u8> {
    let mut text = valid_text(random);
    for _ in 0..random.between(1, 3) {
        damage_bytes(&mut text, random);
    }
    text
}

/// Numbers as a text may hold them, right and wrong.
const NUMERALS: &[&[u8]] = &[
    b"0",
    b"00",
    b"01",
    b"000001",
    b"1",
    b"65535",
    b"65536",
    b"65540",
    b"70000",
    b"99999",
    b"100000",
    b"065535",
    b"",
    b"-1",
    b"+1",
    b" 1",
    b"1 ",
    b"4294967297",
    b"1.0",
    b"0x1",
];

/// One fault in a text: a byte changed, added or taken away, a numeral changed, the end cut off.
fn damage_bytes(text: &mut Vec<u8>, random: &mut Random) {
    if text.is_empty() {
        text.push(random.pick(BYTES));
        return;
    }
    let at = random.below(text.len());
    match random.below(10) {
        0 => text[at] = random.pick(BYTES),
        1 => text.insert(at, random.pick(BYTES)),
        2 => {
            text.remove(at);
        }
        3 => text.truncate(at),
        4 => {
            text.pop();
        }
        5 => text.insert(at, b'\t'),
        6 => replace_number(text, at, random),
        7 => replace_number(text, at, random),
        8 => text.extend_from_slice(random.pick(&[
            &b"\n"[..],
            b"\t",
            b"\r\n",
            b"T",
            b"T\n",
            b"T\r\n",
            b"I\t\n",
            b"B\t1\t\n",
        ])),
        _ => {
            let line = [&b"I\t"[..], random.pick(NUMERALS), b"\n"].concat();
            let start = text[..at].iter().rposition(|byte| *byte == b'\n').map_or(0, |end| end + 1);
            text.splice(start..start, line);
        }
    }
}

/// Puts one of the numerals in the place of the next number at or after `at`.
fn replace_number(text: &mut Vec<u8>, at: usize, random: &mut Random) {
    let Some(start) = text[at..].iter().position(|byte| byte.is_ascii_digit()).map(|offset| at + offset)
    else {
        return;
    };
    let end = text[start..]
        .iter()
        .position(|byte| !byte.is_ascii_digit())
        .map_or(text.len(), |offset| start + offset);
    text.splice(start..end, random.pick(NUMERALS).iter().copied());
}

/// A text of about as many lines as the reader takes.
fn long_text(random: &mut Random) -> Vec<u8> {
    let lines = random.between(CHECKED.rows - 1, CHECKED.rows + 2);
    let mut text = Vec::new();
    for _ in 0..lines {
        text.extend_from_slice(b"T\n");
    }
    if random.chance(50) {
        text.extend_from_slice(random.pick(&[&b"T"[..], b"\n", b"x\n", b"T\t\n"]));
    }
    if random.chance(30) {
        let at = random.below(text.len());
        text[at] = random.pick(BYTES);
    }
    text
}

/// A row buffer: well formed or not, whole rows or not, numbers in and out of range.
pub fn row_buffer(random: &mut Random) -> Vec<u32> {
    let mut rows = if random.chance(90) {
        loose_rows(random)
    } else {
        (0..random.below(40)).map(|_| loose_number(random)).collect()
    };
    for _ in 0..random.pick(&[0, 0, 0, 1, 1, 2]) {
        damage_numbers(&mut rows, random);
    }
    if random.below(300) == 0 {
        let count = random.between(CHECKED.rows - 1, CHECKED.rows + 2);
        rows = (0..count).flat_map(|_| [letter::TRUE, 0, 0, 0]).collect();
        if random.chance(50) {
            let at = rows.len() - 1 - random.below(8);
            rows[at] = 1;
        }
    }
    rows
}

/// Any number, at times far out of range.
fn loose_number(random: &mut Random) -> u32 {
    match random.below(8) {
        0 => random.bits() as u32,
        1 => random.pick(&[65_535, 65_536, 65_537, 1 << 31, u32::MAX]),
        2 => random.between(64, 91) as u32,
        3 => random.pick(&letter::ALL) + 256 * random.pick(&[0, 1, 256]),
        _ => number(random),
    }
}

/// One fault in a row buffer.
fn damage_numbers(rows: &mut Vec<u32>, random: &mut Random) {
    if rows.is_empty() {
        rows.push(loose_number(random));
        return;
    }
    let at = random.below(rows.len());
    match random.below(4) {
        0 => rows.truncate(at),
        1 => rows.insert(at, loose_number(random)),
        _ => rows[at] = loose_number(random),
    }
}
