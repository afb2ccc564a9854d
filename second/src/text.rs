//! Reading text into rows and writing rows as text (document 01, "Lines and rows").

use crate::rows::{
    is_well_formed, letter, number, refuse, row_at, whole_rows, Refusal, CHECKED, DIGITS_MOST, NUMBER_MOST,
    ROW_WIDTH,
};

pub const TAB: u8 = b'\t';
pub const LINE_FEED: u8 = b'\n';

/// Reads a text, one row a line. Answers the count of rows written.
/// Line by line: 2 for a line past the limit, then 1; after all lines, 13 where the rows do not fit.
pub fn read_rows(text: &[u8], rows: &mut [u32]) -> Result<usize, Refusal> {
    let mut read: Vec<u32> = Vec::with_capacity(text.len().min(CHECKED.rows * ROW_WIDTH));
    let mut rest = text;
    let mut count = 0;
    while !rest.is_empty() {
        let line = count as u32 + 1;
        if count == CHECKED.rows {
            return refuse(number::LIMIT, line);
        }
        let Some(end) = rest.iter().position(|byte| *byte == LINE_FEED) else {
            return refuse(number::LINE, line);
        };
        let Some(row) = read_line(&rest[..end]) else {
            return refuse(number::LINE, line);
        };
        read.extend_from_slice(&row);
        count += 1;
        rest = &rest[end + 1..];
    }
    if read.len() > rows.len() {
        return refuse(number::ROOM, 0);
    }
    rows[..read.len()].copy_from_slice(&read);
    Ok(count)
}

/// One line without its line feed: a letter, then as many numbers as it has, each after a tab.
fn read_line(line: &[u8]) -> Option<[u32; ROW_WIDTH]> {
    let (code, mut rest) = line.split_first()?;
    let code = u32::from(*code);
    let count = letter::numbers(code)?;
    let mut row = [code, 0, 0, 0];
    for place in &mut row[1..=count] {
        let (field, after) = next_field(rest)?;
        *place = read_number(field)?;
        rest = after;
    }
    if rest.is_empty() {
        Some(row)
    } else {
        None
    }
}

/// The field after a tab, up to the next tab or the end of the line, and what follows it.
pub fn next_field(line: &[u8]) -> Option<(&[u8], &[u8])> {
    let (first, rest) = line.split_first()?;
    if *first != TAB {
        return None;
    }
    let end = rest.iter().position(|byte| *byte == TAB).unwrap_or(rest.len());
    Some((&rest[..end], &rest[end..]))
}

/// A decimal number of one to five digits, without needless leading zeros, at most 65,535.
pub fn read_number(field: &[u8]) -> Option<u32> {
    if field.is_empty() || field.len() > DIGITS_MOST || (field.len() > 1 && field[0] == b'0') {
        return None;
    }
    let mut value = 0;
    for byte in field {
        if !byte.is_ascii_digit() {
            return None;
        }
        value = value * 10 + u32::from(*byte - b'0');
    }
    if value <= NUMBER_MOST {
        Some(value)
    } else {
        None
    }
}

/// Writes rows as text. Answers the count of bytes written.
/// Row by row: 2 for a row past the limit, then 1; after all rows, 13 where the text does not fit.
pub fn write_text(rows: &[u32], text: &mut [u8]) -> Result<usize, Refusal> {
    let count = whole_rows(rows)?;
    let mut written: Vec<u8> = Vec::with_capacity(count.min(CHECKED.rows) * 8);
    for index in 0..count {
        let line = index as u32 + 1;
        if index == CHECKED.rows {
            return refuse(number::LIMIT, line);
        }
        let row = row_at(rows, index);
        if !is_well_formed(&row) {
            return refuse(number::LINE, line);
        }
        write_line(&row, &mut written);
    }
    if written.len() > text.len() {
        return refuse(number::ROOM, 0);
    }
    text[..written.len()].copy_from_slice(&written);
    Ok(written.len())
}

/// One well-formed row as a line.
fn write_line(row: &[u32; ROW_WIDTH], text: &mut Vec<u8>) {
    text.push(row[0] as u8);
    let count = letter::numbers(row[0]).unwrap_or(0);
    for value in &row[1..=count] {
        text.push(TAB);
        write_number(u64::from(*value), text);
    }
    text.push(LINE_FEED);
}

/// A number in decimal digits without needless zeros.
pub fn write_number(value: u64, text: &mut Vec<u8>) {
    let mut digits = [0u8; 20];
    let mut at = digits.len();
    let mut left = value;
    loop {
        at -= 1;
        digits[at] = b'0' + (left % 10) as u8;
        left /= 10;
        if left == 0 {
            break;
        }
    }
    text.extend_from_slice(&digits[at..]);
}
