//! Programs as the documents write them, turned into rows or text: `C 1 0, C 2 1, S, B 0 1, T`.
//!
//! A record is a letter and its numbers with spaces between them; records have commas or line ends between them. `3*T` is
//! the record T three times, and `2*(Q 0 0; I 0)` a group of records twice. A record that begins with a digit is a row's
//! four numbers. Programs are not checked, so that refused ones can be written too.

use crate::rows::ROW_WIDTH;

/// Returns the text of a program: a tab for each space, and a line feed at the end of each record.
///
/// # Panics
/// Panics where a record or group is not repeated by a number.
pub fn text(program: &str) -> Vec<u8> {
    let lines = records(program).into_iter().map(|record| record.replace(' ', "\t") + "\n");
    lines.collect::<String>().into_bytes()
}

/// Returns the rows of a program.
///
/// # Panics
/// Panics where `text` does, and where a record is not a letter or number followed by numbers, four in all at most.
pub fn rows(program: &str) -> Vec<u32> {
    records(program).into_iter().flat_map(row).collect()
}

/// The records, repeated ones written out.
fn records(program: &str) -> Vec<&str> {
    let mut all = Vec::new();
    for part in program.split([',', '\n']).map(str::trim).filter(|part| !part.is_empty()) {
        let (times, group) = part.split_once('*').unwrap_or(("1", part));
        let times = times.parse().unwrap_or_else(|_| panic!("'{part}' is not repeated by a number"));
        let group = group.trim_start_matches('(').trim_end_matches(')');
        for _ in 0..times {
            all.extend(group.split(';').map(str::trim));
        }
    }
    all
}

/// The four numbers of a record.
fn row(record: &str) -> [u32; ROW_WIDTH] {
    let mut row = [0; ROW_WIDTH];
    for (place, word) in record.split(' ').enumerate() {
        let letter = word.chars().next().filter(|letter| place == 0 && letter.is_ascii_uppercase());
        let number = match letter {
            Some(letter) if word.len() == 1 => u32::from(letter),
            _ => word.parse().unwrap_or_else(|_| panic!("'{record}' is not a record")),
        };
        *row.get_mut(place).unwrap_or_else(|| panic!("'{record}' is longer than a row")) = number;
    }
    row
}

#[cfg(test)]
mod tests {
    use super::{rows, text, ROW_WIDTH};
    use crate::text::read_rows;

    #[test]
    fn commas_and_lines() {
        let expected = [67, 1, 0, 0, 83, 0, 0, 0, 66, 0, 1, 0, 84, 0, 0, 0];
        for program in ["C 1 0, S, B 0 1, T", "C 1 0,S,B 0 1,T,", "C 1 0\nS\nB 0 1\nT\n"] {
            assert_eq!(rows(program), expected);
            assert_eq!(text(program), b"C\t1\t0\nS\nB\t0\t1\nT\n");
        }
        assert!(rows("").is_empty() && text("").is_empty());
    }

    #[test]
    fn the_text_is_read_as_the_rows() {
        let program =
            "C 1 0, F 255 0, M 1 9, P 255, X 1, B 1 12, V 0, 3*(T; L; N), I 0, Z, G 0, K 1, W 65535, \
             R 0 1, A 1, U 0, Q 0 2, J, S, B 0 1, T";
        let expected = rows(program);
        let mut read = vec![7; expected.len()];
        assert_eq!(read_rows(&text(program), &mut read), Ok(expected.len() / ROW_WIDTH));
        assert_eq!(read, expected);
    }

    #[test]
    fn repeated_records_and_groups() {
        assert_eq!(text("S, 2*T, 0*N, 2*(Q 0 0; I 0)"), b"S\nT\nT\nQ\t0\t0\nI\t0\nQ\t0\t0\nI\t0\n");
    }

    #[test]
    fn numbers_of_a_row() {
        assert_eq!(rows("1 2 3 4294967295, T 1"), [1, 2, 3, u32::MAX, 84, 1, 0, 0]);
        for wrong in ["TT", "I -1", "1 2 3 4 5", "I x", "n*T", "t"] {
            assert!(std::panic::catch_unwind(|| rows(wrong)).is_err(), "{wrong}");
        }
    }
}
