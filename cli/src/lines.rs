//! Texts of lines with tabs between their fields: fleets, names, counted lines and stores. A byte-order mark, carriage
//! returns, empty lines and lines that begin with # are accepted.

use crate::input::reason;
use crate::output::say;
use crate::{Status, Trouble};
use std::io::Read;
use std::path::Path;

/// Why a command has no result.
pub enum No {
    /// What is wrong with an input, with its file and line. The status is 1.
    Refused(String),
    /// What kept the command from its work. The status is 2.
    Trouble(Trouble),
}

impl From<Trouble> for No {
    fn from(trouble: Trouble) -> No {
        No::Trouble(trouble)
    }
}

/// Says why there is no result, where there is none.
pub fn told(ended: Result<Status, No>) -> Result<Status, Trouble> {
    match ended {
        Ok(status) => Ok(status),
        Err(No::Trouble(trouble)) => Err(trouble),
        Err(No::Refused(sentence)) => {
            say(&sentence);
            Ok(Status::Refused)
        }
    }
}

/// A line that says something: its number in its file, from 1, and its text.
pub struct Line<'a> {
    pub number: usize,
    pub text: &'a str,
}

/// The bytes that a text may begin with to say that it is UTF-8.
const MARK: &[u8] = b"\xef\xbb\xbf";

/// The lines of a text that say something.
pub fn lines<'a>(name: &str, text: &'a [u8]) -> Result<Vec<Line<'a>>, No> {
    let mut lines = Vec::new();
    for (bytes, number) in text.strip_prefix(MARK).unwrap_or(text).split(|byte| *byte == b'\n').zip(1..) {
        let bytes = bytes.strip_suffix(b"\r").unwrap_or(bytes);
        let Ok(text) = std::str::from_utf8(bytes) else {
            return Err(wrong(name, number, "the line is not UTF-8; save the file as UTF-8"));
        };
        if !text.trim().is_empty() && !text.starts_with('#') {
            lines.push(Line { number, text });
        }
    }
    Ok(lines)
}

/// Says what is wrong with a line, as editors read it.
pub fn wrong(name: &str, number: usize, what: &str) -> No {
    No::Refused(format!("{name}:{number}: {what}"))
}

/// A whole number of at most 32 bits.
pub fn number(field: &str) -> Option<u32> {
    field.parse().ok().filter(|_| field.bytes().all(|byte| byte.is_ascii_digit()))
}

/// Reads a whole file.
pub fn read(path: &Path) -> Result<Vec<u8>, Trouble> {
    std::fs::read(path).map_err(|error| cannot_read(&path.to_string_lossy(), &error))
}

/// Reads all of standard input.
pub fn read_input() -> Result<Vec<u8>, Trouble> {
    let mut text = Vec::new();
    let read = std::io::stdin().lock().read_to_end(&mut text);
    read.map(|_| text).map_err(|error| cannot_read(STANDARD_INPUT, &error))
}

/// How standard input is called in messages.
pub const STANDARD_INPUT: &str = "<standard input>";

fn cannot_read(name: &str, error: &std::io::Error) -> Trouble {
    Trouble(format!("cannot read {name}: {}.", reason(error)))
}
