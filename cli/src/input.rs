//! Files of rules and of price terms: reading them, and the words for a refusal.

use crate::lines::STANDARD_INPUT;
use crate::Trouble;
use fickle::{rows_of_text, Reason, Refusal, MOST_LINE_BYTES, MOST_ROWS};
use std::ffi::OsStr;
use std::fs::File;
use std::io::Read;
use std::path::Path;

/// What decides any verdict of the reader: 60,000 lines are well formed within these bytes or one of them is not, and then
/// whatever follows is line 60,001.
const TEXT_MOST: u64 = (MOST_ROWS * MOST_LINE_BYTES) as u64 + 1;

/// A text of rules or of price terms, and how its file is called in messages.
pub struct Input {
    pub name: String,
    text: Vec<u8>,
}

impl Input {
    /// Reads a file of rules, or standard input for `-`.
    pub fn read(file: &OsStr) -> Result<Input, Trouble> {
        Input::read_first(file, TEXT_MOST)
    }

    /// Reads so many bytes of a file, or of standard input for `-`.
    pub fn read_first(file: &OsStr, most: u64) -> Result<Input, Trouble> {
        if file == "-" {
            return Input::of(STANDARD_INPUT.to_string(), first(std::io::stdin().lock(), most));
        }
        let path = Path::new(file);
        Input::of(path.to_string_lossy().into_owned(), File::open(path).and_then(|file| first(file, most)))
    }

    /// Reads a file of rules, whatever its name.
    pub fn open(path: &Path) -> Result<Input, Trouble> {
        let text = File::open(path).and_then(|file| first(file, TEXT_MOST));
        Input::of(path.to_string_lossy().into_owned(), text)
    }

    fn of(name: String, text: std::io::Result<Vec<u8>>) -> Result<Input, Trouble> {
        match text {
            Ok(text) => Ok(Input { name, text }),
            Err(error) => Err(Trouble(format!("cannot read {name}: {}.", reason(&error)))),
        }
    }

    pub fn text(&self) -> &[u8] {
        &self.text
    }

    /// A line of it, from 1, with its line feed.
    pub fn line(&self, number: u64) -> Option<&[u8]> {
        let before = usize::try_from(number).ok()?.checked_sub(1)?;
        self.text.split_inclusive(|byte| *byte == b'\n').nth(before)
    }

    /// Its rows.
    pub fn rows(&self) -> Result<Vec<u32>, Refusal> {
        rows_of_text(&self.text)
    }

    /// A refusal as editors read it: file, line, number and word, sentence.
    pub fn refused(&self, refusal: Refusal) -> String {
        let place = match refusal.line {
            0 => self.name.clone(),
            line => format!("{}:{line}", self.name),
        };
        format!("{place}: {}", refused(refusal.reason))
    }

    /// What may be wrong with a malformed line, where its bytes tell.
    pub fn hint(&self, refusal: Refusal) -> Option<String> {
        let line = self.line(refusal.line).filter(|_| refusal.reason == Reason::Line)?;
        Some(format!("{}:{}: note: {}", self.name, refusal.line, suspected(line)?))
    }
}

/// A refusal in words, but for its place.
pub fn refused(reason: Reason) -> String {
    format!("refused ({}, {}): {}", reason.number(), reason.word(), reason.sentence())
}

/// The first bytes of a file.
fn first(file: impl Read, most: u64) -> std::io::Result<Vec<u8>> {
    let mut text = Vec::new();
    file.take(most).read_to_end(&mut text)?;
    Ok(text)
}

/// Why a line may be malformed.
fn suspected(line: &[u8]) -> Option<&'static str> {
    let has = |some: fn(&u8) -> bool| line.iter().any(some);
    Some(if line.starts_with(b"\xef\xbb\xbf") {
        "the file begins with a byte-order mark; save it without one"
    } else if line.ends_with(b"\r\n") {
        "the line ends in a carriage return and a line feed; save the file with line feeds alone"
    } else if has(|byte| *byte < b' ' && !b"\t\n\r".contains(byte)) || has(|byte| *byte > b'~') {
        "the line has bytes that cannot occur in rules; this may not be a file of rules"
    } else if line == b"\n" {
        "the line is empty, and no line may be"
    } else if line.contains(&b' ') {
        "the line has a space; a tab goes before each number, and nothing else"
    } else if line.first().is_some_and(u8::is_ascii_lowercase) {
        "the letter is not a capital"
    } else if !line.ends_with(b"\n") {
        "the line does not end in a line feed"
    } else {
        return None;
    })
}

/// What went wrong with a file, without the system's number.
pub fn reason(error: &std::io::Error) -> String {
    let text = error.to_string();
    match text.split_once(" (os error") {
        Some((words, _)) => words.to_string(),
        None => text,
    }
}

/// Whether two names are of one file that is there.
pub fn same_file(one: &OsStr, other: &OsStr) -> bool {
    match (std::fs::canonicalize(one), std::fs::canonicalize(other)) {
        (Ok(one), Ok(other)) => one == other,
        _ => false,
    }
}
