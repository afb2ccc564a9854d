//! `sigvolar check`: a verdict for each file.

use crate::arguments::{files, Arguments};
use crate::input::Input;
use crate::output::{print, say};
use crate::{Status, Trouble};
use fickle::check_rows;
use std::ffi::{OsStr, OsString};

/// Checks every file, whatever became of those before it.
pub fn command(rest: &[OsString]) -> Result<Status, Trouble> {
    let files = files("check", rest)?;
    if files.is_empty() {
        return Err(Arguments::new("check", rest).trouble("a file is needed, or - for standard input"));
    }
    let mut worst = Status::Well;
    for file in files {
        worst = worst.max(checked(file)?);
    }
    Ok(worst)
}

fn checked(file: &OsStr) -> Result<Status, Trouble> {
    let input = match Input::read(file) {
        Ok(input) => input,
        Err(Trouble(sentence)) => {
            say(&format!("sigvolar: {sentence}"));
            return Ok(Status::Trouble);
        }
    };
    match input.rows().and_then(|rows| check_rows(&rows)) {
        Ok(()) => print(&format!("{}: accepted\n", input.name)),
        Err(refusal) => {
            print(&format!("{}\n", input.refused(refusal)))?;
            if let Some(hint) = input.hint(refusal) {
                say(&hint);
            }
            Ok(Status::Refused)
        }
    }
}
