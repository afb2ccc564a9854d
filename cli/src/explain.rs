//! `sigvolar explain`: what a refusal or stop means, with a smallest example, from docs/REFUSALS.md.

use crate::arguments::Arguments;
use crate::output::print;
use crate::{Status, Trouble};
use fickle::explanations;
use std::ffi::OsString;

/// Takes a number or its word.
pub fn command(rest: &[OsString]) -> Result<Status, Trouble> {
    let arguments = Arguments::new("explain", rest);
    let [asked] = rest else {
        return Err(arguments.trouble("one number is needed, or its word"));
    };
    let asked = asked.to_string_lossy();
    let found = explanations().find(|found| found.number.to_string() == asked || found.word == asked);
    match found {
        Some(found) => print(&format!(
            "{} {}\n{}\n\nA smallest example (spaces stand for tabs):\n{}\n{}\n",
            found.number,
            found.word,
            found.sentence,
            found.example.lines().map(|line| format!("    {line}\n")).collect::<String>(),
            found.call
        )),
        None => Err(arguments.trouble(&format!(
            "there is no refusal or stop '{asked}'; their numbers are 1 to 18, 23 and 24"
        ))),
    }
}
