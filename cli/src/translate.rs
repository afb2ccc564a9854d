//! `sigvolar translate`: the plain lines of a file.

use crate::arguments::one_file;
use crate::input::Input;
use crate::output::{print_bytes, say};
use crate::{Status, Trouble};
use fickle::{plain_rows, text_of_rows, Refusal};
use std::ffi::OsString;

pub fn command(rest: &[OsString]) -> Result<Status, Trouble> {
    let input = Input::read(one_file("translate", rest)?)?;
    match input.rows().and_then(|rows| plain_rows(&rows)).and_then(|plain| text_of_rows(&plain)) {
        Ok(text) => print_bytes(&text),
        Err(refusal) => {
            refused(&input, refusal);
            Ok(Status::Refused)
        }
    }
}

/// Says a refusal where the result is something else.
pub fn refused(input: &Input, refusal: Refusal) {
    say(&input.refused(refusal));
    if let Some(hint) = input.hint(refusal) {
        say(&hint);
    }
}
