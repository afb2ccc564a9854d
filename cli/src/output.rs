//! Printing: results on standard output, everything else on standard error.

use crate::{Status, Trouble};
use std::io::Write;

/// Prints a whole result.
pub fn print(text: &str) -> Result<Status, Trouble> {
    print_bytes(text.as_bytes())
}

/// Prints a whole result that is bytes.
pub fn print_bytes(bytes: &[u8]) -> Result<Status, Trouble> {
    let mut output = std::io::stdout().lock();
    output.write_all(bytes)?;
    output.flush()?;
    Ok(Status::Well)
}

/// Says a sentence on standard error. Where even that fails there is nobody left to tell.
pub fn say(sentence: &str) {
    let _ = writeln!(std::io::stderr(), "{sentence}");
}
