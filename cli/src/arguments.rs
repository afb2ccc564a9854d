//! What is typed after a command: files and options.

use crate::Trouble;
use std::ffi::{OsStr, OsString};
use std::os::unix::ffi::OsStrExt;
use std::str::FromStr;

/// The arguments of a command, read one by one. After `--` everything is a file.
pub struct Arguments<'a> {
    command: &'static str,
    rest: &'a [OsString],
    only_files: bool,
}

/// One of them.
pub enum Argument<'a> {
    /// An option, and the value after its `=`.
    Option(String, Option<&'a OsStr>),
    File(&'a OsStr),
}

impl<'a> Arguments<'a> {
    pub fn new(command: &'static str, rest: &'a [OsString]) -> Arguments<'a> {
        Arguments { command, rest, only_files: false }
    }

    pub fn next(&mut self) -> Option<Argument<'a>> {
        let (first, rest) = self.rest.split_first()?;
        self.rest = rest;
        let text = first.to_string_lossy();
        if self.only_files || text == "-" || !text.starts_with('-') {
            return Some(Argument::File(first));
        }
        if text == "--" {
            self.only_files = true;
            return self.next();
        }
        let mut parts = first.as_bytes().splitn(2, |byte| *byte == b'=').map(OsStr::from_bytes);
        let name = parts.next().unwrap_or(first).to_string_lossy().into_owned();
        Some(Argument::Option(name, parts.next()))
    }

    /// The value of an option: after its `=`, or the next argument.
    pub fn value(&mut self, option: &str, given: Option<&'a OsStr>) -> Result<&'a OsStr, Trouble> {
        if let Some(value) = given {
            return Ok(value);
        }
        let Some((first, rest)) = self.rest.split_first() else {
            return Err(self.trouble(&format!("{option} needs a value")));
        };
        self.rest = rest;
        Ok(first)
    }

    /// The value of an option that is a whole number.
    pub fn number<N: FromStr>(&mut self, option: &str, given: Option<&'a OsStr>) -> Result<N, Trouble> {
        let digits = self.value(option, given)?.to_string_lossy();
        match digits.parse() {
            Ok(number) if digits.bytes().all(|byte| byte.is_ascii_digit()) => Ok(number),
            _ => Err(self.trouble(&format!("{option} needs a whole number, not '{digits}'"))),
        }
    }

    pub fn no_such_option(&self, option: &str) -> Trouble {
        self.trouble(&format!("there is no option {option}"))
    }

    /// A sentence, with where to read more.
    pub fn trouble(&self, sentence: &str) -> Trouble {
        Trouble(format!("{sentence}. See `sigvolar {} --help`.", self.command))
    }
}

/// The only file of a command that has no options.
pub fn one_file<'a>(command: &'static str, rest: &'a [OsString]) -> Result<&'a OsStr, Trouble> {
    match &files(command, rest)?[..] {
        [file] => Ok(file),
        _ => Err(Arguments::new(command, rest).trouble("one file is needed")),
    }
}

/// The files of a command that has no options.
pub fn files<'a>(command: &'static str, rest: &'a [OsString]) -> Result<Vec<&'a OsStr>, Trouble> {
    let mut arguments = Arguments::new(command, rest);
    let mut files = Vec::new();
    while let Some(argument) = arguments.next() {
        match argument {
            Argument::File(file) => files.push(file),
            Argument::Option(option, _) => return Err(arguments.no_such_option(&option)),
        }
    }
    Ok(files)
}
