//! Calls of the real binary, and files for them.

use std::ffi::OsStr;
use std::io::Write;
use std::path::PathBuf;
use std::process::{Command, Output, Stdio};

/// What a call printed, said on standard error, and ended with.
#[derive(Debug)]
pub struct Left {
    pub printed: String,
    pub said: String,
    pub status: Option<i32>,
}

impl From<Output> for Left {
    fn from(output: Output) -> Left {
        Left {
            printed: String::from_utf8_lossy(&output.stdout).into_owned(),
            said: String::from_utf8_lossy(&output.stderr).into_owned(),
            status: output.status.code(),
        }
    }
}

pub fn sigvolar() -> Command {
    Command::new(env!("CARGO_BIN_EXE_sigvolar"))
}

pub fn call<A: AsRef<OsStr>>(arguments: &[A]) -> Left {
    sigvolar().args(arguments).stdin(Stdio::null()).output().unwrap().into()
}

/// A call with bytes on standard input.
pub fn piped(arguments: &[&str], input: &[u8]) -> Left {
    let mut child = sigvolar()
        .args(arguments)
        .stdin(Stdio::piped())
        .stdout(Stdio::piped())
        .stderr(Stdio::piped())
        .spawn()
        .unwrap();
    child.stdin.take().unwrap().write_all(input).unwrap();
    child.wait_with_output().unwrap().into()
}

pub fn folder() -> PathBuf {
    PathBuf::from(env!("CARGO_TARGET_TMPDIR"))
}

/// A file of bytes; each test has names of its own.
pub fn file(name: &str, bytes: &[u8]) -> String {
    let path = folder().join(name);
    std::fs::write(&path, bytes).unwrap();
    path.to_str().unwrap().to_string()
}
