//! The two programs of document 01, "Worked programs", from input bytes to output bytes.

use crate::machine::{run_rows, Outcome, Run, Value};
use crate::plain::translate_rows;
use crate::rows::{number, refuse, Refusal, ROW_WIDTH};
use crate::text::{read_rows, write_number, write_text};

/// Bytes of text that a program holds.
pub const TEXT_ROOM: usize = 8_192;
/// Source rows that a program holds.
pub const SOURCE_ROWS: usize = 680;
/// Plain rows that a program holds.
pub const PLAIN_ROWS: usize = 1_000;
/// Numbers in each store that the running program lends.
pub const STORE: usize = 3_000;
/// Fuel that the running program gives.
pub const FUEL: u64 = 10_000;

/// The translating program: the plain lines, or the refusal's line.
pub fn translate(input: &[u8]) -> Vec<u8> {
    translated_text(input).unwrap_or_else(refusal_line)
}

/// The running program: the source's line and the plain program's line, or the refusal's line.
pub fn run(input: &[u8]) -> Vec<u8> {
    run_lines(input).unwrap_or_else(refusal_line)
}

/// The plain program as text, all within the program's buffers.
fn translated_text(input: &[u8]) -> Result<Vec<u8>, Refusal> {
    let (_, plain) = source_and_plain(input)?;
    let mut text = vec![0; TEXT_ROOM];
    let length = write_text(&plain, &mut text)?;
    text.truncate(length);
    Ok(text)
}

/// The lines of the two runs.
fn run_lines(input: &[u8]) -> Result<Vec<u8>, Refusal> {
    let (source, plain) = source_and_plain(input)?;
    let mut text = Vec::new();
    for rows in [source, plain] {
        let run = run_rows(&rows, FUEL, &mut vec![0; STORE])?;
        run_line(&run, &mut text);
    }
    Ok(text)
}

/// Source rows and plain rows of an input.
fn source_and_plain(input: &[u8]) -> Result<(Vec<u32>, Vec<u32>), Refusal> {
    if input.len() > TEXT_ROOM {
        return refuse(number::ROOM, 0);
    }
    let mut source = vec![0; SOURCE_ROWS * ROW_WIDTH];
    let rows = read_rows(input, &mut source)?;
    source.truncate(rows * ROW_WIDTH);
    let mut plain = vec![0; PLAIN_ROWS * ROW_WIDTH];
    let rows = translate_rows(&source, &mut plain)?;
    plain.truncate(rows * ROW_WIDTH);
    Ok((source, plain))
}

/// `!`, the refusal's number and its line.
fn refusal_line(refusal: Refusal) -> Vec<u8> {
    let mut text = vec![b'!'];
    for part in [u64::from(refusal.number), refusal.line] {
        text.push(b'\t');
        write_number(part, &mut text);
    }
    text.push(b'\n');
    text
}

/// The outcome and the three counts.
fn run_line(run: &Run, text: &mut Vec<u8>) {
    let (letter, detail) = match run.outcome {
        Outcome::Value(Value::True) => (b'T', None),
        Outcome::Value(Value::False) => (b'L', None),
        Outcome::Value(Value::Null) => (b'N', None),
        Outcome::Value(Value::Object(object)) => (b'O', Some(object)),
        Outcome::Exception(exception) => (b'E', Some(exception)),
        Outcome::Stop(stop) => (b'!', Some(stop)),
    };
    text.push(letter);
    let counts = [run.steps, u64::from(run.objects), run.changes];
    for part in detail.map(u64::from).into_iter().chain(counts) {
        text.push(b'\t');
        write_number(part, text);
    }
    text.push(b'\n');
}
