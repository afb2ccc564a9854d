//! The services with buffers of their own. Each function allocates what is enough for every input, so none of them is ever
//! refused with `Reason::Room`; its other refusals are those of the function over lent buffers that it calls.

use crate::constants::{
    COUNTED_WIDTH, MOST_LINE_BYTES, MOST_MODEL_BYTES, MOST_OBJECTS, MOST_PRICE_REPORT_BYTES, MOST_ROWS,
    MOST_TRANSLATED_ROWS, OBJECT_WIDTH, ROW_WIDTH, RUN_WIDTH,
};
use crate::{
    rank_models, read_rows, report_fleet, report_prices, run_rows, translate_rows, write_text, Refusal, Run,
};

/// The most plain rows for a row of the source, and the rows of the two classes that the translation adds: a translation
/// has at most 88n + 4 rows for a source of n rows (crates/theory/specs/PlainSizes.antt).
const PLAIN_ROWS_A_ROW: usize = 88;
const ADDED_ROWS: usize = 4;

/// Returns the rows of a text, which `read_rows` reads.
///
/// ```
/// use fickle::{rows_of_text, Reason, Refusal};
/// assert_eq!(rows_of_text(b"S\nB\t0\t1\nT\n"), Ok(vec![83, 0, 0, 0, 66, 0, 1, 0, 84, 0, 0, 0]));
/// assert_eq!(rows_of_text(b"S\nB 0 1\nT\n"), Err(Refusal::new(Reason::Line, 2)));
/// ```
pub fn rows_of_text(text: &[u8]) -> Result<Vec<u32>, Refusal> {
    // Every line that is read ends in a line feed.
    let lines = text.iter().filter(|byte| **byte == b'\n').count();
    let mut rows = vec![0; lines.min(MOST_ROWS) * ROW_WIDTH];
    let count = read_rows(text, &mut rows)?;
    rows.truncate(count * ROW_WIDTH);
    Ok(rows)
}

/// Returns the text of rows, which `write_text` writes.
///
/// ```
/// use fickle::text_of_rows;
/// assert_eq!(text_of_rows(&[83, 0, 0, 0, 66, 0, 1, 0, 84, 0, 0, 0]), Ok(b"S\nB\t0\t1\nT\n".to_vec()));
/// ```
pub fn text_of_rows(rows: &[u32]) -> Result<Vec<u8>, Refusal> {
    let count = (rows.len() / ROW_WIDTH).min(MOST_ROWS);
    let mut text = vec![0; count * MOST_LINE_BYTES];
    let length = write_text(rows, &mut text)?;
    text.truncate(length);
    Ok(text)
}

/// Returns the plain rows of a program, which `translate_rows` writes. A program of more than `MOST_TRANSLATED_ROWS` rows is
/// refused before its translation is made.
///
/// ```
/// use fickle::{plain_rows, rows_of_text, text_of_rows};
/// let plain = plain_rows(&rows_of_text(b"S\nB\t0\t1\nT\n")?)?;
/// assert_eq!(text_of_rows(&plain)?, b"C\t0\t0\nF\t2\t255\nC\t0\t0\nF\t1\t254\nS\nB\t0\t1\nT\n");
/// # Ok::<(), fickle::Refusal>(())
/// ```
pub fn plain_rows(rows: &[u32]) -> Result<Vec<u32>, Refusal> {
    let count = (rows.len() / ROW_WIDTH).min(MOST_TRANSLATED_ROWS);
    let mut plain = vec![0; (PLAIN_ROWS_A_ROW * count + ADDED_ROWS) * ROW_WIDTH];
    let count = translate_rows(rows, &mut plain)?;
    plain.truncate(count * ROW_WIDTH);
    Ok(plain)
}

/// Runs a program in a new store, as `run_rows` does in a lent one. Returns the run, and the objects that it made, each of
/// `OBJECT_WIDTH` numbers. The store has all the room that the run can use: making an object takes a step, and no store
/// holds more than `MOST_OBJECTS`.
///
/// ```
/// use fickle::{rows_of_text, run_in_own_store, Outcome, Value, OBJECT_WIDTH};
/// let rows = rows_of_text(b"C\t0\t0\nS\nB\t0\t2\nW\t1\nW\t0\n")?;
/// let (run, objects) = run_in_own_store(&rows, 1_000)?;
/// assert_eq!(run.outcome, Outcome::Value(Value::Object(2)));
/// let classes: Vec<u32> = objects.chunks(OBJECT_WIDTH).map(|object| object[0]).collect();
/// assert_eq!(classes, [1, 0]);
/// # Ok::<(), fickle::Refusal>(())
/// ```
///
/// # Panics
/// Panics where `run_rows` does: the system has no thread for a run that needs one.
pub fn run_in_own_store(rows: &[u32], fuel: u64) -> Result<(Run, Vec<u32>), Refusal> {
    let room = usize::try_from(fuel).map_or(MOST_OBJECTS, |fuel| fuel.min(MOST_OBJECTS));
    let mut store = vec![0; room * OBJECT_WIDTH];
    let run = run_rows(rows, fuel, &mut store)?;
    store.truncate(run.objects as usize * OBJECT_WIDTH);
    Ok((run, store))
}

/// Returns the report of counted lines, which `rank_models` writes.
///
/// ```
/// assert_eq!(fickle::models_report(&[7, 3, 0, 10, 8, 1, 0, 3])?, b"8\t1\t0\t3\n7\t3\t0\t10\n");
/// # Ok::<(), fickle::Refusal>(())
/// ```
pub fn models_report(counts: &[u32]) -> Result<Vec<u8>, Refusal> {
    // There are no more models than counted lines.
    let mut report = vec![0; counts.len() / COUNTED_WIDTH * MOST_MODEL_BYTES];
    let length = rank_models(counts, &mut report)?;
    report.truncate(length);
    Ok(report)
}

/// Returns the report over a fleet of ended runs, which `report_fleet` writes.
///
/// ```
/// let rows = fickle::rows_of_text(b"C\t1\t0\nC\t2\t1\nS\nB\t0\t1\nT\n")?;
/// let mut store = [0; 18];
/// store[0] = 1;
/// assert_eq!(fickle::fleet_report(&[7, 5, 1, 1, 2, 250], &rows, &store)?, b"7\t1\t0\t250\n");
/// # Ok::<(), fickle::Refusal>(())
/// ```
pub fn fleet_report(runs: &[u32], programs: &[u32], stores: &[u32]) -> Result<Vec<u8>, Refusal> {
    // There are no more models than runs.
    let mut report = vec![0; runs.len() / RUN_WIDTH * MOST_MODEL_BYTES];
    let length = report_fleet(runs, programs, stores, &mut report)?;
    report.truncate(length);
    Ok(report)
}

/// Returns the price report of a model and a month, which `report_prices` writes.
///
/// ```
/// assert_eq!(fickle::price_report(b"7\t0\t9\t150\t1\n", 7, 2000, 1)?, b"0\t9\t150\n");
/// # Ok::<(), fickle::Refusal>(())
/// ```
pub fn price_report(terms: &[u8], model: u32, year: u32, month: u32) -> Result<Vec<u8>, Refusal> {
    let mut report = vec![0; MOST_PRICE_REPORT_BYTES];
    let length = report_prices(terms, model, year, month, &mut report)?;
    report.truncate(length);
    Ok(report)
}
