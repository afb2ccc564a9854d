//! The proved services, safe to call from Rust. Every input gets an answer; a refusal changes no lent buffer.
//!
//! A program is read from its text, checked, translated into a plain program, and run. Here a label is made in class 2 and
//! changes to class 3; the plain program, which changes no class, ends alike and leaves the same count:
//!
//! ```
//! use fickle::{
//!     check_rows, count_plain_run, count_run, plain_rows, rows_of_text, run_in_own_store, Outcome, Reason,
//!     Value, PLAIN_STEPS_A_STEP,
//! };
//!
//! // Class 1 is a root, classes 2 and 3 are states of it.
//! let rows = rows_of_text(b"C\t1\t0\nC\t2\t1\nC\t2\t1\nS\nB\t1\t3\nV\t1\nA\t1\nW\t2\nR\t1\t3\nT\n")?;
//! check_rows(&rows)?;
//! let (run, objects) = run_in_own_store(&rows, 1_000)?;
//! assert_eq!(run.outcome, Outcome::Value(Value::Truth(true)));
//! assert_eq!((run.steps, run.objects, run.changes), (5, 1, 1));
//!
//! let (plain_run, plain_objects) = run_in_own_store(&plain_rows(&rows)?, PLAIN_STEPS_A_STEP * 1_000)?;
//! assert_eq!(plain_run.outcome, run.outcome);
//! assert_eq!(u64::from(plain_run.objects), run.plain_objects());
//! let labels = count_run(&rows, &objects, run.objects, 1, 3)?;
//! assert_eq!((labels.printed, labels.spoiled), (1, 1));
//! assert_eq!(count_plain_run(&rows, &plain_objects, plain_run.objects, 1, 3), Ok(labels));
//!
//! // Without its last line the program ends too early.
//! let refusal = check_rows(&rows[..rows.len() - 4]).unwrap_err();
//! assert_eq!((refusal.reason, refusal.line), (Reason::Place, 10));
//! assert!(refusal.to_string().starts_with("number 3, line 10: "));
//! # Ok::<(), fickle::Refusal>(())
//! ```
//!
//! Functions that write are lent a buffer; `rows_of_text` and the others that return a `Vec` allocate one that is long
//! enough. The services are proved in Rattle. What the prover does not check is the Rust here, above all the declarations,
//! which give their C names and say how slices and answers cross.
//!
//! Every function but `run_rows_on_this_stack` may be called on any thread that has `STACK_NEEDED` bytes of its stack
//! left. A thread that `std::thread::spawn` starts has 2 MiB, which is more.

mod answers;
mod constants;
mod explanations;
mod fleets;
#[cfg(test)]
mod header;
mod owned;
mod price_terms;
mod refusals;
mod stack;

pub use answers::{Exception, Outcome, Run, Stop, Value};
pub use constants::{
    COUNTED_WIDTH, LARGEST_NUMBER, MOST_FUEL, MOST_LINE_BYTES, MOST_MODEL_BYTES, MOST_OBJECTS,
    MOST_PRICE_REPORT_BYTES, MOST_ROWS, MOST_SOURCE_FUEL, MOST_TERM_BYTES, MOST_TRANSLATED_ROWS,
    OBJECT_WIDTH, PLAIN_STEPS_A_STEP, ROW_WIDTH, RUN_WIDTH,
};
pub use explanations::{explanation, explanations, Explanation};
pub use fleets::{count_plain_run, count_run, rank_models, report_fleet, Labels};
pub use owned::{
    fleet_report, models_report, plain_rows, price_report, rows_of_text, run_in_own_store, text_of_rows,
};
pub use price_terms::{date_of_day, day_of_date, price_on_date, price_on_day, report_prices, Date, Price};
pub use refusals::{Reason, Refusal};
pub use stack::{
    run_rows_stack_bound, CHECK_ROWS_STACK_NEEDED, COUNT_PLAIN_RUN_STACK_NEEDED, COUNT_RUN_STACK_NEEDED,
    DATE_OF_DAY_STACK_NEEDED, DAY_OF_DATE_STACK_NEEDED, PRICE_ON_DATE_STACK_NEEDED,
    PRICE_ON_DAY_STACK_NEEDED, RANK_MODELS_STACK_NEEDED, READ_ROWS_STACK_NEEDED, REPORT_FLEET_STACK_NEEDED,
    REPORT_PRICES_STACK_NEEDED, RUN_ROWS_STACK_NEEDED, STACK_NEEDED, TRANSLATE_ROWS_STACK_NEEDED,
    WRITE_TEXT_STACK_NEEDED,
};

use answers::{unpack, unpack_run};

/// The example of README.md, so that it is run with the others.
#[cfg(doctest)]
#[doc = include_str!("../README.md")]
struct Readme;

mod c {
    extern "C" {
        pub fn fickle_read_rows(
            text: *const u8,
            text_length: usize,
            rows: *mut u32,
            rows_length: usize,
        ) -> u64;
        pub fn fickle_write_text(
            rows: *const u32,
            rows_length: usize,
            text: *mut u8,
            text_length: usize,
        ) -> u64;
        pub fn fickle_check_rows(rows: *const u32, rows_length: usize) -> u64;
        pub fn fickle_translate_rows(
            rows: *const u32,
            rows_length: usize,
            plain: *mut u32,
            plain_length: usize,
        ) -> u64;
        pub fn fickle_run_rows(
            rows: *const u32,
            rows_length: usize,
            store: *mut u32,
            store_length: usize,
            fuel: u64,
            kind: *mut u32,
            content: *mut u32,
            steps: *mut u32,
            objects: *mut u32,
            changes: *mut u32,
        ) -> u64;
        pub fn fickle_count_run(
            rows: *const u32,
            rows_length: usize,
            store: *const u32,
            store_length: usize,
            objects: u32,
            printed: u32,
            spoiled: u32,
            printed_labels: *mut u32,
            spoiled_labels: *mut u32,
        ) -> u64;
        pub fn fickle_count_plain_run(
            rows: *const u32,
            rows_length: usize,
            store: *const u32,
            store_length: usize,
            objects: u32,
            printed: u32,
            spoiled: u32,
            printed_labels: *mut u32,
            spoiled_labels: *mut u32,
        ) -> u64;
        pub fn fickle_rank_models(
            counts: *const u32,
            counts_length: usize,
            report: *mut u8,
            report_length: usize,
            told: *mut u64,
        ) -> u32;
        pub fn fickle_report_fleet(
            runs: *const u32,
            runs_length: usize,
            programs: *const u32,
            programs_length: usize,
            stores: *const u32,
            stores_length: usize,
            report: *mut u8,
            report_length: usize,
            told: *mut u64,
        ) -> u32;
        pub fn fickle_day_of_date(year: u32, month: u32, day: u32) -> u64;
        pub fn fickle_date_of_day(day: u32, year: *mut u32, month: *mut u32, of_month: *mut u32) -> u64;
        pub fn fickle_price_on_day(
            terms: *const u8,
            terms_length: usize,
            model: u32,
            day: u32,
            cents: *mut u32,
            line: *mut u32,
        ) -> u64;
        pub fn fickle_price_on_date(
            terms: *const u8,
            terms_length: usize,
            model: u32,
            year: u32,
            month: u32,
            day: u32,
            cents: *mut u32,
            line: *mut u32,
        ) -> u64;
        pub fn fickle_report_prices(
            terms: *const u8,
            terms_length: usize,
            model: u32,
            year: u32,
            month: u32,
            report: *mut u8,
            report_length: usize,
        ) -> u64;
    }
}

/// How many rows or bytes were written, or a refusal.
fn written(answer: u64) -> Result<usize, Refusal> {
    unpack(answer).map(|count| count as usize)
}

/// Reads a text into rows of `ROW_WIDTH` numbers. Returns how many rows were written.
pub fn read_rows(text: &[u8], rows: &mut [u32]) -> Result<usize, Refusal> {
    // SAFETY: pointers and lengths are those of live slices, and `rows` is lent to nobody else.
    written(unsafe { c::fickle_read_rows(text.as_ptr(), text.len(), rows.as_mut_ptr(), rows.len()) })
}

/// Writes rows of `ROW_WIDTH` numbers as text. Returns how many bytes were written.
pub fn write_text(rows: &[u32], text: &mut [u8]) -> Result<usize, Refusal> {
    // SAFETY: as above.
    written(unsafe { c::fickle_write_text(rows.as_ptr(), rows.len(), text.as_mut_ptr(), text.len()) })
}

/// Checks rows: accepted, or the first refusal.
pub fn check_rows(rows: &[u32]) -> Result<(), Refusal> {
    // SAFETY: as above.
    unpack(unsafe { c::fickle_check_rows(rows.as_ptr(), rows.len()) }).map(|_| ())
}

/// Translates a program into plain rows. Returns how many rows were written.
pub fn translate_rows(rows: &[u32], plain: &mut [u32]) -> Result<usize, Refusal> {
    // SAFETY: as above.
    written(unsafe { c::fickle_translate_rows(rows.as_ptr(), rows.len(), plain.as_mut_ptr(), plain.len()) })
}

/// Runs a program over a lent store, `OBJECT_WIDTH` numbers to an object. It takes at most `STACK_NEEDED` bytes of the caller's
/// stack: a run that may need more is given a thread of its own, which ends before this function returns. Such a thread
/// takes longer to start than a short run does to end; a caller with many such runs keeps a thread with
/// `RUN_ROWS_STACK_NEEDED` bytes for them, and calls `run_rows_on_this_stack` there.
///
/// # Panics
/// Panics where the system has no thread for a run that is given one.
pub fn run_rows(rows: &[u32], fuel: u64, store: &mut [u32]) -> Result<Run, Refusal> {
    if run_rows_stack_bound(rows, fuel) <= STACK_NEEDED {
        return run_rows_on_this_stack(rows, fuel, store);
    }
    let builder = std::thread::Builder::new().stack_size(RUN_ROWS_STACK_NEEDED);
    let run = || run_rows_on_this_stack(rows, fuel, store);
    std::thread::scope(|scope| {
        let thread =
            builder.spawn_scoped(scope, run).expect("no thread for a run that needs a stack of its own");
        thread.join().expect("a run does not panic")
    })
}

/// Runs a program as `run_rows` does, but always on the caller's stack: `run_rows_stack_bound(rows, fuel)` bytes of it
/// are enough for this run, and `RUN_ROWS_STACK_NEEDED` bytes for any. A stack that overflows aborts the process.
pub fn run_rows_on_this_stack(rows: &[u32], fuel: u64, store: &mut [u32]) -> Result<Run, Refusal> {
    let (mut kind, mut content, mut steps, mut objects, mut changes) = (0, 0, 0, 0, 0);
    // SAFETY: as above; the five numbers are lent to nobody else.
    let answer = unsafe {
        c::fickle_run_rows(
            rows.as_ptr(),
            rows.len(),
            store.as_mut_ptr(),
            store.len(),
            fuel,
            &mut kind,
            &mut content,
            &mut steps,
            &mut objects,
            &mut changes,
        )
    };
    unpack_run(answer, kind, content).map(|outcome| Run { outcome, steps, objects, changes })
}
