//! What the library looks like to a caller: reads a file of rules, runs it, and says how the run ended and in which class
//! each object did. The tool in cli/ does the same with more words.

use fickle::{rows_of_text, run_in_own_store, OBJECT_WIDTH};
use std::error::Error;

const FUEL: u64 = 10_000;

fn main() -> Result<(), Box<dyn Error>> {
    let path = std::env::args_os().nth(1).ok_or("usage: labels FILE")?;
    let text = std::fs::read(path)?;
    // A run checks its rows first, so no run follows rules that are refused.
    let (run, objects) = run_in_own_store(&rows_of_text(&text)?, FUEL)?;
    println!("{:?} after {} steps", run.outcome, run.steps);
    for (object, number) in objects.chunks(OBJECT_WIDTH).zip(1..) {
        println!("object {number}: class {}", object[0]);
    }
    Ok(())
}
