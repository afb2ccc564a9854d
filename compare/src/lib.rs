//! The proved services held against the second implementation, and what the comparisons and the benchmark share.

pub mod cases;
pub mod check;
pub mod faults;
pub mod fleet;
pub mod load;
pub mod measure;
pub mod prices;
pub mod programs;
pub mod proved;
pub mod run;
pub mod series;
pub mod text;
pub mod translate;

use fickle::{MOST_ROWS, ROW_WIDTH};
use second::random::Random;
use second::rows::letter;

/// 60,000 well-formed rows, letters and numbers as they come in programs: mostly one or two digits.
pub fn long_rows() -> Vec<u32> {
    let mut random = Random::new(1);
    let mut rows = Vec::with_capacity(MOST_ROWS * ROW_WIDTH);
    for _ in 0..MOST_ROWS {
        let code = random.pick(&letter::ALL);
        let mut row = [code, 0, 0, 0];
        for place in &mut row[1..=letter::numbers(code).unwrap_or(0)] {
            let bound = if random.chance(12) { 65_536 } else { 32 };
            *place = random.below(bound) as u32;
        }
        rows.extend_from_slice(&row);
    }
    rows
}
