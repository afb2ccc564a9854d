//! Generated inputs, all from a seed: well-typed programs, damaged ones, extremes at each limit,
//! texts and row buffers.

mod body;
mod bytes;
mod damage;
pub mod extreme;
mod program;

pub use bytes::{program_text, row_buffer, rows_of_text, text, text_of_rows};
pub use damage::{damaged, damaged_for, REFUSALS};
pub use extreme::extreme;
pub use program::{near_missed, program};
