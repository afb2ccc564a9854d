//! The verdict: the form pass, the heading pass and the body pass, one after the other.

use crate::headings::{headings, World};
use crate::rows::{Refusal, ROW_WIDTH};
use crate::tree::{parse, Program};
use crate::typing::{bodies, Lookups};

/// An accepted program with what its passes found out.
#[derive(Debug)]
pub struct Accepted {
    pub program: Program,
    pub world: World,
    pub lookups: Lookups,
}

/// Accepts a program, or answers the first refusal of the first pass that refuses it.
pub fn accept(rows: &[u32]) -> Result<Accepted, Refusal> {
    let program = parse(rows)?;
    let world = headings(&program)?;
    let lookups = bodies(&program, &world, rows.len() / ROW_WIDTH)?;
    Ok(Accepted { program, world, lookups })
}

/// The verdict alone.
pub fn check_rows(rows: &[u32]) -> Result<(), Refusal> {
    accept(rows).map(|_| ())
}
