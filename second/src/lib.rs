//! The second implementation of the label rules in Fickle II, written from documents 01 and 02: a tree, a typing pass and
//! an evaluator over it, a report over fleets, and prices by date. It is what the proved services are compared with.

pub mod agree;
pub mod check;
pub mod fleet;
pub mod generate;
pub mod headings;
pub mod machine;
pub mod notation;
pub mod plain;
pub mod prices;
pub mod programs;
pub mod random;
pub mod rows;
pub mod services;
pub mod text;
pub mod tree;
pub mod typing;
pub mod vectors;
