//! Programs for the benchmark: accepted ones of a wanted size for the check, the translator's longest, long runs for the
//! runner, short programs as texts, and programs of runs in a fleet.

use second::generate::extreme::Writer;
use second::notation;
use second::rows::letter::*;

/// What the start block of a program for the check is full of.
#[derive(Clone, Copy, Debug)]
pub enum Load {
    Nesting,
    Slots,
    Choices,
    Calls,
}

pub const LOADS: [Load; 4] = [Load::Nesting, Load::Slots, Load::Choices, Load::Calls];

/// An accepted program of just so many rows, at least 90.
pub fn checked(load: Load, rows: usize) -> Vec<u32> {
    let mut all = Writer::default();
    all.row(CLASS, 0, 0).row(METHOD, 0, 0);
    for _ in 0..3 {
        all.row(PARAMETER, 0, 0);
    }
    all.row(BLOCK, 0, 1).row(NULL, 0, 0).row(START, 0, 0);
    let locals = if matches!(load, Load::Slots) { (rows / 3).min(255) } else { 3 };
    let mut items = Writer::default();
    let mut count = 0;
    let left = rows - all.count() - 1 - locals;
    while items.count() < left {
        let left = left - items.count();
        count += 1;
        match load {
            Load::Nesting if left >= 2 => {
                for _ in 1..left.min(121) {
                    items.row(ASSIGN, 1, 0);
                }
                items.row(SLOT, 1, 0)
            }
            Load::Slots | Load::Choices if left >= 4 => {
                items.row(IF, 0, 0).row(TRUE, 0, 0).row(SLOT, 1, 0).row(SLOT, 2, 0)
            }
            Load::Calls if left >= 5 => {
                items.row(CALL, 0, 3).row(NEW, 1, 0).row(SLOT, 1, 0).row(SLOT, 2, 0).row(NULL, 0, 0)
            }
            _ => items.row(SLOT, 1, 0),
        };
    }
    all.row(BLOCK, locals as u32, count);
    for _ in 0..locals {
        all.row(LOCAL, 0, 0);
    }
    all.rows.extend(items.rows);
    all.rows
}

/// The fields of the root in the program with the longest translation: as many as the translator takes.
const FIELDS: u32 = 16;
/// Its changes of class: with the other rows, they are the 680 that the translator takes.
const CHANGES: u32 = 660;

/// The program with the longest translation. Each R of a slot copies all fields of its root, which takes some 88 plain rows.
pub fn longest_translation() -> Vec<u32> {
    let mut rows = Writer::default();
    rows.row(CLASS, 1, 0);
    for name in 0..FIELDS {
        rows.row(FIELD, 1, name);
    }
    rows.row(START, 0, 0).row(BLOCK, 1, CHANGES).row(LOCAL, 1, 0);
    for _ in 0..CHANGES {
        rows.row(CHANGE, 1, 1);
    }
    rows.rows
}

/// Program D of document 01.
pub fn program_d() -> Vec<u32> {
    notation::rows("C 1 0, F 255 0, C 2 1, C 2 1, S, B 1 4, V 1, A 1, W 2, U 0, I 1, T, R 1 3, G 0, I 1")
}

/// The rules of examples/labels.md.
pub fn shipped_rules() -> Vec<u32> {
    fickle::rows_of_text(include_bytes!("../../examples/labels.rules")).expect("well formed")
}

/// What the innermost method of a long run does.
#[derive(Clone, Copy, Debug)]
pub enum Work {
    Calls,
    Fields,
    Changes,
    Objects,
}

pub const WORKS: [Work; 4] = [Work::Calls, Work::Fields, Work::Changes, Work::Objects];

/// How deep the calls go, each method calling the next one twice.
const DEPTH: u32 = 26;

/// A run of far more nodes than any fuel. Class 1 is a root, 2 and 3 are its states.
pub fn long_run(work: Work) -> Vec<u32> {
    let mut rows = Writer::default();
    rows.row(CLASS, 1, 0).row(FIELD, 1, 0).row(FIELD, 255, 1);
    for name in 0..DEPTH {
        rows.row(METHOD, 1, name).row(EFFECT, 1, 0).row(BLOCK, 0, 3);
        rows.row(CALL, name + 1, 0).row(SLOT, 0, 0).row(CALL, name + 1, 0).row(SLOT, 0, 0).row(NULL, 0, 0);
    }
    rows.row(METHOD, 1, DEPTH).row(EFFECT, 1, 0);
    match work {
        Work::Calls => rows.row(BLOCK, 0, 1).row(NULL, 0, 0),
        Work::Fields => {
            rows.row(BLOCK, 0, 8);
            for _ in 0..4 {
                rows.row(SET, 0, 0).row(SLOT, 0, 0).row(GET, 0, 0).row(SLOT, 0, 0);
                rows.row(SET, 1, 0).row(SLOT, 0, 0).row(GET, 1, 0).row(SLOT, 0, 0);
            }
            rows.rows.truncate(rows.rows.len() - 16);
            rows.row(GET, 0, 0).row(SLOT, 0, 0)
        }
        Work::Changes => {
            rows.row(BLOCK, 0, 8);
            for target in [2, 3, 2, 3, 2, 3, 2, 1] {
                rows.row(CHANGE, 0, target);
            }
            &mut rows
        }
        Work::Objects => rows.row(BLOCK, 0, 4).row(NEW, 1, 0).row(NEW, 2, 0).row(NEW, 3, 0).row(NULL, 0, 0),
    };
    rows.row(CLASS, 2, 1).row(FIELD, 1, 2).row(CLASS, 2, 1);
    rows.row(START, 0, 0).row(BLOCK, 0, 1).row(CALL, 0, 0).row(NEW, 1, 0);
    rows.rows
}

/// The calls of a long run, each of them beside an arm of so many rows that is never taken.
pub fn untaken(size: usize) -> Vec<u32> {
    let mut rows = Writer::default();
    rows.row(CLASS, 0, 0);
    for name in 0..DEPTH {
        rows.row(METHOD, 1, name).row(BLOCK, 0, 2).row(CALL, name + 1, 0).row(SLOT, 0, 0);
        rows.row(CALL, name + 1, 0).row(SLOT, 0, 0);
    }
    rows.row(METHOD, 1, DEPTH).row(BLOCK, 0, 1).row(IF, 0, 0).row(TRUE, 0, 0).row(NULL, 0, 0);
    rows.row(BLOCK, 0, size as u32);
    for _ in 0..size {
        rows.row(NULL, 0, 0);
    }
    rows.row(START, 0, 0).row(BLOCK, 0, 1).row(CALL, 0, 0).row(NEW, 1, 0);
    rows.rows
}

/// An accepted program of just so many rows, at least 7, with a field of this name. Class 1 is a root with the field, class
/// 2 a state below it; labels are made, written on and changed.
pub fn labels(name: u32, rows: usize) -> Vec<u32> {
    let mut items = Writer::default();
    let mut count = 0;
    let left = rows - 6;
    while items.count() < left {
        let room = left - items.count();
        match count % 4 {
            0 if room >= 2 => items.row(ASSIGN, 1, 0).row(NEW, 2, 0),
            1 if room >= 3 => items.row(SET, name, 0).row(SLOT, 1, 0).row(TRUE, 0, 0),
            2 if room >= 2 => items.row(GET, name, 0).row(SLOT, 1, 0),
            _ => items.row(CHANGE, 1, 2),
        };
        count += 1;
    }
    let mut all = Writer::default();
    all.row(CLASS, 1, 0).row(FIELD, 255, name).row(CLASS, 2, 1);
    all.row(START, 0, 0).row(BLOCK, 1, count).row(LOCAL, 1, 0);
    all.rows.extend(items.rows);
    all.rows
}
