//! Programs at each limit and one step past it.

use crate::random::Random;
use crate::rows::{letter, BOOL, CHECKED, OBJECT, PLAIN, ROOT, ROW_WIDTH, STATE, TRANSLATED};

/// Rows written one after the other.
#[derive(Default)]
pub struct Writer {
    pub rows: Vec<u32>,
}

impl Writer {
    pub fn row(&mut self, letter: u32, first: u32, second: u32) -> &mut Writer {
        self.rows.extend_from_slice(&[letter, first, second, 0]);
        self
    }

    /// How many rows there are.
    pub fn count(&self) -> usize {
        self.rows.len() / ROW_WIDTH
    }

    /// The start with a block of one literal.
    fn finish(mut self) -> Vec<u32> {
        self.row(letter::START, 0, 0).row(letter::BLOCK, 0, 1).row(letter::TRUE, 0, 0);
        self.rows
    }
}

/// A method of so many parameters.
pub fn parameters(count: usize) -> Vec<u32> {
    let mut rows = Writer::default();
    rows.row(letter::CLASS, PLAIN, OBJECT).row(letter::METHOD, BOOL, 0);
    for _ in 0..count {
        rows.row(letter::PARAMETER, BOOL, 0);
    }
    rows.row(letter::BLOCK, 0, 1).row(letter::TRUE, 0, 0);
    rows.finish()
}

/// A start block whose innermost node stands at the nesting; the letters between are random.
pub fn nesting(depth: usize, random: &mut Random) -> Vec<u32> {
    let mut rows = Writer::default();
    rows.row(letter::START, 0, 0);
    if depth == 1 {
        rows.row(letter::BLOCK, 0, 0);
        return rows.rows;
    }
    rows.row(letter::BLOCK, 1, 1).row(letter::LOCAL, OBJECT, 0);
    let mut closing = 0;
    for _ in 2..depth {
        match random.below(4) {
            0 => rows.row(letter::BLOCK, 0, 1),
            1 => rows.row(letter::ASSIGN, 1, 0),
            2 => rows.row(letter::CAST, OBJECT, 0),
            _ if closing < 20 => {
                closing += 1;
                rows.row(letter::IF, 0, 0).row(letter::TRUE, 0, 0).row(letter::NULL, 0, 0)
            }
            _ => rows.row(letter::BLOCK, 0, 1),
        };
    }
    rows.row(letter::NULL, 0, 0);
    rows.rows
}

/// A start block of nested blocks with so many slots in scope, slot 0 included.
pub fn slots(count: usize, random: &mut Random) -> Vec<u32> {
    let mut rows = Writer::default();
    rows.row(letter::START, 0, 0);
    let mut left = count - 1;
    for _ in 0..random.below(6) {
        let here = random.below(left + 1);
        block_of_locals(&mut rows, here);
        left -= here;
    }
    block_of_locals(&mut rows, left);
    rows.row(letter::TRUE, 0, 0);
    rows.rows
}

fn block_of_locals(rows: &mut Writer, count: usize) {
    rows.row(letter::BLOCK, count as u32, 1);
    for _ in 0..count {
        rows.row(letter::LOCAL, BOOL, 0);
    }
}

/// So many classes; each is below an earlier one or below Object.
pub fn classes(count: usize, random: &mut Random) -> Vec<u32> {
    let mut rows = Writer::default();
    for class in 0..count {
        rows.row(letter::CLASS, PLAIN, random.below(class + 1) as u32);
    }
    rows.finish()
}

/// A class with so many fields, some of them inherited.
pub fn fields(count: usize, random: &mut Random) -> Vec<u32> {
    let mut rows = Writer::default();
    let mut class = 0;
    for name in 0..count {
        if name == 0 || random.chance(20) {
            rows.row(letter::CLASS, PLAIN, class);
            class += 1;
        }
        rows.row(letter::FIELD, random.pick(&[BOOL, OBJECT, 1]), name as u32);
    }
    rows.finish()
}

/// A program of so many rows, at least 3.
pub fn rows(count: usize) -> Vec<u32> {
    let mut rows = Writer::default();
    rows.row(letter::START, 0, 0).row(letter::BLOCK, 0, count as u32 - 2);
    for _ in 2..count {
        rows.row(letter::TRUE, 0, 0);
    }
    rows.rows
}

/// A program of about so many rows with bodies of calls, reads and writes, for long checks and runs.
pub fn long_program(count: usize) -> Vec<u32> {
    let mut rows = Writer::default();
    rows.row(letter::CLASS, ROOT, OBJECT).row(letter::FIELD, BOOL, 0).row(letter::FIELD, 1, 1);
    rows.row(letter::METHOD, BOOL, 0).row(letter::PARAMETER, BOOL, 0);
    rows.row(letter::BLOCK, 0, 1).row(letter::SET, 0, 0).row(letter::SLOT, 0, 0).row(letter::SLOT, 1, 0);
    rows.row(letter::CLASS, STATE, 1).row(letter::START, 0, 0);
    let items = (count.saturating_sub(15) / 13).max(1);
    rows.row(letter::BLOCK, 1, items as u32 + 1).row(letter::LOCAL, 1, 0);
    rows.row(letter::ASSIGN, 1, 0).row(letter::NEW, 2, 0);
    for _ in 0..items {
        rows.row(letter::BLOCK, 0, 3);
        rows.row(letter::CALL, 0, 1).row(letter::SLOT, 1, 0).row(letter::IS_NULL, 0, 0);
        rows.row(letter::GET, 1, 0).row(letter::SLOT, 1, 0);
        rows.row(letter::SET, 1, 0).row(letter::SLOT, 1, 0).row(letter::SLOT, 1, 0);
        rows.row(letter::IF, 0, 0).row(letter::TRUE, 0, 0).row(letter::CHANGE, 1, 1).row(
            letter::CHANGE,
            1,
            2,
        );
    }
    rows.rows
}

/// A program whose names are at most the given one, on each letter that has a name.
pub fn names(name: u32) -> Vec<u32> {
    let mut rows = Writer::default();
    rows.row(letter::CLASS, PLAIN, OBJECT).row(letter::FIELD, BOOL, name);
    rows.row(letter::METHOD, BOOL, name).row(letter::BLOCK, 0, 1).row(letter::TRUE, 0, 0);
    rows.row(letter::START, 0, 0).row(letter::BLOCK, 0, 3);
    rows.row(letter::GET, name, 0).row(letter::NEW, 1, 0);
    rows.row(letter::SET, name, 0).row(letter::NEW, 1, 0).row(letter::TRUE, 0, 0);
    rows.row(letter::CALL, name, 0).row(letter::NEW, 1, 0);
    rows.rows
}

/// A name past the limit on one of the letters that have a name.
fn one_name_past(random: &mut Random) -> Vec<u32> {
    let mut rows = names(7);
    let at = random.pick(&[(1, 2), (2, 2), (7, 1), (9, 1), (12, 1)]);
    rows[at.0 * 4 + at.1] = random.pick(&[256, 257, 65_535]);
    rows
}

/// The longest change of class: a root of so many fields, changed by slot and by `this`.
pub fn widest_change(fields: usize) -> Vec<u32> {
    let mut rows = Writer::default();
    rows.row(letter::CLASS, ROOT, OBJECT);
    for name in 0..fields {
        rows.row(letter::FIELD, if name % 3 == 0 { BOOL } else { 1 }, name as u32);
    }
    rows.row(letter::METHOD, 1, 0).row(letter::EFFECT, 1, 0);
    rows.row(letter::BLOCK, 0, 1).row(letter::CHANGE, 0, 2);
    rows.row(letter::CLASS, STATE, 1);
    rows.row(letter::START, 0, 0).row(letter::BLOCK, 1, 5).row(letter::LOCAL, 1, 0);
    rows.row(letter::CHANGE, 1, 2);
    rows.row(letter::ASSIGN, 1, 0).row(letter::NEW, 2, 0);
    rows.row(letter::SET, 0, 0).row(letter::SLOT, 1, 0).row(letter::TRUE, 0, 0);
    rows.row(letter::CHANGE, 1, 1);
    rows.row(letter::CALL, 0, 0).row(letter::SLOT, 1, 0);
    rows.rows
}

/// Calls of eight arguments nested in one another as the last argument, so many deep.
pub fn nested_calls(depth: usize) -> Vec<u32> {
    let mut rows = Writer::default();
    rows.row(letter::CLASS, PLAIN, OBJECT).row(letter::METHOD, BOOL, 0);
    for _ in 0..CHECKED.parameters {
        rows.row(letter::PARAMETER, BOOL, 0);
    }
    rows.row(letter::BLOCK, 0, 1).row(letter::SLOT, 8, 0);
    rows.row(letter::START, 0, 0).row(letter::BLOCK, 0, 1);
    for _ in 0..depth {
        rows.row(letter::CALL, 0, 8).row(letter::NEW, 1, 0);
        for _ in 1..CHECKED.parameters {
            rows.row(letter::FALSE, 0, 0);
        }
    }
    rows.row(letter::TRUE, 0, 0);
    rows.rows
}

/// What makes the translation's scope widest and its nesting deepest: all locals that the translator takes,
/// then calls of eight arguments or casts down to its nesting, then a change of class.
pub fn widest_scope(calls: bool) -> Vec<u32> {
    let mut rows = Writer::default();
    rows.row(letter::CLASS, ROOT, OBJECT).row(letter::METHOD, 1, 0);
    for _ in 1..CHECKED.parameters {
        rows.row(letter::PARAMETER, BOOL, 0);
    }
    rows.row(letter::PARAMETER, 1, 0).row(letter::BLOCK, 0, 1).row(letter::SLOT, 8, 0);
    let locals = TRANSLATED.slots as u32 - 1;
    rows.row(letter::START, 0, 0).row(letter::BLOCK, locals, 2);
    for _ in 0..locals {
        rows.row(letter::LOCAL, 1, 0);
    }
    rows.row(letter::ASSIGN, locals, 0).row(letter::NEW, 1, 0);
    for _ in 2..TRANSLATED.nesting {
        if calls {
            rows.row(letter::CALL, 0, CHECKED.parameters as u32).row(letter::NEW, 1, 0);
            for _ in 1..CHECKED.parameters {
                rows.row(letter::FALSE, 0, 0);
            }
        } else {
            rows.row(letter::CAST, 1, 0);
        }
    }
    rows.row(letter::CHANGE, locals, 1);
    rows.rows
}

/// Letters through which an evaluation can go deeper, each as its last child.
pub const DEEPENING: [u32; 7] =
    [letter::BLOCK, letter::ASSIGN, letter::CAST, letter::GET, letter::SET, letter::CALL, letter::IF];

/// A method that calls itself without end, from a nesting reached through the given letters in turn.
pub fn deep_calls(nesting: usize, through: &[u32]) -> Vec<u32> {
    let mut rows = Writer::default();
    rows.row(letter::CLASS, PLAIN, OBJECT).row(letter::FIELD, 1, 0);
    rows.row(letter::METHOD, 1, 0).row(letter::PARAMETER, 1, 0).row(letter::BLOCK, 0, 1);
    for level in 2..nesting - 1 {
        match through[level % through.len()] {
            letter::ASSIGN => rows.row(letter::ASSIGN, 1, 0),
            letter::CAST => rows.row(letter::CAST, 1, 0),
            letter::GET => rows.row(letter::GET, 0, 0),
            letter::SET => rows.row(letter::SET, 0, 0).row(letter::SLOT, 0, 0),
            letter::CALL => rows.row(letter::CALL, 0, 1).row(letter::SLOT, 0, 0),
            letter::IF => rows.row(letter::IF, 0, 0).row(letter::FALSE, 0, 0).row(letter::NULL, 0, 0),
            _ => rows.row(letter::BLOCK, 0, 1),
        };
    }
    rows.row(letter::CALL, 0, 1).row(letter::SLOT, 0, 0).row(letter::SLOT, 1, 0);
    rows.row(letter::START, 0, 0).row(letter::BLOCK, 0, 1);
    rows.row(letter::CALL, 0, 1).row(letter::NEW, 1, 0).row(letter::NEW, 1, 0);
    rows.rows
}

/// A chain of objects of the given length on which a method calls itself down to the last one.
pub fn chain(length: usize) -> Vec<u32> {
    let mut rows = Writer::default();
    rows.row(letter::CLASS, ROOT, OBJECT).row(letter::FIELD, 1, 0).row(letter::METHOD, 1, 0);
    rows.row(letter::EFFECT, 1, 0).row(letter::BLOCK, 0, 2).row(letter::CHANGE, 0, 2);
    rows.row(letter::IF, 0, 0).row(letter::IS_NULL, 0, 0).row(letter::GET, 0, 0).row(letter::SLOT, 0, 0);
    rows.row(letter::SLOT, 0, 0).row(letter::CALL, 0, 0).row(letter::GET, 0, 0).row(letter::SLOT, 0, 0);
    rows.row(letter::CLASS, STATE, 1).row(letter::START, 0, 0);
    rows.row(letter::BLOCK, 2, 2 * length as u32 + 1).row(letter::LOCAL, 1, 0).row(letter::LOCAL, 1, 0);
    for _ in 0..length {
        rows.row(letter::SET, 0, 0).row(letter::ASSIGN, 2, 0).row(letter::NEW, 1, 0).row(letter::SLOT, 1, 0);
        rows.row(letter::ASSIGN, 1, 0).row(letter::SLOT, 2, 0);
    }
    rows.row(letter::CALL, 0, 0).row(letter::SLOT, 1, 0);
    rows.rows
}

/// A chain of objects on which a method with 8 parameters and so many locals calls itself down to the last one, each
/// time with its arguments turned round by one. Every call keeps its first argument in its last local, and stores it when
/// the call within has returned. As many nulls as asked for come first in the start block.
pub fn turning_chain(length: usize, locals: u32, nulls: usize) -> Vec<u32> {
    let parameters = CHECKED.parameters as u32;
    let (found, kept) = (parameters + 1, parameters + locals);
    let mut rows = Writer::default();
    rows.row(letter::CLASS, PLAIN, OBJECT).row(letter::FIELD, 1, 0).row(letter::FIELD, 1, 1);
    rows.row(letter::METHOD, 1, 0);
    for _ in 0..parameters {
        rows.row(letter::PARAMETER, 1, 0);
    }
    rows.row(letter::BLOCK, locals, 4);
    for _ in 0..locals {
        rows.row(letter::LOCAL, 1, 0);
    }
    rows.row(letter::ASSIGN, kept, 0).row(letter::SLOT, 1, 0);
    rows.row(letter::ASSIGN, found, 0).row(letter::IF, 0, 0);
    rows.row(letter::IS_NULL, 0, 0).row(letter::GET, 0, 0).row(letter::SLOT, 0, 0).row(
        letter::SLOT,
        parameters,
        0,
    );
    rows.row(letter::CALL, 0, parameters).row(letter::GET, 0, 0).row(letter::SLOT, 0, 0);
    for slot in (2..=parameters).chain([1]) {
        rows.row(letter::SLOT, slot, 0);
    }
    rows.row(letter::SET, 1, 0).row(letter::SLOT, 0, 0).row(letter::SLOT, kept, 0).row(
        letter::SLOT,
        found,
        0,
    );
    rows.row(letter::START, 0, 0).row(letter::BLOCK, 2, (nulls + 2 * length + 1) as u32);
    rows.row(letter::LOCAL, 1, 0).row(letter::LOCAL, 1, 0);
    for _ in 0..nulls {
        rows.row(letter::NULL, 0, 0);
    }
    for _ in 0..length {
        rows.row(letter::SET, 0, 0).row(letter::ASSIGN, 2, 0).row(letter::NEW, 1, 0).row(letter::SLOT, 1, 0);
        rows.row(letter::ASSIGN, 1, 0).row(letter::SLOT, 2, 0);
    }
    rows.row(letter::CALL, 0, parameters).row(letter::SLOT, 1, 0);
    for _ in 0..parameters {
        rows.row(letter::NEW, 1, 0);
    }
    rows.rows
}

/// Methods that call the next one twice, so many deep: a short program with a long run.
pub fn doubled_calls(depth: usize) -> Vec<u32> {
    let mut rows = Writer::default();
    rows.row(letter::CLASS, PLAIN, OBJECT);
    for name in 0..depth as u32 {
        rows.row(letter::METHOD, BOOL, name).row(letter::BLOCK, 0, 2);
        rows.row(letter::CALL, name + 1, 0).row(letter::SLOT, 0, 0);
        rows.row(letter::CALL, name + 1, 0).row(letter::SLOT, 0, 0);
    }
    rows.row(letter::METHOD, BOOL, depth as u32).row(letter::BLOCK, 0, 1).row(letter::TRUE, 0, 0);
    rows.row(letter::START, 0, 0).row(letter::BLOCK, 0, 1).row(letter::CALL, 0, 0).row(letter::NEW, 1, 0);
    rows.rows
}

/// Roots in all places, all of them in the effect of one method, which changes each of its parameters.
pub fn many_roots(count: usize) -> Vec<u32> {
    let mut rows = Writer::default();
    for _ in 1..count {
        rows.row(letter::CLASS, ROOT, OBJECT);
    }
    rows.row(letter::CLASS, ROOT, OBJECT).row(letter::METHOD, count as u32, 255);
    for root in 1..=CHECKED.parameters.min(count) {
        rows.row(letter::PARAMETER, root as u32, 0);
    }
    for root in 1..=count {
        rows.row(letter::EFFECT, root as u32, 0);
    }
    let changed = CHECKED.parameters.min(count);
    rows.row(letter::BLOCK, 0, changed as u32 + 1);
    for slot in 1..=changed as u32 {
        rows.row(letter::CHANGE, slot, slot);
    }
    rows.row(letter::CHANGE, 0, count as u32);
    rows.finish()
}

/// A limit's neighbourhood.
fn around(limit: usize, random: &mut Random) -> usize {
    random.between(limit - 1, limit + 1)
}

/// A program at, just below or just past one of the limits.
pub fn extreme(random: &mut Random) -> Vec<u32> {
    let limits = random.pick(&[CHECKED, TRANSLATED]);
    match random.below(15) {
        0 => parameters(around(limits.parameters, random)),
        1 | 2 => nesting(around(limits.nesting, random), random),
        3 | 4 => slots(around(limits.slots, random), random),
        5 => classes(around(limits.classes, random), random),
        6 => fields(around(limits.fields, random), random),
        7 if limits.rows == TRANSLATED.rows || random.chance(5) => rows(around(limits.rows, random)),
        7 => long_program(random.between(30, 700)),
        8 => names(random.between(250, 255) as u32),
        9 => one_name_past(random),
        10 => widest_change(random.between(0, 17)),
        11 => nested_calls(random.between(1, 25)),
        12 => chain(random.between(1, 66)),
        13 => widest_scope(random.chance(50)),
        _ if random.chance(50) => many_roots(random.pick(&[1, 2, 8, 61, 62, 63, 64])),
        _ => deep_calls(
            random.pick(&[5, 10, 22, 23, 24, 25, 60]),
            &[random.pick(&DEEPENING), random.pick(&DEEPENING)],
        ),
    }
}
