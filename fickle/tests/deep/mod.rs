//! Programs that nest and call as deep as can be, and threads with as much stack as asked.

use fickle::ROW_WIDTH;
use second::notation::rows;
use std::thread;

pub const MOST_NESTING: usize = 128;
/// More than the fuel that 64 calls at the deepest nesting take.
pub const FUEL: u64 = 1_000_000;
/// Every letter that can nest. Where there are several children, capitals nest in the last one, small letters in the
/// first, or for J in the second; Z nests in the condition of a J.
pub const LETTERS: [char; 11] = ['B', 'A', 'K', 'G', 'U', 'u', 'Q', 'q', 'J', 'j', 'Z'];

/// A class with a field of its own type and a method of the most parameters, up to its block.
const HEADING: &str = "C 0 0, F 1 0, M 1 0, 8*P 1";
/// A call of the method by itself, and one of a new object.
const CALL_ITSELF: &str = "Q 0 8, 9*I 0";
const CALL_NEW: &str = "Q 0 8, W 1, 8*N";
const CALL_NEW_ROWS: usize = 10;

/// Returns what a function returns on a thread with this much stack.
pub fn on_stack<R: Send>(bytes: usize, function: impl FnOnce() -> R + Send) -> R {
    thread::scope(|scope| {
        let thread = thread::Builder::new().stack_size(bytes).spawn_scoped(scope, function);
        thread.expect("a thread").join().expect("no panic")
    })
}

/// A program with a method that calls itself without end from a nesting that is reached through one letter. The start
/// block calls it from the same nesting, then has null up to `count` rows.
pub fn deep(letter: char, nesting: usize, count: usize) -> Vec<u32> {
    let method = rows(&format!("{HEADING}, B 0 1, {}", nested(letter, nesting - 1, CALL_ITSELF)));
    // Before the call the start has S, and a block for each level but the call's own.
    let others = method.len() / ROW_WIDTH + nesting - 1 + CALL_NEW_ROWS;
    let nulls = count.saturating_sub(others);
    let start = format!("S, B 0 {}, {}, {nulls}*N", nulls + 1, nested('B', nesting - 1, CALL_NEW));
    [method, rows(&start)].concat()
}

/// A program with a method that first goes down to a nesting through one letter, then calls itself without end, from
/// its block. So does the start block call it.
pub fn deep_beside_calls(letter: char, nesting: usize) -> Vec<u32> {
    let nested = nested(letter, nesting, "I 0");
    rows(&format!("{HEADING}, B 0 2, {nested}, {CALL_ITSELF}, S, B 0 1, {CALL_NEW}"))
}

/// An expression of an outer block that nests through a letter. Its innermost node is at the nesting given, or for Z,
/// which takes two levels at a time, at most one above.
fn nested(letter: char, nesting: usize, innermost: &str) -> String {
    let (node, levels, after) = node(letter);
    let times = (nesting - 2) / levels;
    format!("{times}*({node}), {innermost}, {}*I 0", times * after)
}

/// The records of a node up to the child that the next node is, how many levels they take, and how many children are
/// still to follow.
fn node(letter: char) -> (&'static str, usize, usize) {
    match letter {
        'A' => ("A 1", 1, 0),
        'B' => ("B 0 1", 1, 0),
        'G' => ("G 0", 1, 0),
        'J' => ("J; L; N", 1, 0),
        'j' => ("J; T", 1, 1),
        'K' => ("K 1", 1, 0),
        'Q' => ("Q 0 8; I 0; I 0; I 0; I 0; I 0; I 0; I 0; I 0", 1, 0),
        'q' => ("Q 0 8", 1, 8),
        'U' => ("U 0; I 0", 1, 0),
        'u' => ("U 0", 1, 1),
        'Z' => ("J; Z", 2, 2),
        _ => panic!("{letter} does not nest"),
    }
}
