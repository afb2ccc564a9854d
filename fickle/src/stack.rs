//! How much native stack the services need: the most that each takes, and a bound on what one run takes.
//!
//! `c/stack.c` measures what the numbers here rest on; `include/fickle.h` has the same constants for C.

use crate::constants::ROW_WIDTH;

/// Bytes of native stack that `read_rows` takes at most.
pub const READ_ROWS_STACK_NEEDED: usize = 1_048_576;
/// Bytes of native stack that `write_text` takes at most.
pub const WRITE_TEXT_STACK_NEEDED: usize = 1_048_576;
/// Bytes of native stack that `check_rows` takes at most.
pub const CHECK_ROWS_STACK_NEEDED: usize = 1_048_576;
/// Bytes of native stack that `translate_rows` takes at most.
pub const TRANSLATE_ROWS_STACK_NEEDED: usize = 1_048_576;
/// Bytes of native stack that `run_rows_on_this_stack` takes at most.
pub const RUN_ROWS_STACK_NEEDED: usize = 4_194_304;
/// Bytes of native stack that `count_run` takes at most.
pub const COUNT_RUN_STACK_NEEDED: usize = 1_048_576;
/// Bytes of native stack that `count_plain_run` takes at most.
pub const COUNT_PLAIN_RUN_STACK_NEEDED: usize = 1_048_576;
/// Bytes of native stack that `rank_models` takes at most.
pub const RANK_MODELS_STACK_NEEDED: usize = 1_048_576;
/// Bytes of native stack that `report_fleet` takes at most.
pub const REPORT_FLEET_STACK_NEEDED: usize = 1_048_576;
/// Bytes of native stack that `day_of_date` takes at most.
pub const DAY_OF_DATE_STACK_NEEDED: usize = 65_536;
/// Bytes of native stack that `date_of_day` takes at most.
pub const DATE_OF_DAY_STACK_NEEDED: usize = 65_536;
/// Bytes of native stack that `price_on_day` takes at most.
pub const PRICE_ON_DAY_STACK_NEEDED: usize = 65_536;
/// Bytes of native stack that `price_on_date` takes at most.
pub const PRICE_ON_DATE_STACK_NEEDED: usize = 65_536;
/// Bytes of native stack that `report_prices` takes at most.
pub const REPORT_PRICES_STACK_NEEDED: usize = 65_536;
/// Bytes of native stack that every other function takes at most, `run_rows` included. A thread that
/// `std::thread::spawn` starts has 2 MiB.
pub const STACK_NEEDED: usize = 1_310_720;

/// The most nodes that lie within one another in a body that the check accepts.
const MOST_NESTING: usize = 128;
/// The most calls that are active at once.
const MOST_CALLS: usize = 64;
/// The letter of a call.
const CALL: u32 = b'Q' as u32;

/// Bytes that a run takes while it checks rows without nesting: tables and slots. Measured: 670,280.
const CHECK_BASE: usize = 688_128;
/// Bytes that each level of nesting adds to the check. Measured: 784.
const CHECK_LEVEL: usize = 832;
/// Bytes that a run takes before it enters a node: tables and the first segment of slots. Measured: 371,760.
const RUN_BASE: usize = 376_832;
/// Bytes that each node under way adds. Measured: 336, the same for every letter, as they share one function.
const RUN_NODE: usize = 336;
/// Bytes of a segment of slots, with the frame of the function that makes it. Measured: 15,648.
const SEGMENT: usize = 15_712;
/// Slots of a segment, and the most of them that must be free where a call is to go on in it.
const SEGMENT_SLOTS: usize = 1_920;
const CALL_SLOTS: usize = 1_416;
/// The most slots for `this`, parameters and locals of a call, and the most values of a node that wait.
const FRAME_SLOTS: usize = 264;
const NODE_SLOTS: usize = 9;
/// How many calls go on in a segment at least before one is given another.
const CALLS_A_SEGMENT: usize = 1;

// Before the slots of the call that a call makes stand its own, and in each node within its block all values but one.
const _: () = assert!(
    (CALLS_A_SEGMENT - 1) * (FRAME_SLOTS + (NODE_SLOTS - 1) * (MOST_NESTING - 1)) + CALL_SLOTS
        <= SEGMENT_SLOTS
);

// What a run needs at most is the bound for the deepest program.
const _: () =
    assert!(bound(MOST_NESTING, MOST_NESTING * (1 + MOST_CALLS), MOST_CALLS) <= RUN_ROWS_STACK_NEEDED);

/// Returns a bound on the bytes of native stack that `run_rows_on_this_stack` takes.
///
/// No more nodes are under way than there is fuel to enter. A run of rows that the check refuses enters no node. If the
/// form of rows is wrong, the check stops before it takes what the bound has for it; if not, they nest as found here.
pub fn run_rows_stack_bound(rows: &[u32], fuel: u64) -> usize {
    let Some(program) = nestings(rows) else {
        return RUN_ROWS_STACK_NEEDED;
    };
    let nodes = program.nodes_under_way();
    let entered = usize::try_from(fuel).map_or(nodes, |fuel| nodes.min(fuel));
    let calls = program.active_calls().min(entered);
    bound(program.start.nodes.max(program.methods.nodes), entered, calls)
}

/// Returns the larger of what the check takes at this nesting and what the run takes with this many nodes under way and
/// calls active.
const fn bound(nesting: usize, nodes: usize, calls: usize) -> usize {
    let check = CHECK_BASE + CHECK_LEVEL * nesting;
    let run = RUN_BASE + RUN_NODE * nodes + segments(nodes, calls);
    if check < run {
        run
    } else {
        check
    }
}

/// Returns the bytes that the segments after the first take at most: by how many calls go on in one, or by the slots that
/// are taken, if that is less. When a call is given another segment, no more than it must find free is free in the one
/// before; the last one may be hardly used.
const fn segments(nodes: usize, calls: usize) -> usize {
    if calls == 0 {
        return 0;
    }
    let by_calls = SEGMENT * calls.div_ceil(CALLS_A_SEGMENT);
    let taken = NODE_SLOTS * nodes + FRAME_SLOTS * calls;
    let by_slots = SEGMENT + (SEGMENT * taken).div_ceil(SEGMENT_SLOTS - CALL_SLOTS);
    if by_calls < by_slots {
        by_calls
    } else {
        by_slots
    }
}

/// How deep nodes nest in some bodies, the outermost at 1, and how deep those of them that are calls; 0 for none.
#[derive(Clone, Copy, Debug, Default, PartialEq, Eq)]
struct Nesting {
    nodes: usize,
    calls: usize,
}

/// The nestings of the method bodies and of the start block.
#[derive(Debug, PartialEq, Eq)]
struct Program {
    methods: Nesting,
    start: Nesting,
}

impl Program {
    /// Returns the most nodes that are under way at once. In a body that waits for a call these are the call and the
    /// nodes around it; only in the last of the calls that are active can they be as many as nodes nest.
    fn nodes_under_way(&self) -> usize {
        let calling = self.start.calls + (MOST_CALLS - 1) * self.methods.calls + self.methods.nodes;
        calling.max(self.start.nodes)
    }

    /// Returns the most calls that are active at once: none without a call in the start block, and one without any in the
    /// methods.
    fn active_calls(&self) -> usize {
        match (self.start.calls, self.methods.calls) {
            (0, _) => 0,
            (_, 0) => 1,
            _ => MOST_CALLS,
        }
    }
}

/// What a row is to the nesting.
enum Part {
    /// A line of a heading, or a local of a block.
    Heading,
    /// The line that the start block follows.
    Start,
    /// A node, with the number of its children.
    Node(u32),
}

/// Returns what a row is, by its letter, or nothing where the letter is not one of these.
fn part(row: &[u32]) -> Option<Part> {
    let part = match u8::try_from(row[0]).ok()? {
        b'C' | b'F' | b'M' | b'P' | b'X' | b'V' => Part::Heading,
        b'S' => Part::Start,
        b'T' | b'L' | b'N' | b'I' | b'W' | b'R' => Part::Node(0),
        b'Z' | b'G' | b'K' | b'A' => Part::Node(1),
        b'U' => Part::Node(2),
        b'J' => Part::Node(3),
        b'B' => Part::Node(row[2]),
        b'Q' => Part::Node(row[2].checked_add(1)?),
        _ => return None,
    };
    Some(part)
}

/// Returns the nestings of a program, or nothing where a letter is not known or the nesting is over the limit.
fn nestings(rows: &[u32]) -> Option<Program> {
    let (mut methods, mut bodies) = (Nesting::default(), Nesting::default());
    // How many children each open node still waits for, the outermost first.
    let mut open = [0; MOST_NESTING];
    let mut depth = 0;
    for row in rows.chunks_exact(ROW_WIDTH) {
        match part(row)? {
            Part::Heading => {}
            Part::Start => methods = std::mem::take(&mut bodies),
            Part::Node(children) => {
                bodies.nodes = bodies.nodes.max(depth + 1);
                if row[0] == CALL {
                    bodies.calls = bodies.calls.max(depth + 1);
                }
                if children == 0 {
                    depth = close(&mut open, depth);
                } else {
                    *open.get_mut(depth)? = children;
                    depth += 1;
                }
            }
        }
    }
    Some(Program { methods, start: bodies })
}

/// Ends a node without children, and with it every open node that waited for it alone. Returns how many stay open.
fn close(open: &mut [u32], mut depth: usize) -> usize {
    while depth > 0 {
        open[depth - 1] -= 1;
        if open[depth - 1] > 0 {
            break;
        }
        depth -= 1;
    }
    depth
}

#[cfg(test)]
mod tests {
    use super::*;
    use crate::header::defined;
    use second::notation::rows;

    #[test]
    fn nests_as_the_lines_do() {
        let (method, call) = ("C 0 0, M 255 0, B 1 2, V 0, A 1, N, Z, A 1, I 0", "Q 0 1, W 1, J, T, N, N");
        let program = rows(&format!("{method}, S, B 0 2, N, {call}"));
        let methods = Nesting { nodes: 4, calls: 0 };
        let start = Nesting { nodes: 4, calls: 2 };
        assert_eq!(nestings(&program), Some(Program { methods, start }));
        let before_call = program.len() - rows(call).len();
        let start = Nesting { nodes: 2, calls: 0 };
        assert_eq!(nestings(&program[..before_call]), Some(Program { methods, start }));
    }

    #[test]
    fn counts_nodes_in_every_active_call() {
        let (methods, start) = (Nesting { nodes: 9, calls: 3 }, Nesting { nodes: 5, calls: 2 });
        assert_eq!(Program { methods, start }.nodes_under_way(), 2 + 63 * 3 + 9);
        assert_eq!(Program { methods, start }.active_calls(), 64);
        let (methods, start) = (Nesting { nodes: 2, calls: 0 }, Nesting { nodes: 5, calls: 2 });
        assert_eq!(Program { methods, start }.nodes_under_way(), 5);
        assert_eq!(Program { methods, start }.active_calls(), 1);
    }

    #[test]
    fn needs_what_the_header_says() {
        assert_eq!(defined::<usize>("FICKLE_READ_ROWS_STACK_NEEDED"), READ_ROWS_STACK_NEEDED);
        assert_eq!(defined::<usize>("FICKLE_WRITE_TEXT_STACK_NEEDED"), WRITE_TEXT_STACK_NEEDED);
        assert_eq!(defined::<usize>("FICKLE_CHECK_ROWS_STACK_NEEDED"), CHECK_ROWS_STACK_NEEDED);
        assert_eq!(defined::<usize>("FICKLE_TRANSLATE_ROWS_STACK_NEEDED"), TRANSLATE_ROWS_STACK_NEEDED);
        assert_eq!(defined::<usize>("FICKLE_RUN_ROWS_STACK_NEEDED"), RUN_ROWS_STACK_NEEDED);
        assert_eq!(defined::<usize>("FICKLE_COUNT_RUN_STACK_NEEDED"), COUNT_RUN_STACK_NEEDED);
        assert_eq!(defined::<usize>("FICKLE_COUNT_PLAIN_RUN_STACK_NEEDED"), COUNT_PLAIN_RUN_STACK_NEEDED);
        assert_eq!(defined::<usize>("FICKLE_RANK_MODELS_STACK_NEEDED"), RANK_MODELS_STACK_NEEDED);
        assert_eq!(defined::<usize>("FICKLE_REPORT_FLEET_STACK_NEEDED"), REPORT_FLEET_STACK_NEEDED);
        assert_eq!(defined::<usize>("FICKLE_DAY_OF_DATE_STACK_NEEDED"), DAY_OF_DATE_STACK_NEEDED);
        assert_eq!(defined::<usize>("FICKLE_DATE_OF_DAY_STACK_NEEDED"), DATE_OF_DAY_STACK_NEEDED);
        assert_eq!(defined::<usize>("FICKLE_PRICE_ON_DAY_STACK_NEEDED"), PRICE_ON_DAY_STACK_NEEDED);
        assert_eq!(defined::<usize>("FICKLE_PRICE_ON_DATE_STACK_NEEDED"), PRICE_ON_DATE_STACK_NEEDED);
        assert_eq!(defined::<usize>("FICKLE_REPORT_PRICES_STACK_NEEDED"), REPORT_PRICES_STACK_NEEDED);
    }

    #[test]
    fn takes_what_it_does_not_know_for_deep() {
        assert_eq!(nestings(&rows("S, B 0 1, Y")), None);
        assert_eq!(nestings(&[65_536 + 83, 0, 0, 0]), None);
        assert_eq!(nestings(&rows("Q 0 4294967295")), None);
        assert_eq!(nestings(&rows("129*Z")), None);
        assert_eq!(run_rows_stack_bound(&[0; ROW_WIDTH], 0), RUN_ROWS_STACK_NEEDED);
    }
}
