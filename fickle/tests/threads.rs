//! Runs on threads as they come: each ends as it does on a stack that is large enough for any.

mod deep;

use deep::{deep, deep_beside_calls, on_stack, FUEL, LETTERS, MOST_NESTING};
use fickle::{
    run_rows, run_rows_on_this_stack, Outcome, Stop, MOST_ROWS, OBJECT_WIDTH, RUN_ROWS_STACK_NEEDED,
    STACK_NEEDED,
};
use std::thread;

#[test]
fn the_deepest_runs_end_on_any_thread() {
    let runs = LETTERS.map(|letter| {
        thread::spawn(move || {
            run_rows(&deep(letter, MOST_NESTING, MOST_ROWS), FUEL, &mut [0; 2 * OBJECT_WIDTH])
        })
    });
    for (run, letter) in runs.into_iter().zip(LETTERS) {
        let run = run.join().expect("no panic").expect("accepted");
        assert_eq!((run.outcome, run.objects), (Outcome::Stop(Stop::Deep), 1), "{letter}");
    }
}

#[test]
fn a_run_is_the_same_on_every_stack() {
    for letter in LETTERS {
        for nesting in [3, 22, 23, 24, 64, MOST_NESTING] {
            for rows in [deep(letter, nesting, 0), deep_beside_calls(letter, nesting)] {
                for fuel in [0, 20, 1_000, FUEL] {
                    let (mut one, mut other) = ([7; 2 * OBJECT_WIDTH], [7; 2 * OBJECT_WIDTH]);
                    let run = on_stack(STACK_NEEDED, || run_rows(&rows, fuel, &mut one));
                    let large =
                        on_stack(RUN_ROWS_STACK_NEEDED, || run_rows_on_this_stack(&rows, fuel, &mut other));
                    assert_eq!((run, one), (large, other), "{letter}, nesting {nesting}, fuel {fuel}");
                }
            }
        }
    }
}
