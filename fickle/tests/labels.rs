//! The example `labels`: what it prints for the two files of rules that are here.

use std::path::Path;
use std::process::{Command, Output};

fn labels(name: &str) -> Output {
    let tests = std::env::current_exe().unwrap();
    let example = tests.parent().unwrap().parent().unwrap().join("examples/labels");
    let file = Path::new(env!("CARGO_MANIFEST_DIR")).join("../examples").join(name);
    Command::new(example).arg(file).output().unwrap()
}

#[test]
fn a_run_with_its_classes() {
    let left = labels("labels.rules");
    let printed = "Value(Truth(false)) after 19 steps\nobject 1: class 3\nobject 2: class 4\n";
    assert_eq!((String::from_utf8_lossy(&left.stdout).as_ref(), left.status.code()), (printed, Some(0)));
}

#[test]
fn a_refusal_ends_it() {
    let left = labels("undeclared.rules");
    assert_eq!((left.stdout.as_slice(), left.status.code()), (&b""[..], Some(1)));
    let said = String::from_utf8_lossy(&left.stderr);
    assert!(said.contains("reason: Effect, line: 7"), "{said}");
}
