//! The cases of `second/vectors` and the pinned texts of the two programs, each with its expected answer, on the proved
//! services and programs and on the second implementation.

use compare::programs::{pinned, Translated};
use compare::proved::Proved;
use second::services::{Printed, Programs, Second};
use second::vectors;
use std::process::Command;

#[test]
fn vectors_hold() {
    let vectors = vectors::all().unwrap();
    for vector in &vectors {
        let place = &vector.place;
        assert_eq!(vector.answer(&Proved), vector.expected, "{place}, proved: {}", vector.why);
        assert_eq!(vector.answer(&Second), vector.expected, "{place}, second: {}", vector.why);
    }
    println!("{} cases", vectors.len());
}

#[test]
fn the_programs_print_as_pinned() {
    for pinned in pinned() {
        let what = pinned.what;
        for (name, services) in [("proved", &Proved as &dyn Programs), ("second", &Second)] {
            let ran = Printed::well(pinned.ran.as_bytes().to_vec());
            assert_eq!(services.run(&pinned.text), ran, "{what}, run, {name}");
            let translated = services.translate(&pinned.text);
            match pinned.translated {
                Translated::Refused(line) => {
                    let refused = Printed::well(line.as_bytes().to_vec());
                    assert_eq!(translated, refused, "{what}, translate, {name}");
                }
                Translated::Plain { bytes, lines } => {
                    let feeds = translated.output.iter().filter(|byte| **byte == b'\n').count();
                    assert_eq!((translated.output.len(), feeds), (bytes, lines), "{what}, translate, {name}");
                    assert_eq!(
                        Printed::well(translated.output.clone()),
                        translated,
                        "{what}, translate, {name}"
                    );
                }
            }
        }
    }
}

/// Standard input that is closed, and one that cannot be read, count as empty.
#[test]
fn input_that_cannot_be_read_is_empty() {
    for name in ["translate", "run"] {
        let program = format!("{}/../target/bin/{name}", env!("CARGO_MANIFEST_DIR"));
        for input in ["<&-", "< /", "< /dev/null"] {
            let left = Command::new("sh").args(["-c", &format!("'{program}' {input}")]).output().unwrap();
            assert_eq!(
                (&left.stdout[..], left.status.code()),
                (&b"!\t3\t1\n"[..], Some(0)),
                "{name} {input}"
            );
        }
    }
}
