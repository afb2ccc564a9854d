//! The tool as it is typed: the real binary, what it prints, what it says on standard error, and its exit status.

mod typed;

use fickle::{Reason, Stop, MOST_ROWS};
use second::notation::text as rules;
use std::ffi::OsStr;
use std::io::Write;
use std::os::unix::ffi::OsStrExt;
use std::os::unix::fs::PermissionsExt;
use std::path::PathBuf;
use std::process::{Command, Stdio};
use typed::{call, file, folder, piped, sigvolar, Left};

const TRUE: &str = "S, B 0 1, T";
/// A slot that is not in scope: 7 on line 3.
const NO_SLOT: &str = "S, B 0 1, I 1";
/// Two state classes; one object, changed once and made true.
const PROGRAM_D: &str = "C 1 0, F 255 0, C 2 1, C 2 1, S, B 1 4, V 1, A 1, W 2, U 0, I 1, T, R 1 3, G 0, I 1";
/// A method that calls itself.
const DEEP: &str = "C 0 0, M 255 0, B 0 1, Q 0 0, I 0, S, B 0 1, Q 0 0, W 1";

#[test]
fn accepted_rules() {
    let name = file("accepted.rules", &rules(TRUE));
    let left = call(&["check", &name]);
    assert_eq!(
        (left.printed, left.said, left.status),
        (format!("{name}: accepted\n"), String::new(), Some(0))
    );
}

#[test]
fn refused_rules_are_told_as_editors_read_them() {
    let name = file("refused.rules", &rules(NO_SLOT));
    let left = call(&["check", &name]);
    let sentence = "A slot is not in scope, there is no `this`, or `this` would be set.";
    assert_eq!(left.printed, format!("{name}:3: refused (7, slot): {sentence}\n"));
    assert_eq!((left.said.as_str(), left.status), ("", Some(1)));
}

#[test]
fn every_file_is_tried_and_trouble_wins() {
    let (good, bad) = (file("tried.rules", &rules(TRUE)), file("tried_bad.rules", &rules(NO_SLOT)));
    let missing = folder().join("missing.rules").to_str().unwrap().to_string();
    let left = call(&["check", &bad, &missing, &good]);
    assert_eq!(left.status, Some(2));
    assert_eq!(left.printed.lines().count(), 2);
    assert!(left.printed.ends_with(&format!("{good}: accepted\n")), "{}", left.printed);
    assert_eq!(left.said, format!("sigvolar: cannot read {missing}: No such file or directory.\n"));
    assert_eq!(call(&["check", &good, &bad, &good]).status, Some(1));
}

#[test]
fn files_that_cannot_be_read() {
    for (command, name) in [("check", "."), ("translate", "."), ("run", ".")] {
        let left = call(&[command, name]);
        assert_eq!((left.printed.as_str(), left.status), ("", Some(2)), "{command}");
        assert_eq!(left.said, "sigvolar: cannot read .: Is a directory.\n");
    }
    let closed = file("closed.rules", &rules(TRUE));
    std::fs::set_permissions(&closed, PermissionsExt::from_mode(0o000)).unwrap();
    // Whoever may read every file reads this one too.
    if std::fs::read(&closed).is_err() {
        let left = call(&["check", &closed]);
        assert_eq!((left.printed.as_str(), left.status), ("", Some(2)));
        assert_eq!(left.said, format!("sigvolar: cannot read {closed}: Permission denied.\n"));
    }
    std::fs::set_permissions(&closed, PermissionsExt::from_mode(0o644)).unwrap();
}

#[test]
fn names_with_spaces_and_other_letters() {
    let name = file("drei Größen – 血液.rules", &rules(TRUE));
    assert_eq!(call(&["check", &name]).printed, format!("{name}: accepted\n"));
    let bytes = [folder().as_os_str().as_bytes(), b"/no\xfftext.rules"].concat();
    let name = OsStr::from_bytes(&bytes);
    std::fs::write(name, rules(TRUE)).unwrap();
    let left = call(&[OsStr::new("check"), name]);
    assert_eq!(left.status, Some(0), "{left:?}");
    let dashed = file("-v.rules", &rules(TRUE));
    let left: Left = sigvolar()
        .args(["check", "--", "-v.rules"])
        .current_dir(PathBuf::from(dashed).parent().unwrap())
        .output()
        .unwrap()
        .into();
    assert_eq!((left.printed.as_str(), left.status), ("-v.rules: accepted\n", Some(0)));
}

#[test]
fn standard_input() {
    let left = piped(&["check", "-"], &rules(TRUE));
    assert_eq!((left.printed.as_str(), left.status), ("<standard input>: accepted\n", Some(0)));
    let left = piped(&["run", "-"], &rules(TRUE));
    assert!(left.printed.starts_with("source program: true\nsteps: 2\n"), "{left:?}");
    let left = piped(&["check", "-"], b"");
    assert!(left.printed.starts_with("<standard input>:1: refused (3, place): "), "{left:?}");
}

#[test]
fn malformed_lines_have_a_note() {
    let cases: [(&[u8], u32, &str); 8] = [
        (b"S\r\nB\t0\t1\r\nT\r\n", 1, "carriage return"),
        (b"\xef\xbb\xbfS\nB\t0\t1\nT\n", 1, "byte-order mark"),
        (b"S\nB\t0\t1\n\x7fELF\x01\x00\n", 3, "may not be a file of rules"),
        (b"S\nB\t0\t1\n\xc3\xa4\n", 3, "may not be a file of rules"),
        (b"S\nB 0 1\nT\n", 2, "has a space"),
        (b"S\n\nT\n", 2, "is empty"),
        (b"S\nB\t0\t1\nt\n", 3, "not a capital"),
        (b"S\nB\t0\t1\nT", 3, "does not end in a line feed"),
    ];
    for (text, line, note) in cases {
        let left = piped(&["check", "-"], text);
        assert!(
            left.printed.starts_with(&format!("<standard input>:{line}: refused (1, line): ")),
            "{left:?}"
        );
        assert!(left.said.starts_with(&format!("<standard input>:{line}: note: ")), "{left:?}");
        assert!(left.said.contains(note), "{note}: {left:?}");
        assert_eq!(left.status, Some(1));
    }
    // Nothing is guessed of a line whose bytes tell nothing.
    assert_eq!(piped(&["check", "-"], b"S\nB\t0\t01\n").said, "");
    // As much as decides is read, and no more.
    let left = call(&["check", "/dev/zero"]);
    assert_eq!(left.status, Some(1), "{left:?}");
    let left = piped(&["check", "-"], &b"T\n".repeat(MOST_ROWS + 1));
    assert!(left.printed.starts_with("<standard input>:60001: refused (2, limit): "), "{left:?}");
}

#[test]
fn plain_lines() {
    let name = file("plain.rules", &rules(TRUE));
    let left = call(&["translate", &name]);
    let plain = "C\t0\t0\nF\t2\t255\nC\t0\t0\nF\t1\t254\nS\nB\t0\t1\nT\n";
    assert_eq!((left.printed.as_str(), left.said.as_str(), left.status), (plain, "", Some(0)));
    let name = file("reserved.rules", &rules("C 0 0, F 255 254, S, B 0 1, T"));
    let left = call(&["translate", &name]);
    assert_eq!((left.printed.as_str(), left.status), ("", Some(1)));
    assert!(left.said.starts_with(&format!("{name}:2: refused (12, reserved): ")), "{}", left.said);
}

#[test]
fn a_run_in_words() {
    let name = file("run.rules", &rules(PROGRAM_D));
    let left = call(&["run", &name]);
    let expected = "source program: true\nsteps: 9\nobjects: 1\nchanges of class: 1\n\
         objects by the class they ended in (exactly that class, not one below it):\n  class 3: 1\n";
    assert_eq!((left.printed.as_str(), left.said.as_str(), left.status), (expected, "", Some(0)));
    let outcomes = [
        ("S, B 0 1, L", "false", 0),
        ("S, B 0 1, N", "null", 0),
        ("S, B 0 1, W 0", "object 1", 0),
        ("C 0 0, F 255 0, S, B 1 1, V 1, G 0, I 1", "exception 1: null where an object is needed", 1),
        (
            "C 0 0, C 0 0, S, B 0 1, K 2, W 1",
            "exception 2: an object of another class than its cast asks for",
            1,
        ),
        (DEEP, "stopped (15, deep): A call was made while 64 were active.", 1),
    ];
    for (program, words, status) in outcomes {
        let left = piped(&["run", "-"], &rules(program));
        assert_eq!(left.printed.lines().next(), Some(format!("source program: {words}").as_str()));
        assert_eq!((left.said.is_empty(), left.status), (status == 0, Some(status)), "{left:?}");
    }
    let left = piped(&["run", "-"], &rules("S, B 0 1, W 0"));
    assert!(left.printed.ends_with("  class 0 (Object): 1\n"), "{left:?}");
    assert!(!piped(&["run", "-"], &rules(TRUE)).printed.contains("class they"), "no objects, no classes");
}

#[test]
fn fuel_and_room() {
    let name = file("fuel.rules", &rules(PROGRAM_D));
    let left = call(&["run", &name, "--fuel", "8"]);
    assert!(left.printed.starts_with("source program: stopped (14, spent): "), "{left:?}");
    assert!(left.printed.contains("\nsteps: 8\nobjects: 1\nchanges of class: 1\n"), "{left:?}");
    assert!(left.said.contains("did not end in a value"), "{left:?}");
    assert_eq!(left.status, Some(1));
    assert_eq!(call(&["run", "--fuel=9", &name]).status, Some(0));
    let left = call(&["run", "--objects", "0", &name]);
    assert!(left.printed.starts_with("source program: stopped (16, full): "), "{left:?}");
    let left = call(&["run", "--fuel", "100000001", &name]);
    assert!(left.said.starts_with(&format!("{name}: refused (2, limit): ")), "{left:?}");
    assert_eq!((left.printed.as_str(), left.status), ("", Some(1)));
    let refused = file("slot.rules", &rules(NO_SLOT));
    let left = call(&["run", &refused]);
    assert!(left.said.starts_with(&format!("{refused}:3: refused (7, slot): ")), "{left:?}");
    assert_eq!((left.printed.as_str(), left.status), ("", Some(1)));
    // The fuel is looked at before the rules.
    let left = call(&["run", "--fuel", "100000001", &refused]);
    assert!(left.said.starts_with(&format!("{refused}: refused (2, limit): ")), "{left:?}");
}

#[test]
fn a_store_file_has_an_object_a_line() {
    let name = file("store.rules", &rules(PROGRAM_D));
    let store = folder().join("the store, ü.txt");
    let arguments = [OsStr::new("run"), OsStr::new(&name), OsStr::new("--store"), store.as_os_str()];
    assert_eq!(call(&arguments).status, Some(0));
    let zeros = "\t0".repeat(16);
    assert_eq!(std::fs::read_to_string(&store).unwrap(), format!("3\t2{zeros}\n"));
    let left = call(&["run", &name, "--store", "no/such/folder/store"]);
    assert_eq!(left.status, Some(2));
    assert_eq!(left.said, "sigvolar: cannot write no/such/folder/store: No such file or directory.\n");
    let left = call(&["run", &name, "--store", &format!("{}/./store.rules", folder().display())]);
    assert_eq!((left.printed.as_str(), left.status), ("", Some(2)));
    assert!(left.said.starts_with("sigvolar: the store would overwrite the rules."), "{left:?}");
    assert_eq!(std::fs::read(&name).unwrap(), rules(PROGRAM_D));
    // A refused run writes none.
    std::fs::remove_file(&store).unwrap();
    let bad = file("store_refused.rules", &rules(NO_SLOT));
    let arguments = [OsStr::new("run"), OsStr::new(&bad), OsStr::new("--store"), store.as_os_str()];
    assert_eq!(call(&arguments).status, Some(1));
    assert!(!store.exists());
}

/// Two labels; method 0 changes its object to class 2 and 3 in turn, 25 times each; method 1 calls it ten times.
const CHANGES: &str =
    "C 1 0, M 1 0, X 1, B 0 50, 25*(R 0 2; R 0 3), M 1 1, X 1, B 0 10, 10*(Q 0 0; I 0), C 2 1, C 2 1, \
     S, B 2 5, V 1, V 1, A 1, W 2, A 2, W 2, Q 1 0, I 1, Q 1 0, I 1, T";

#[test]
fn the_plain_program_beside_it() {
    let left = piped(&["run", "--plain", "-"], &rules(CHANGES));
    assert_eq!((left.said.as_str(), left.status), ("", Some(0)), "{left:?}");
    assert!(left.printed.contains("steps: 1072\nobjects: 2\nchanges of class: 1000\n"), "{left:?}");
    assert!(left.printed.contains("objects: 1004\nchanges of class: 0\n"), "{left:?}");
    assert_eq!(left.printed.matches("  class 2: 1\n  class 3: 1\n").count(), 2, "{left:?}");
    assert!(left.printed.ends_with("\nBoth end alike and count alike.\n"), "{left:?}");

    let left = piped(&["run", "--plain", "-"], &rules("S, B 0 1, W 0"));
    assert!(left.printed.contains("plain program: object 1\n"), "{left:?}");
    assert!(left.printed.ends_with("  class 0 (Object): 1\n\nBoth end alike and count alike.\n"), "{left:?}");

    // Ends without a value, alike all the same.
    let left = piped(&["run", "--plain", "-"], &rules(DEEP));
    assert!(left.printed.ends_with("\nBoth end alike and count alike.\n"), "{left:?}");
    assert_eq!(left.status, Some(1));
}

#[test]
fn a_plain_program_that_is_not_run() {
    let left = piped(&["run", "--plain", "--fuel", "8", "-"], &rules(PROGRAM_D));
    assert!(left.said.contains("the plain program was not run, since a run that ends in 14"), "{left:?}");
    assert!(!left.printed.contains("plain program"), "{left:?}");
    assert_eq!(left.status, Some(1));
    let left = call(&["run", "--plain", "--fuel", "1000001", "rules"]);
    assert_eq!((left.printed.as_str(), left.status), ("", Some(2)));
    assert!(left.said.starts_with("sigvolar: with --plain the fuel is at most 1000000: "), "{left:?}");
    // A field name that the translator reserves: the source runs, the plain program is refused.
    let left = piped(&["run", "--plain", "-"], &rules("C 0 0, F 255 254, S, B 0 1, T"));
    assert!(left.printed.starts_with("source program: true\n"), "{left:?}");
    assert!(left.said.starts_with("<standard input>:2: refused (12, reserved): "), "{left:?}");
    assert_eq!(left.status, Some(1));
    // 32,768 objects need 65,536 in the plain store. Each of 15 methods calls the next twice.
    let methods: String =
        (0..15).map(|name| format!("M 255 {name}, B 0 2, Q {0} 0, I 0, Q {0} 0, I 0, ", name + 1)).collect();
    let many = format!("C 0 0, {methods} M 255 15, B 0 2, W 1, T, S, B 0 1, Q 0 0, W 1");
    let left = piped(&["run", "--plain", "-"], &rules(&many));
    assert!(left.said.contains("it makes 65538 objects and a store holds 65535"), "{left:?}");
    assert_eq!(left.status, Some(1));
}

#[test]
fn every_number_is_explained_as_the_page_does() {
    let page = include_str!("../../docs/REFUSALS.md");
    for number in Reason::ALL.map(Reason::number).into_iter().chain(Stop::ALL.map(Stop::number)) {
        let left = call(&["explain", &number.to_string()]);
        assert_eq!((left.said.as_str(), left.status), ("", Some(0)));
        let lines: Vec<&str> = left.printed.lines().collect();
        assert!(page.contains(&format!("\n## {}\n{}\n", lines[0], lines[1])), "{left:?}");
        let example: String =
            left.printed.lines().filter_map(|line| line.strip_prefix("    ")).collect::<Vec<_>>().join("\n");
        assert!(
            page.contains(&format!("\n{}\n```\n{example}\n```\n{}\n", lines[1], lines[lines.len() - 1])),
            "{left:?}"
        );
    }
    assert_eq!(call(&["explain", "effect"]).printed, call(&["explain", "10"]).printed);
    for wrong in ["0", "19", "22", "25", "ten", ""] {
        let left = call(&["explain", wrong]);
        assert_eq!((left.printed.as_str(), left.status), ("", Some(2)));
        assert!(left.said.contains("their numbers are 1 to 18, 23 and 24"), "{left:?}");
    }
}

#[test]
fn help_and_version() {
    let commands =
        ["check", "translate", "run", "report", "count", "rank", "price", "prices", "explain", "help"];
    for command in commands {
        let left = call(&[command, "--help"]);
        assert!(left.printed.starts_with(&format!("Usage: sigvolar {command} ")), "{left:?}");
        assert_eq!((left.said.as_str(), left.status), ("", Some(0)));
        assert_eq!(call(&["help", command]).printed, left.printed);
    }
    let left = call(&["--help"]);
    for command in commands {
        assert!(left.printed.contains(&format!("  sigvolar {command} ")), "{left:?}");
    }
    assert_eq!(call(&["help"]).printed, left.printed);
    assert_eq!(call(&["--version"]).printed, format!("sigvolar {}\n", env!("CARGO_PKG_VERSION")));
}

#[test]
fn wrong_calls() {
    let calls: [(&[&str], &str); 12] = [
        (&[], "no command is given."),
        (&["chek"], "there is no command 'chek'."),
        (&["help", "chek"], "there is no command 'chek'."),
        (&["check"], "a file is needed, or - for standard input."),
        (&["check", "--fast", "x"], "there is no option --fast."),
        (&["translate"], "one file is needed."),
        (&["translate", "x", "y"], "one file is needed."),
        (&["run", "x", "y"], "one file is needed, or - for standard input."),
        (&["run", "x", "--fuel"], "--fuel needs a value."),
        (&["run", "x", "--fuel", "-1"], "--fuel needs a whole number, not '-1'."),
        (&["run", "x", "--objects=65536"], "a store holds at most 65535 objects."),
        (&["explain"], "one number is needed, or its word."),
    ];
    for (arguments, sentence) in calls {
        let left = call(arguments);
        assert_eq!((left.printed.as_str(), left.status), ("", Some(2)), "{arguments:?}");
        assert!(left.said.starts_with(&format!("sigvolar: {sentence}")), "{arguments:?}: {}", left.said);
    }
}

#[test]
fn a_closed_pipe_is_said() {
    let mut child = sigvolar()
        .args(["check", "-"])
        .stdin(Stdio::piped())
        .stdout(Stdio::piped())
        .stderr(Stdio::piped())
        .spawn()
        .unwrap();
    // Nobody reads any more before there is anything to print.
    drop(child.stdout.take());
    child.stdin.take().unwrap().write_all(&rules(TRUE)).unwrap();
    let left: Left = child.wait_with_output().unwrap().into();
    assert_eq!(left.said, "sigvolar: standard output was closed before all was printed.\n");
    assert_eq!(left.status, Some(2));
}

/// Runs a line of the shell in which `$0` is the tool and `$1` a file of rules.
fn shell(line: &str, name: &str) -> Left {
    Command::new("sh").args(["-c", line, env!("CARGO_BIN_EXE_sigvolar"), name]).output().unwrap().into()
}

#[test]
fn closed_standard_streams() {
    let (good, bad) = (file("streams.rules", &rules(TRUE)), file("streams_bad.rules", &rules(NO_SLOT)));
    // With standard output closed nothing is printed, and the exit status is as always.
    for (name, status) in [(&good, 0), (&bad, 1)] {
        let left = shell("\"$0\" check \"$1\" >&-", name);
        assert_eq!((left.printed.as_str(), left.said.as_str(), left.status), ("", "", Some(status)));
    }
    let left = shell("\"$0\" check \"$1\" 2>&- | cat", &good);
    assert_eq!(left.printed, format!("{good}: accepted\n"));
    // A closed standard input reads as an empty text.
    let left = shell("\"$0\" check - <&-", &good);
    assert!(left.printed.starts_with("<standard input>:1: refused (3, place): "), "{left:?}");
    let left = shell("\"$0\" check - < .", &good);
    assert_eq!(left.said, "sigvolar: cannot read <standard input>: Is a directory.\n");
    assert_eq!(left.status, Some(2));
}

#[test]
fn progress_is_shown_on_a_terminal_alone() {
    // Each of 63 methods calls the next twice: more nodes than there is fuel.
    let methods: String =
        (0..62).map(|name| format!("M 255 {name}, B 0 2, Q {0} 0, I 0, Q {0} 0, I 0, ", name + 1)).collect();
    let long = format!("C 0 0, {methods} M 255 62, B 0 1, T, S, B 0 1, Q 0 0, W 1");
    let name = file("long run.rules", &rules(&long));
    // However quick the machine, a run that is held for a second and a half takes longer than a second.
    let tool = env!("CARGO_BIN_EXE_sigvolar");
    let held = format!(
        "'{tool}' run --fuel 100000000 '{name}' & run=$!
        sleep 0.1; kill -STOP $run; sleep 1.5; kill -CONT $run; wait $run"
    );
    let left = shell(&held, &name);
    assert!(left.printed.starts_with("source program: stopped (14, spent): "), "{left:?}");
    assert!(!left.said.contains("running"), "{left:?}");
    // `script` lends a terminal; where it is not installed there is nothing to see.
    let terminal = Command::new("script").args(["-qec", &held, "/dev/null"]).stdin(Stdio::null()).output();
    if let Ok(seen) = terminal.map(Left::from) {
        assert!(seen.printed.contains(": running (1 s)"), "{seen:?}");
    }
}
