//! The worked programs of document 01, their runs and their refusals.

use second::check::check_rows;
use second::machine::{run_rows, Outcome, Run, Value};
use second::notation::{rows, text};
use second::plain::translate_rows;
use second::programs;
use second::rows::Refusal;

fn verdict(program: &str) -> Result<(), (u32, u64)> {
    check_rows(&rows(program)).map_err(|refusal| (refusal.number, refusal.line))
}

fn run(program: &str, fuel: u64) -> Run {
    run_rows(&rows(program), fuel, &mut [0; 3_000]).expect(program)
}

const D: &str = "C 1 0, F 255 0, C 2 1, C 2 1, S, B 1 4, V 1, A 1, W 2, U 0, I 1, T, R 1 3, G 0, I 1";

#[test]
fn empty_text_and_empty_block() {
    assert_eq!(programs::translate(b""), b"!\t3\t1\n");
    assert_eq!(programs::run(b""), b"!\t3\t1\n");
    assert_eq!(check_rows(&[]), Err(Refusal::new(3, 1)));
    assert_eq!(verdict("S, B 0 0"), Err((3, 2)));
    assert_eq!(programs::run(&text("S, B 0 0")), b"!\t3\t2\n");
}

#[test]
fn the_program_of_one_literal() {
    let plain = text("C 0 0, F 2 255, C 0 0, F 1 254, S, B 0 1, T");
    assert_eq!(programs::translate(&text("S, B 0 1, T")), plain);
    assert_eq!(programs::run(&text("S, B 0 1, T")), b"T\t2\t0\t0\nT\t2\t0\t0\n");
}

#[test]
fn program_d() {
    assert_eq!(programs::run(&text(D)), b"T\t9\t1\t1\nT\t52\t3\t0\n");
    assert_eq!(run(D, 9).outcome, Outcome::Value(Value::True));
    assert_eq!(run(D, 8), Run { outcome: Outcome::Stop(14), steps: 8, objects: 1, changes: 1 });
    let mut store = [7; 40];
    run_rows(&rows(D), 9, &mut store).unwrap();
    assert_eq!(store[..18], [3, 2, 0, 0, 0, 0, 0, 0, 0, 0, 0, 0, 0, 0, 0, 0, 0, 0]);
    assert_eq!(store[18..], [7; 22]);
}

#[test]
fn program_d_translated_line_by_line() {
    let plain = "C 0 0, F 2 255, C 0 0, F 1 254, C 0 2, F 255 0, C 0 3, C 0 3, S, B 1 4, V 1, \
        A 1, B 2 5, V 1, V 4, A 2, W 1, A 3, W 4, U 254, I 3, I 2, U 255, I 2, I 3, I 2, \
        B 2 3, V 1, V 255, A 2, I 1, A 3, T, U 0, K 3, G 255, I 2, I 3, \
        B 3 2, V 1, V 5, V 3, J, Z, A 2, I 1, N, B 0 6, A 3, W 5, A 4, K 3, G 255, I 2, U 254, I 3, I 2, \
        U 255, I 2, I 3, U 0, I 3, G 0, I 4, I 2, I 2, G 0, K 5, G 255, I 1";
    assert_eq!(programs::translate(&text(D)), text(plain));
}

#[test]
fn this_casts_calls_and_changes_of_this() {
    let source = "C 1 0, M 0 0, P 255, P 1, X 1, B 1 4, V 2, R 0 2, A 3, K 2, I 0, Q 1 0, I 0, I 3, \
        M 255 1, B 0 1, T, C 2 1, S, B 0 1, Q 0 2, W 2, L, N";
    let plain = "C 0 0, F 2 255, C 0 0, F 1 254, C 0 2, M 1 0, P 255, P 1, B 1 4, V 1, \
        B 3 3, V 1, V 4, V 3, A 4, G 254, I 0, B 0 5, A 5, W 4, A 6, K 3, G 255, I 4, U 254, I 5, I 4, \
        U 255, I 4, I 5, I 4, I 4, \
        A 3, B 1 1, V 1, J, Z, A 4, G 254, I 0, N, G 254, K 4, G 255, I 4, \
        B 1 2, V 1, A 4, G 254, I 0, Q 1 0, K 4, G 255, I 4, I 3, \
        M 255 1, B 0 1, T, C 0 3, \
        S, B 0 1, B 3 4, V 1, V 255, V 1, A 1, B 2 5, V 1, V 4, A 4, W 1, A 5, W 4, U 254, I 5, I 4, \
        U 255, I 4, I 5, I 4, A 2, L, A 3, N, Q 0 2, K 4, G 255, I 1, I 2, I 3";
    let translated = programs::translate(&text(source));
    assert_eq!(String::from_utf8(translated).unwrap(), String::from_utf8(text(plain)).unwrap());
    assert_eq!(programs::run(&text(source)), b"O\t1\t15\t1\t1\nO\t1\t67\t3\t0\n");
}

#[test]
fn worked_refusals() {
    let field_of_two =
        "C 1 0, F 255 0, C 2 1, F 255 1, C 2 1, S, B 1 4, V 1, A 1, W 2, U 0, I 1, T, R 1 3, G 1, I 1";
    assert_eq!(verdict(field_of_two), Err((8, 15)));
    assert_eq!(verdict("C 1 0, C 2 1, C 0 0, F 2 0, S, B 0 1, T"), Err((5, 4)));
    assert_eq!(verdict("C 2 0, S, B 0 1, T"), Err((5, 1)));
    assert_eq!(verdict("C 1 0, M 1 0, B 0 1, R 0 1, S, B 0 1, T"), Err((10, 2)));
}

#[test]
fn null_receiver_and_an_argument_that_raises() {
    let program = "C 0 0, M 255 0, P 1, B 0 1, T, C 0 0, S, B 1 1, V 1, Q 0 1, I 1, K 1, W 2";
    assert_eq!(run(program, 100).outcome, Outcome::Exception(2));
    let program = "C 0 0, M 255 0, P 1, B 0 1, T, S, B 1 1, V 1, Q 0 1, I 1, W 1";
    assert_eq!(run(program, 100), Run { outcome: Outcome::Exception(1), steps: 4, objects: 1, changes: 0 });
    let program = "C 0 0, F 255 0, S, B 1 1, V 1, U 0, I 1, G 0, K 1, W 0";
    assert_eq!(run(program, 100).outcome, Outcome::Exception(2));
}

#[test]
fn changes_keep_root_fields_and_identity() {
    // Two names for one object; a change to the own class resets the field below the root.
    let program = "C 1 0, F 255 0, C 2 1, F 255 1, C 2 1, S, B 2 5, V 2, V 1, A 2, A 1, W 2, \
        U 0, I 1, T, U 1, I 1, T, R 1 2, J, G 1, I 1, L, G 0, I 2";
    let mut store = [9; 18];
    let run = run_rows(&rows(program), 100, &mut store).unwrap();
    assert_eq!(run, Run { outcome: Outcome::Value(Value::True), steps: 16, objects: 1, changes: 1 });
    assert_eq!(store[..4], [2, 2, 1, 0]);
    // On null a change gives null and does not count.
    let program = "C 1 0, S, B 1 1, V 1, R 1 1";
    assert_eq!(run_rows(&rows(program), 2, &mut []).unwrap().changes, 0);
}

#[test]
fn stops() {
    let endless = "C 0 0, M 255 0, B 0 1, Q 0 0, I 0, S, B 0 1, Q 0 0, W 1";
    // B, Q, W, then 64 bodies of B, Q, I.
    assert_eq!(
        run(endless, 1_000),
        Run { outcome: Outcome::Stop(15), steps: 3 + 64 * 3, objects: 1, changes: 0 }
    );
    let null_at_the_end = "C 0 0, F 1 0, M 255 0, B 0 1, Q 0 0, G 0, I 0, S, B 0 1, Q 0 0, W 1";
    assert_eq!(run(null_at_the_end, 1_000).outcome, Outcome::Exception(1));
    let three = rows("S, B 0 3, W 0, W 0, W 0");
    for (numbers, outcome) in [(53, Outcome::Stop(16)), (54, Outcome::Value(Value::Object(3)))] {
        let mut store = vec![5; numbers];
        let run = run_rows(&three, 4, &mut store).unwrap();
        let made = numbers / 18;
        assert_eq!(run, Run { outcome, steps: 4, objects: made as u32, changes: 0 });
        assert!(store[..made * 18].iter().all(|number| *number == 0));
        assert!(store[made * 18..].iter().all(|number| *number == 5));
    }
    // Spent comes before full.
    assert_eq!(run_rows(&rows("S, B 0 1, W 0"), 1, &mut []).unwrap().outcome, Outcome::Stop(14));
    assert_eq!(run_rows(&rows("S, B 0 1, W 0"), 2, &mut []).unwrap().outcome, Outcome::Stop(16));
    assert_eq!(run_rows(&rows("S, B 0 1, W 0"), 0, &mut []).unwrap().steps, 0);
}

#[test]
fn the_fuel_limit() {
    let program = rows("S, B 0 1, T");
    assert!(run_rows(&program, 100_000_000, &mut []).is_ok());
    assert_eq!(run_rows(&program, 100_000_001, &mut []), Err(Refusal::new(2, 0)));
    assert_eq!(run_rows(&[1; 4], 100_000_001, &mut []), Err(Refusal::new(2, 0)));
    assert_eq!(run_rows(&[1; 5], 100_000_001, &mut []), Err(Refusal::new(1, 0)));
    assert_eq!(run_rows(&[1; 4], 100_000_000, &mut []), Err(Refusal::new(1, 1)));
}

#[test]
fn room_and_reserved_names() {
    let program = rows("S, B 0 1, T");
    let mut plain = [3; 30];
    assert_eq!(translate_rows(&program, &mut plain[..27]), Err(Refusal::new(13, 0)));
    assert_eq!(plain, [3; 30]);
    assert_eq!(translate_rows(&program, &mut plain), Ok(7));
    assert_eq!(plain[28..], [3; 2]);
    for name in [254, 255] {
        let program = rows(&format!("C 0 0, F 255 0, F 255 {name}, S, B 0 1, T"));
        assert_eq!(check_rows(&program), Ok(()));
        assert_eq!(translate_rows(&program, &mut []), Err(Refusal::new(12, 3)));
        let method = rows(&format!("C 0 0, M 255 {name}, B 0 1, T, S, B 0 1, T"));
        assert!(translate_rows(&method, &mut [0; 100]).is_ok());
    }
}

#[test]
fn the_programs_hold_so_much() {
    let long = |lines: usize| text(&format!("S, B 0 {}{}", lines - 2, ", T".repeat(lines - 2)));
    assert_eq!(programs::run(&long(680)), b"T\t679\t0\t0\nT\t679\t0\t0\n");
    assert_eq!(programs::run(&long(681)), b"!\t13\t0\n");
    let mut too_many_bytes = vec![b'x'; 8_193];
    assert_eq!(programs::run(&too_many_bytes), b"!\t13\t0\n");
    too_many_bytes.pop();
    assert_eq!(programs::run(&too_many_bytes), b"!\t1\t1\n");
    // 70 objects need 4 + 2 + 70 * 14 = 986 plain rows, 71 need 1,000, 72 one row too many.
    let objects = |count: usize| text(&format!("S, B 0 {}{}", count, ", W 0".repeat(count)));
    assert!(programs::run(&objects(71)).starts_with(b"O\t71\t72\t71\t0\nO\t141\t853\t142\t0\n"));
    assert_eq!(programs::run(&objects(72)), b"!\t13\t0\n");
    // 1,000 plain rows of new objects fit the text buffer.
    assert_eq!(programs::translate(&objects(71)).iter().filter(|byte| **byte == b'\n').count(), 1_000);
}

#[test]
fn plain_text_that_does_not_fit() {
    // Many fields with long names, then changes of class with slots and classes of two digits.
    let class = |superclass: u32, fields: u32| {
        let fields: String = (100..100 + fields).map(|name| format!(", F 255 {name}")).collect();
        format!("C 1 {superclass}{fields}, ")
    };
    let classes =
        [class(0, 16).repeat(7), "C 0 0, ".to_string(), class(8, 16).repeat(31), class(8, 14)].concat();
    let locals = format!("{}, V 10", ", V 255".repeat(8));
    let fits = text(&format!("{classes}S, B 9 3{locals}, R 9 10, R 9 10, R 9 10"));
    assert!(programs::translate(&fits).starts_with(b"C\t0\t0\n"));
    let exceeds = text(&format!("{classes}S, B 9 7{locals}{}{}", ", R 9 10".repeat(3), ", W 10".repeat(4)));
    assert!(exceeds.len() <= 8_192);
    assert!(programs::translate(&exceeds) == b"!\t13\t0\n");
    assert_eq!(programs::run(&exceeds), b"O\t4\t8\t4\t0\nO\t7\t70\t8\t0\n");
}
