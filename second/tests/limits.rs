//! Each limit of document 01 on both sides, for the check and for the translator.

use second::check::check_rows;
use second::generate::extreme;
use second::machine::{run_rows, Outcome, Value};
use second::notation;
use second::plain::translate_rows;
use second::random::Random;
use second::rows::{letter, Refusal};

fn check(rows: &[u32]) -> Result<(), (u32, u64)> {
    check_rows(rows).map_err(|Refusal { number, line }| (number, line))
}

/// What the translator says, without the rows.
fn translate(rows: &[u32]) -> Result<(), (u32, u64)> {
    let mut plain = vec![0; 60_000 * 4];
    match translate_rows(rows, &mut plain) {
        Ok(count) => {
            assert_eq!(check(&plain[..count * 4]), Ok(()));
            Ok(())
        }
        Err(Refusal { number, line }) => {
            assert!(plain.iter().all(|number| *number == 0));
            Err((number, line))
        }
    }
}

/// The line (from 1) of the n-th row (from 1) of a letter.
fn line_of(rows: &[u32], letter: u32, nth: usize) -> u64 {
    let mut lines = rows.chunks(4).enumerate().filter(|(_, row)| row[0] == letter);
    lines.nth(nth - 1).unwrap().0 as u64 + 1
}

#[test]
fn parameters() {
    assert_eq!(translate(&extreme::parameters(8)), Ok(()));
    assert_eq!(check(&extreme::parameters(9)), Err((2, 11)));
    assert_eq!(translate(&extreme::parameters(9)), Err((2, 11)));
}

#[test]
fn nesting() {
    for seed in 0..50 {
        let mut random = Random::new(seed);
        assert_eq!(translate(&extreme::nesting(24, &mut random)), Ok(()));
        let past = extreme::nesting(25, &mut random);
        assert_eq!(check(&past), Ok(()));
        let Err((2, line)) = translate(&past) else { panic!("nesting 25 for the translator") };
        assert!(line <= past.len() as u64 / 4);
        assert_eq!(check(&extreme::nesting(128, &mut random)), Ok(()));
        let past = extreme::nesting(129, &mut random);
        let Err((2, _)) = check(&past) else { panic!("nesting 129") };
    }
    let blocks = |depth: usize| notation::rows(&format!("S, {}*B 0 1, T", depth - 1));
    assert_eq!(check(&blocks(128)), Ok(()));
    assert_eq!(check(&blocks(129)), Err((2, 130)));
    assert_eq!(translate(&blocks(24)), Ok(()));
    assert_eq!(translate(&blocks(25)), Err((2, 26)));
}

#[test]
fn slots() {
    for seed in 0..50 {
        let mut random = Random::new(seed);
        assert_eq!(check(&extreme::slots(256, &mut random)), Ok(()));
        let past = extreme::slots(257, &mut random);
        assert_eq!(check(&past), Err((2, line_of(&past, letter::LOCAL, 256))));
        assert_eq!(translate(&extreme::slots(32, &mut random)), Ok(()));
        let past = extreme::slots(33, &mut random);
        assert_eq!(check(&past), Ok(()));
        assert_eq!(translate(&past), Err((2, line_of(&past, letter::LOCAL, 32))));
    }
}

#[test]
fn classes() {
    for seed in 0..20 {
        let mut random = Random::new(seed);
        assert_eq!(check(&extreme::classes(64, &mut random)), Ok(()));
        assert_eq!(check(&extreme::classes(65, &mut random)), Err((2, 65)));
        assert_eq!(translate(&extreme::classes(62, &mut random)), Ok(()));
        assert_eq!(translate(&extreme::classes(63, &mut random)), Err((2, 63)));
    }
    for count in [1, 7, 8, 9, 62] {
        assert_eq!(translate(&extreme::many_roots(count)), Ok(()));
    }
    assert_eq!(check(&extreme::many_roots(64)), Ok(()));
}

#[test]
fn fields() {
    for seed in 0..50 {
        let mut random = Random::new(seed);
        assert_eq!(check(&extreme::fields(17, &mut random)), Ok(()));
        let past = extreme::fields(18, &mut random);
        assert_eq!(check(&past), Err((2, line_of(&past, letter::FIELD, 18))));
        assert_eq!(translate(&extreme::fields(16, &mut random)), Ok(()));
        let past = extreme::fields(17, &mut random);
        assert_eq!(translate(&past), Err((2, line_of(&past, letter::FIELD, 17))));
    }
}

#[test]
fn rows() {
    assert_eq!(check(&extreme::rows(60_000)), Ok(()));
    assert_eq!(check(&extreme::rows(60_001)), Err((2, 60_001)));
    assert_eq!(translate(&extreme::rows(680)), Ok(()));
    assert_eq!(translate(&extreme::rows(681)), Err((2, 681)));
    // A malformed row 60,001 is 1; any other is 2, also where the program was complete before it.
    let mut past = extreme::rows(60_001);
    past[60_000 * 4 + 1] = 1;
    assert_eq!(check(&past), Err((1, 60_001)));
    let mut after_the_end = extreme::rows(60_000);
    after_the_end.extend([letter::TRUE, 0, 0, 0]);
    assert_eq!(check(&after_the_end), Err((2, 60_001)));
    // 60,000 rows that end too early.
    let mut early = extreme::rows(60_001);
    early.truncate(60_000 * 4);
    assert_eq!(check(&early), Err((3, 60_001)));
    assert_eq!(check(&extreme::long_program(59_990)), Ok(()));
}

#[test]
fn names() {
    assert_eq!(check(&extreme::names(255)), Ok(()));
    assert_eq!(check(&extreme::names(256)), Err((2, 2)));
    assert_eq!(translate(&extreme::names(255)), Err((12, 2)));
    assert_eq!(translate(&extreme::names(253)), Ok(()));
    for (row, at) in [(2, 2), (7, 1), (9, 1), (12, 1)] {
        let mut rows = extreme::names(7);
        rows[row * 4 + at] = 256;
        assert_eq!(check(&rows), Err((2, row as u64 + 1)));
    }
}

#[test]
fn translators_limits_in_line_order() {
    // Field 17 stands before the block with slot 33, which stands before the class past the limit.
    let mut random = Random::new(1);
    let mut rows = extreme::fields(17, &mut random);
    rows.truncate(rows.len() - 12);
    let tail = extreme::slots(33, &mut random);
    assert_eq!(
        translate(&[rows.clone(), tail.clone()].concat()),
        Err((2, line_of(&rows, letter::FIELD, 17)))
    );
    rows[6] = 255;
    assert_eq!(translate(&[rows.clone(), tail].concat()), Err((2, line_of(&rows, letter::FIELD, 17))));
}

/// The rows of a translation.
fn translation(rows: &[u32]) -> Vec<u32> {
    let mut plain = vec![0; 60_000 * 4];
    let count = translate_rows(rows, &mut plain).unwrap();
    plain.truncate(count * 4);
    plain
}

#[test]
fn widest_translations() {
    // One change of class with 16 root fields: 88 rows and 84 steps by slot, 86 and 83 by `this`.
    let root: String = (0..16).map(|name| format!(", F 255 {name}")).collect();
    let new_object = format!("C 1 0{root}, M 1 0, X 1, B 0 1, I 0, S, B 1 2, V 1, A 1, W 1");
    let counts = |rows: &[u32]| {
        let plain = translation(rows);
        let run = run_rows(&plain, 1_000, &mut [0; 180]).unwrap();
        (plain.len() / 4, run.steps)
    };
    let (base_rows, base_steps) = counts(&notation::rows(&format!("{new_object}, I 1")));
    assert_eq!(
        counts(&notation::rows(&format!("{new_object}, R 1 1"))),
        (base_rows - 1 + 88, base_steps - 1 + 84)
    );
    let with_call = format!("{new_object}, Q 0 0, I 1");
    let (base_rows, base_steps) = counts(&notation::rows(&with_call));
    let by_this = with_call.replace("B 0 1, I 0", "B 0 1, R 0 1");
    assert_eq!(counts(&notation::rows(&by_this)), (base_rows - 2 + 86, base_steps - 2 + 83));
    for calls in [false, true] {
        let rows = extreme::widest_scope(calls);
        assert_eq!(translate(&rows), Ok(()));
        let highest =
            translation(&rows).chunks(4).filter(|row| row[0] == letter::ASSIGN).map(|row| row[1]).max();
        assert_eq!(highest, Some(if calls { 232 } else { 32 + 22 + 2 }));
    }
}

#[test]
fn row_lengths() {
    for length in [1, 2, 3, 5, 7, 240_001] {
        let rows = vec![letter::TRUE; length];
        assert_eq!(check(&rows), Err((1, 0)));
        assert_eq!(translate(&rows), Err((1, 0)));
        assert_eq!(run_rows(&rows, 1, &mut []), Err(Refusal::new(1, 0)));
        assert_eq!(run_rows(&rows, u64::MAX, &mut []), Err(Refusal::new(1, 0)));
    }
}

#[test]
fn malformed_rows_in_the_check() {
    let good = extreme::names(7);
    for row in 0..good.len() / 4 {
        for (at, number) in [(0, 0), (0, 72), (0, 84 + 256), (1, 65_536), (2, 65_536), (3, 1), (3, u32::MAX)]
        {
            let mut rows = good.clone();
            rows[row * 4 + at] = number;
            assert_eq!(check(&rows), Err((1, row as u64 + 1)));
        }
    }
}

/// The stack on which the deepest evaluation must do; builds without optimisation need more.
const STACK: usize = if cfg!(debug_assertions) { 64 << 20 } else { 6 << 20 };

#[test]
fn deepest_evaluation() {
    let trial = || {
        for nesting in [24, 128] {
            for through in extreme::DEEPENING {
                let rows = extreme::deep_calls(nesting, &[through]);
                let mut store = [0; 36];
                let run = run_rows(&rows, 1_000_000, &mut store).unwrap();
                assert_eq!(run.outcome, Outcome::Stop(15));
                let extra = match through {
                    letter::SET | letter::CALL | letter::IF => 2,
                    _ => 1,
                };
                assert_eq!(run.steps, 4 + 64 * (4 + extra * (nesting as u64 - 3)));
            }
        }
        let rows = extreme::chain(64);
        assert_eq!(
            run_rows(&rows, 10_000, &mut [0; 1_200]).unwrap().outcome,
            Outcome::Value(Value::Object(1))
        );
        let rows = extreme::chain(65);
        assert_eq!(run_rows(&rows, 10_000, &mut [0; 1_200]).unwrap().outcome, Outcome::Stop(15));
    };
    std::thread::Builder::new().stack_size(STACK).spawn(trial).unwrap().join().unwrap();
}

#[test]
fn largest_store() {
    // 65,536 objects wanted, 65,535 can be held.
    let rows = notation::rows(
        "C 0 0, M 0 0, B 0 16, 16*W 0, M 0 1, B 0 16, 16*(Q 0 0; I 0), M 0 2, B 0 16, 16*(Q 1 0; I 0), \
         M 0 3, B 0 16, 16*(Q 2 0; I 0), S, B 0 1, Q 3 0, W 1",
    );
    let mut store = vec![7; 65_537 * 18];
    let run = run_rows(&rows, 1_000_000, &mut store).unwrap();
    assert_eq!(run.outcome, Outcome::Stop(16));
    assert_eq!(run.objects, 65_535);
    assert!(store[65_535 * 18..].iter().all(|number| *number == 7));
}
