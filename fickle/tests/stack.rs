//! Native stack: each service at its worst inputs on a thread with as much as it says that it needs, and runs on
//! threads with the bound that is computed for them. A stack that overflows aborts the process.

mod deep;

use deep::{deep, deep_beside_calls, on_stack, FUEL, LETTERS, MOST_NESTING};
use fickle::{
    check_rows, count_plain_run, count_run, date_of_day, day_of_date, price_on_date, price_on_day,
    rank_models, read_rows, report_fleet, report_prices, run_rows_on_this_stack, run_rows_stack_bound,
    translate_rows, write_text, Labels, Outcome, Reason, Refusal, Stop, CHECK_ROWS_STACK_NEEDED,
    COUNT_PLAIN_RUN_STACK_NEEDED, COUNT_RUN_STACK_NEEDED, DATE_OF_DAY_STACK_NEEDED, DAY_OF_DATE_STACK_NEEDED,
    LARGEST_NUMBER, MOST_LINE_BYTES, MOST_PRICE_REPORT_BYTES, MOST_ROWS, OBJECT_WIDTH,
    PRICE_ON_DATE_STACK_NEEDED, PRICE_ON_DAY_STACK_NEEDED, RANK_MODELS_STACK_NEEDED, READ_ROWS_STACK_NEEDED,
    REPORT_FLEET_STACK_NEEDED, REPORT_PRICES_STACK_NEEDED, ROW_WIDTH, RUN_ROWS_STACK_NEEDED,
    TRANSLATE_ROWS_STACK_NEEDED, WRITE_TEXT_STACK_NEEDED,
};
use second::notation;

const TRANSLATED_NESTING: usize = 24;
/// More models than a service holds at once.
const MANY_MODELS: u32 = 40_000;
/// As many terms as there are signing numbers.
const MOST_TERMS: u32 = LARGEST_NUMBER + 1;
/// What a thread takes of its stack beside a run: its own data, and the frames that lead to the run.
const THREAD: usize = 16_384;

/// A call, which returns whether its answer is right, and the stack that it is given.
struct Case {
    stack: usize,
    name: String,
    call: Box<dyn FnOnce() -> bool + Send>,
}

fn case(stack: usize, name: String, call: impl FnOnce() -> bool + Send + 'static) -> Case {
    Case { stack, name, call: Box::new(call) }
}

/// The most lines, and one more, read and written.
fn texts() -> [Case; 2] {
    let text = "R\t65535\t65535\n".repeat(MOST_ROWS + 1).into_bytes();
    let most = text.len() - MOST_LINE_BYTES;
    let rows = [82, 65_535, 65_535, 0].repeat(MOST_ROWS + 1);
    let (lines, over) = (text.clone(), Refusal::new(Reason::Limit, MOST_ROWS as u64 + 1));
    let read = move || {
        let mut rows = vec![0; MOST_ROWS * ROW_WIDTH];
        read_rows(&text, &mut rows) == Err(over) && read_rows(&text[..most], &mut rows) == Ok(MOST_ROWS)
    };
    let write = move || {
        let mut text = vec![0; most];
        write_text(&rows, &mut text) == Err(over)
            && write_text(&rows[ROW_WIDTH..], &mut text) == Ok(most)
            && text == lines[..most]
    };
    [
        case(READ_ROWS_STACK_NEEDED, "read_rows".to_string(), read),
        case(WRITE_TEXT_STACK_NEEDED, "write_text".to_string(), write),
    ]
}

/// Check, translation and run at the deepest nesting through a letter; translation also where it accepts.
fn services(letter: char) -> [Case; 4] {
    let rows = deep(letter, MOST_NESTING, MOST_ROWS);
    let (to_translate, to_run) = (rows.clone(), rows.clone());
    let check = move || check_rows(&rows).is_ok();
    let refuse =
        move || translate_rows(&to_translate, &mut []).is_err_and(|over| over.reason == Reason::Limit);
    let translate = move || {
        let mut plain = vec![0; MOST_ROWS * ROW_WIDTH];
        translate_rows(&deep(letter, TRANSLATED_NESTING, 0), &mut plain).is_ok()
    };
    let run =
        move || run_rows_on_this_stack(&to_run, FUEL, &mut [0; 2 * OBJECT_WIDTH]).map(|run| run.outcome);
    [
        case(CHECK_ROWS_STACK_NEEDED, format!("check_rows, {letter}"), check),
        case(TRANSLATE_ROWS_STACK_NEEDED, format!("translate_rows, refused, {letter}"), refuse),
        case(TRANSLATE_ROWS_STACK_NEEDED, format!("translate_rows, {letter}"), translate),
        case(RUN_ROWS_STACK_NEEDED, format!("run_rows, {letter}"), move || {
            run() == Ok(Outcome::Stop(Stop::Deep))
        }),
    ]
}

/// A label of class 1, and a plain store that has it: an Identity and its implementor.
fn stores() -> ([u32; OBJECT_WIDTH], [u32; 2 * OBJECT_WIDTH]) {
    let (mut store, mut plain) = ([0; OBJECT_WIDTH], [0; 2 * OBJECT_WIDTH]);
    store[0] = 1;
    (plain[0], plain[1], plain[OBJECT_WIDTH], plain[OBJECT_WIDTH + 1]) = (1, 4, 3, 3);
    (store, plain)
}

/// A program with one class more, below its only one.
fn with_class_below(mut rows: Vec<u32>) -> Vec<u32> {
    let start = rows.chunks(ROW_WIDTH).position(|row| row[0] == u32::from('S')).expect("a start");
    rows.splice(start * ROW_WIDTH..start * ROW_WIDTH, notation::rows("C 0 1"));
    rows
}

/// Counts and a report of two runs at the deepest nesting through a letter. The second has rows of its own.
fn fleets(letter: char) -> [Case; 3] {
    let rows = with_class_below(deep(letter, MOST_NESTING, MOST_ROWS - 1));
    let (through, first, (store, plain)) = (rows.clone(), rows.clone(), stores());
    let label = Ok(Labels { printed: 1, spoiled: 0 });
    let count = move || count_run(&rows, &store, 1, 1, 2) == label;
    let count_plain = move || count_plain_run(&through, &plain, 2, 1, 2) == label;
    let report = move || {
        let second = with_class_below(deep(letter, MOST_NESTING, 0));
        let count = |rows: &[u32]| (rows.len() / ROW_WIDTH) as u32;
        let runs = [[1, count(&first), 1, 1, 2, 9], [2, count(&second), 1, 1, 2, 8]].concat();
        let (programs, stores, mut report) = ([first, second].concat(), [store; 2].concat(), [0; 16]);
        report_fleet(&runs, &programs, &stores, &mut report) == Ok(16)
            && report == *b"2\t1\t0\t8\n1\t1\t0\t9\n"
    };
    [
        case(COUNT_RUN_STACK_NEEDED, format!("count_run, {letter}"), count),
        case(COUNT_PLAIN_RUN_STACK_NEEDED, format!("count_plain_run, {letter}"), count_plain),
        case(REPORT_FLEET_STACK_NEEDED, format!("report_fleet, {letter}"), report),
    ]
}

/// More models than a service holds at once, the dearest first.
fn many_models() -> [Case; 2] {
    let lines = (0..MANY_MODELS).flat_map(|model| [model, 1, 0, MANY_MODELS - model]);
    let runs = (0..MANY_MODELS).flat_map(|model| [model, 5, 1, 1, 2, MANY_MODELS - model]);
    let (counts, runs): (Vec<u32>, Vec<u32>) = (lines.collect(), runs.collect());
    let is_right = |length: Result<usize, _>, report: &[u8]| {
        length.is_ok_and(|length| report[..length].ends_with(b"\n1\t1\t0\t39999\n0\t1\t0\t40000\n"))
    };
    let rank = move || {
        let mut report = vec![0; 20 * MANY_MODELS as usize];
        is_right(rank_models(&counts, &mut report), &report)
    };
    let fleet = move || {
        let rows = notation::rows("C 1 0, C 2 1, S, B 0 1, T");
        let (programs, stores) = (rows.repeat(MANY_MODELS as usize), stores().0.repeat(MANY_MODELS as usize));
        let mut report = vec![0; 20 * MANY_MODELS as usize];
        is_right(report_fleet(&runs, &programs, &stores, &mut report), &report)
    };
    [
        case(RANK_MODELS_STACK_NEEDED, "rank_models, many models".to_string(), rank),
        case(REPORT_FLEET_STACK_NEEDED, "report_fleet, many models".to_string(), fleet),
    ]
}

/// The most terms, and one more, in which each day of May 2179 has a price of its own; and the days and dates of the range.
fn prices() -> [Case; 5] {
    let line = |place: u32| {
        let (day, cents) = (65_499 + place % 31, LARGEST_NUMBER - place % 31);
        format!("7\t{day}\t{day}\t{cents}\t{}\n", place % MOST_TERMS)
    };
    let most: String = (0..MOST_TERMS).map(line).collect();
    let over = most.clone() + &line(MOST_TERMS);
    let texts = [most.into_bytes(), over.into_bytes()];
    let (by_date, report) = (texts.clone(), texts.clone());
    let price = move || {
        let [found, over] = texts.map(|terms| price_on_day(&terms, 7, 65_499));
        found.is_ok_and(|price| price.is_some()) && over.is_err_and(|no| no.reason == Reason::Term)
    };
    let price_by_date = move || {
        let [found, over] = by_date.map(|terms| price_on_date(&terms, 7, 2179, 5, 31));
        found.is_ok_and(|price| price.is_some()) && over.is_err_and(|no| no.reason == Reason::Term)
    };
    let report = move || {
        let [written, over] =
            report.map(|terms| report_prices(&terms, 7, 2179, 5, &mut [0; MOST_PRICE_REPORT_BYTES]));
        written == Ok(MOST_PRICE_REPORT_BYTES) && over.is_err_and(|no| no.reason == Reason::Term)
    };
    let day = || day_of_date(2179, 6, 6) == Ok(LARGEST_NUMBER) && day_of_date(2179, 6, 7).is_err();
    let date = || date_of_day(LARGEST_NUMBER).is_ok() && date_of_day(LARGEST_NUMBER + 1).is_err();
    [
        case(PRICE_ON_DAY_STACK_NEEDED, "price_on_day".to_string(), price),
        case(PRICE_ON_DATE_STACK_NEEDED, "price_on_date".to_string(), price_by_date),
        case(REPORT_PRICES_STACK_NEEDED, "report_prices".to_string(), report),
        case(DAY_OF_DATE_STACK_NEEDED, "day_of_date".to_string(), day),
        case(DATE_OF_DAY_STACK_NEEDED, "date_of_day".to_string(), date),
    ]
}

/// A run on its bound.
fn bounded(name: String, rows: Vec<u32>, fuel: u64) -> Case {
    let stack = run_rows_stack_bound(&rows, fuel) + THREAD;
    case(stack, format!("run_rows, {name}, fuel {fuel}"), move || {
        let run = run_rows_on_this_stack(&rows, fuel, &mut [0; 2 * OBJECT_WIDTH]).expect("accepted");
        run.outcome == Outcome::Stop(if u64::from(run.steps) == fuel { Stop::Spent } else { Stop::Deep })
    })
}

/// Runs that nest through a letter, on many fuels: calls in the innermost node, then calls beside it.
fn runs(letter: char) -> Vec<Case> {
    let mut cases = vec![bounded(format!("{letter}, many rows"), deep(letter, 16, MOST_ROWS), FUEL)];
    for nesting in [3, 4, 7, 10, 12, 16, 24, 64, MOST_NESTING - 1, MOST_NESTING] {
        for fuel in [0, 1, 100, 500, 1_000, 5_000, FUEL] {
            let name = format!("{letter}, nesting {nesting}");
            cases.push(bounded(name.clone(), deep(letter, nesting, 0), fuel));
            // G of a null field would end the run, and calls through Q are in the innermost node anyway.
            if !['G', 'Q', 'q'].contains(&letter) {
                cases.push(bounded(name + " beside calls", deep_beside_calls(letter, nesting), fuel));
            }
        }
    }
    cases
}

/// The only test in this file, with its cases in ascending order of stack: the C library may give a new thread the
/// larger stack of one that has ended, so that a case would prove nothing after a larger one.
#[test]
fn every_call_keeps_to_its_stack() {
    let mut cases: Vec<Case> = texts().into_iter().chain(LETTERS.into_iter().flat_map(services)).collect();
    cases.extend(LETTERS.into_iter().flat_map(fleets).chain(many_models()).chain(prices()));
    cases.extend(LETTERS.into_iter().flat_map(runs));
    cases.sort_by_key(|case| case.stack);
    for Case { stack, name, call } in cases {
        assert!(on_stack(stack, call), "{name}");
    }
}
