//! Runs the examples of docs/REFUSALS.md, on the proved services and on the second implementation.

use fickle::{explanations, Explanation, Reason, Stop, OBJECT_WIDTH, ROW_WIDTH};
use second::machine::Outcome;
use second::notation::{rows, text};

type Answer = Result<(), (u32, u64)>;

/// The numbers in a call, in order.
fn numbers(call: &str) -> Vec<u32> {
    call.split(|letter: char| !letter.is_ascii_digit()).filter_map(|digits| digits.parse().ok()).collect()
}

#[test]
fn every_number_has_an_example_and_it_holds() {
    let headings: Vec<u32> = explanations().map(|found| found.number).collect();
    let reasons = Reason::ALL.map(Reason::number).into_iter();
    let mut all: Vec<u32> = reasons.chain(Stop::ALL.map(Stop::number)).collect();
    all.sort();
    assert_eq!(headings, all);
    for example in explanations() {
        let given = numbers(example.call);
        match example.call.split(' ').next().unwrap() {
            "read:" => {
                let text = text(example.example);
                let proved = fickle::read_rows(&text, &mut [0; 64]).map(|_| ());
                let second = second::text::read_rows(&text, &mut [0; 64]).map(|_| ());
                refused(
                    &example,
                    [given[0], given[1]],
                    proved.map_err(Into::into),
                    second.map_err(Into::into),
                );
            }
            "check:" => {
                let rows = rows(example.example);
                let second = second::check::check_rows(&rows).map_err(Into::into);
                refused(
                    &example,
                    [given[0], given[1]],
                    fickle::check_rows(&rows).map_err(Into::into),
                    second,
                );
            }
            "translate:" => translated(&example, 1_000, [given[0], given[1]]),
            "translate" => translated(&example, given[0] as usize, [given[1], given[2]]),
            "run" => stopped(&example, &given),
            "rank:" => ranked(&example, [given[0], given[1]]),
            "run," => counted(&example, &given),
            "price" => priced(&example, &given),
            other => panic!("{other}"),
        }
    }
}

fn refused(example: &Explanation, [number, line]: [u32; 2], proved: Answer, second: Answer) {
    let line = u64::from(line);
    assert_eq!(number, example.number, "{}", example.call);
    assert_eq!(proved, Err((number, line)), "{}", example.call);
    assert_eq!(second, Err((number, line)), "{}", example.call);
}

fn translated(example: &Explanation, room: usize, expected: [u32; 2]) {
    let rows = rows(example.example);
    let proved =
        fickle::translate_rows(&rows, &mut vec![0; room * ROW_WIDTH]).map(|_| ()).map_err(Into::into);
    let second = second::plain::translate_rows(&rows, &mut vec![0; room * ROW_WIDTH]).map(|_| ());
    refused(example, expected, proved, second.map_err(Into::into));
}

fn stopped(example: &Explanation, given: &[u32]) {
    let [fuel, objects, stop] = given[..] else { panic!("{}", example.call) };
    let rows = rows(example.example);
    let room = objects as usize * OBJECT_WIDTH;
    let proved = fickle::run_rows(&rows, u64::from(fuel), &mut vec![0; room]).expect("accepted");
    let second = second::machine::run_rows(&rows, u64::from(fuel), &mut vec![0; room]).expect("accepted");
    assert_eq!(stop, example.number);
    let fickle::Outcome::Stop(proved) = proved.outcome else { panic!("{proved:?}") };
    assert_eq!(proved.number(), stop);
    assert_eq!(second.outcome, Outcome::Stop(stop));
}

fn ranked(example: &Explanation, expected: [u32; 2]) {
    let counts = numbers(example.example);
    let proved = fickle::rank_models(&counts, &mut [0; 99]).map(|_| ()).map_err(Into::into);
    let second = second::fleet::rank_models(&counts, &mut [0; 99]).map(|_| ()).map_err(Into::into);
    refused(example, expected, proved, second);
}

/// The labels of a run, counted on its own and as a fleet of one run.
fn counted(example: &Explanation, given: &[u32]) {
    let [printed, spoiled, number, line] = given[..] else { panic!("{}", example.call) };
    let rows = rows(example.example);
    let mut store = [0; 180];
    let objects = fickle::run_rows(&rows, 1_000, &mut store).expect("accepted").objects;
    let proved = fickle::count_run(&rows, &store, objects, printed, spoiled).map(|_| ()).map_err(Into::into);
    let second = second::fleet::count_run(&rows, &store, objects, printed, spoiled);
    refused(example, [number, line], proved, second.map(|_| ()).map_err(Into::into));
    let run = [7, (rows.len() / ROW_WIDTH) as u32, objects, printed, spoiled, 0];
    let proved = fickle::report_fleet(&run, &rows, &store, &mut [0; 99]).map(|_| ()).map_err(Into::into);
    let second = second::fleet::report_fleet(&run, &rows, &store, &mut [0; 99]).map(|_| ());
    refused(example, [number, line], proved, second.map_err(Into::into));
}

/// The price of a model on a day or on a date.
fn priced(example: &Explanation, given: &[u32]) {
    let terms = &text(example.example);
    let (proved, second, expected) = match *given {
        [model, day, number, line] => (
            fickle::price_on_day(terms, model, day).map(|_| ()),
            second::prices::price_on_day(terms, model, day).map(|_| ()),
            [number, line],
        ),
        [model, year, month, day, number, line] => (
            fickle::price_on_date(terms, model, year, month, day).map(|_| ()),
            second::prices::price_on_date(terms, model, year, month, day).map(|_| ()),
            [number, line],
        ),
        _ => panic!("{}", example.call),
    };
    refused(example, expected, proved.map_err(Into::into), second.map_err(Into::into));
}
