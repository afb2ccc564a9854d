//! The proved services through the safe wrapper: one case of each answer.

use fickle::{
    check_rows, count_plain_run, count_run, date_of_day, day_of_date, price_on_date, price_on_day,
    rank_models, read_rows, report_fleet, report_prices, run_rows, translate_rows, write_text, Date,
    Exception, Labels, Outcome, Price, Reason, Refusal, Run, Stop, Value, LARGEST_NUMBER, MOST_FUEL,
    OBJECT_WIDTH, ROW_WIDTH,
};
use second::notation;

#[test]
fn reads_and_writes_back() {
    let text = b"C\t1\t0\nS\nB\t0\t1\nT\n";
    let mut rows = [7u32; 20];
    assert_eq!(read_rows(text, &mut rows), Ok(4));
    assert_eq!(rows[..16], [67, 1, 0, 0, 83, 0, 0, 0, 66, 0, 1, 0, 84, 0, 0, 0]);
    assert_eq!(rows[16..], [7; 4]);
    let mut back = [0u8; 64];
    assert_eq!(write_text(&rows[..16], &mut back), Ok(text.len()));
    assert_eq!(back[..text.len()], text[..]);
}

#[test]
fn refusals_change_nothing() {
    let mut rows = [7u32; 8];
    assert_eq!(read_rows(b"S\nI\t00\n", &mut rows), Err(Refusal::new(Reason::Line, 2)));
    assert_eq!(read_rows(b"S\nT\nT\n", &mut rows), Err(Refusal::new(Reason::Room, 0)));
    assert_eq!(rows, [7; 8]);
    let mut text = [7u8; 3];
    assert_eq!(write_text(&[83, 0, 0], &mut text), Err(Refusal::new(Reason::Line, 0)));
    assert_eq!(write_text(&[83, 0, 0, 0, 84, 0, 0, 0], &mut text), Err(Refusal::new(Reason::Room, 0)));
    assert_eq!(text, [7; 3]);
}

#[test]
fn empty_slices_get_answers() {
    let (no_room, too_early) = (Err(Refusal::new(Reason::Room, 0)), Err(Refusal::new(Reason::Place, 1)));
    let truth = read("S, B 0 1, T");
    assert_eq!(read_rows(b"", &mut []), Ok(0));
    assert_eq!(read_rows(b"S\n", &mut []), no_room);
    assert_eq!(write_text(&[], &mut []), Ok(0));
    assert_eq!(write_text(&truth, &mut []), no_room);
    assert_eq!(check_rows(&[]), Err(Refusal::new(Reason::Place, 1)));
    assert_eq!(translate_rows(&[], &mut []), too_early);
    assert_eq!(translate_rows(&truth, &mut []), no_room);
    assert_eq!(run_rows(&[], 9, &mut []), Err(Refusal::new(Reason::Place, 1)));
    let run = run_rows(&truth, 9, &mut []).expect("accepted");
    assert_eq!((run.outcome, run.steps), (Outcome::Value(Value::Truth(true)), 2));
    let object = read("S, B 0 1, W 0");
    assert_eq!(run_rows(&object, 9, &mut []).expect("accepted").outcome, Outcome::Stop(Stop::Full));
}

/// Program D of document 01.
fn program_d() -> Vec<u32> {
    read("C 1 0, F 255 0, C 2 1, C 2 1, S, B 1 4, V 1, A 1, W 2, U 0, I 1, T, R 1 3, G 0, I 1")
}

/// The rows of a program, read from its text.
fn read(program: &str) -> Vec<u32> {
    let expected = notation::rows(program);
    let mut rows = vec![7; expected.len()];
    assert_eq!(read_rows(&notation::text(program), &mut rows), Ok(expected.len() / ROW_WIDTH), "{program}");
    assert_eq!(rows, expected, "{program}");
    rows
}

#[test]
fn checks() {
    let rows = program_d();
    assert_eq!(check_rows(&rows), Ok(()));
    assert_eq!(check_rows(&rows[..59]), Err(Refusal::new(Reason::Line, 0)));
    assert_eq!(check_rows(&rows[..56]), Err(Refusal::new(Reason::Place, 15)));
    assert_eq!(check_rows(&[]), Err(Refusal::new(Reason::Place, 1)));
}

#[test]
fn translates_and_runs() {
    let rows = program_d();
    let mut plain = vec![7; 300];
    assert_eq!(translate_rows(&rows, &mut plain[..100]), Err(Refusal::new(Reason::Room, 0)));
    assert_eq!(plain, [7; 300]);
    assert_eq!(translate_rows(&rows, &mut plain), Ok(70));
    assert_eq!(plain[280..], [7; 20]);
    let mut store = [7; 60];
    let run = |steps, objects, changes| Run {
        outcome: Outcome::Value(Value::Truth(true)),
        steps,
        objects,
        changes,
    };
    assert_eq!(run_rows(&rows, 10_000, &mut store), Ok(run(9, 1, 1)));
    assert_eq!(store[..3], [3, 2, 0]);
    assert_eq!(store[OBJECT_WIDTH..], [7; 42]);
    assert_eq!(run_rows(&plain[..280], 10_000, &mut store), Ok(run(52, 3, 0)));
    let spent = run_rows(&rows, 8, &mut store).expect("accepted");
    assert_eq!((spent.outcome, spent.steps), (Outcome::Stop(Stop::Spent), 8));
    assert_eq!(run_rows(&rows, MOST_FUEL + 1, &mut store), Err(Refusal::new(Reason::Limit, 0)));
}

#[test]
fn runs_end_in_every_way() {
    let value = Outcome::Value;
    for (program, outcome) in [
        ("S, B 0 1, N", value(Value::Null)),
        ("S, B 0 1, L", value(Value::Truth(false))),
        ("S, B 0 1, T", value(Value::Truth(true))),
        ("S, B 0 1, W 0", value(Value::Object(1))),
        ("S, B 0 2, W 0, W 0", value(Value::Object(2))),
        ("C 0 0, F 255 0, S, B 1 1, V 1, G 0, I 1", Outcome::Exception(Exception::NullObject)),
        ("C 0 0, S, B 0 1, K 1, W 0", Outcome::Exception(Exception::WrongClass)),
        ("C 0 0, M 255 0, B 0 1, Q 0 0, I 0, S, B 0 1, Q 0 0, W 1", Outcome::Stop(Stop::Deep)),
        ("S, B 0 3, W 0, W 0, W 0", Outcome::Stop(Stop::Full)),
    ] {
        let run = run_rows(&read(program), 1_000, &mut [0; 2 * OBJECT_WIDTH]).expect("accepted");
        assert_eq!(run.outcome, outcome, "{program}");
    }
}

#[test]
fn counts_labels_in_both_stores() {
    let rows = program_d();
    let (mut plain, mut store) = (vec![0; 280], [7; 60]);
    assert_eq!(translate_rows(&rows, &mut plain), Ok(70));
    assert_eq!(run_rows(&rows, 10_000, &mut store).map(|run| run.objects), Ok(1));
    let one = Ok(Labels { printed: 1, spoiled: 1 });
    let refused = Err(Refusal::new(Reason::Class, 1));
    assert_eq!(count_run(&rows, &store, 1, 1, 3), one);
    assert_eq!(count_run(&rows, &store, 1, 1, 2), Ok(Labels { printed: 1, spoiled: 0 }));
    assert_eq!(count_run(&rows, &store, 0, 1, 2), Ok(Labels { printed: 0, spoiled: 0 }));
    assert_eq!(count_run(&rows, &store, 1, 2, 3), refused);
    // The second object of this store has class 7.
    assert_eq!(count_run(&rows, &store, 2, 1, 2), refused);
    assert_eq!(count_run(&rows, &store, 4, 1, 2), refused);
    assert_eq!(run_rows(&plain, 10_000, &mut store).map(|run| run.objects), Ok(3));
    assert_eq!(count_plain_run(&rows, &store, 3, 1, 3), one);
    assert_eq!(count_plain_run(&rows, &store, 2, 1, 3), refused);
}

#[test]
fn reports_of_counted_lines_and_fleets() {
    let refused = |reason, line| Err(Refusal::new(reason, line));
    let mut report = [7; 32];
    assert_eq!(rank_models(&[], &mut []), Ok(0));
    assert_eq!(rank_models(&[1], &mut report), refused(Reason::Line, 0));
    assert_eq!(rank_models(&[1, 2, 1, 0, 1, 1, 2, 0], &mut report), refused(Reason::Line, 2));
    assert_eq!(rank_models(&[1, 2, 1, 4_000_000_000, 1, 1, 0, 1], &mut report), refused(Reason::Sum, 2));
    assert_eq!(rank_models(&[1, 2, 1, 4], &mut report[..7]), refused(Reason::Room, 0));
    assert_eq!(report, [7; 32]);
    assert_eq!(rank_models(&[1, 2, 1, 4], &mut report), Ok(8));
    assert_eq!(report[..9], *b"1\t2\t1\t4\n\x07");
    let (rows, mut store) = (program_d(), [0; OBJECT_WIDTH]);
    store[0] = 3;
    let run = [9, 15, 1, 1, 3, 50];
    assert_eq!(report_fleet(&[], &[], &[], &mut []), Ok(0));
    assert_eq!(report_fleet(&run[..5], &rows, &store, &mut report), refused(Reason::Line, 0));
    assert_eq!(report_fleet(&[run, run].concat(), &rows, &store, &mut report), refused(Reason::Class, 2));
    assert_eq!(report_fleet(&run, &rows, &store, &mut []), refused(Reason::Room, 0));
    assert_eq!(report_fleet(&run, &rows, &store, &mut report), Ok(9));
    assert_eq!(report[..9], *b"9\t1\t1\t50\n");
}

#[test]
fn days_and_dates() {
    let refused = Refusal::new(Reason::Date, 0);
    for (day, year, month, of_month) in [(0, 2000, 1, 1), (59, 2000, 2, 29), (LARGEST_NUMBER, 2179, 6, 6)] {
        assert_eq!(day_of_date(year, month, of_month), Ok(day));
        assert_eq!(date_of_day(day), Ok(Date { year, month, day: of_month }));
    }
    for (year, month, day) in [(2100, 2, 29), (2179, 6, 7), (1999, 12, 31), (2000, 0, 1), (u32::MAX, 1, 1)] {
        assert_eq!(day_of_date(year, month, day), Err(refused));
    }
    assert_eq!(date_of_day(LARGEST_NUMBER + 1), Err(refused));
    assert_eq!(date_of_day(u32::MAX), Err(refused));
}

#[test]
fn prices_and_their_reports() {
    let refused = Refusal::new;
    let terms = b"7\t0\t30\t150\t1\n7\t10\t12\t0\t2\n8\t0\t30\t9\t3\n";
    assert_eq!(price_on_day(terms, 7, 30), Ok(Some(Price { cents: 150, line: 1 })));
    assert_eq!(price_on_day(terms, 7, 11), Ok(Some(Price { cents: 0, line: 2 })));
    assert_eq!(price_on_day(terms, 7, 31), Ok(None));
    assert_eq!(price_on_day(terms, u32::MAX, 0), Ok(None));
    assert_eq!(price_on_day(b"", 7, 0), Ok(None));
    assert_eq!(price_on_day(terms, 7, LARGEST_NUMBER + 1), Err(refused(Reason::Date, 0)));
    assert_eq!(price_on_date(terms, 8, 2000, 1, 31), Ok(Some(Price { cents: 9, line: 3 })));
    assert_eq!(price_on_date(terms, 8, 2000, 2, 30), Err(refused(Reason::Date, 0)));
    assert_eq!(price_on_day(&terms[..terms.len() - 1], 7, LARGEST_NUMBER + 1), Err(refused(Reason::Line, 3)));
    assert_eq!(
        price_on_day(b"7\t0\t0\t1\t1\n8\t0\t0\t1\t1\n", 7, LARGEST_NUMBER + 1),
        Err(refused(Reason::Term, 2))
    );
    let mut report = [7; 32];
    assert_eq!(report_prices(terms, 7, 2179, 6, &mut report), Err(refused(Reason::Date, 0)));
    assert_eq!(report_prices(terms, 7, 2000, 1, &mut report[..25]), Err(refused(Reason::Room, 0)));
    assert_eq!(report, [7; 32]);
    assert_eq!(report_prices(terms, 7, 2000, 1, &mut report), Ok(26));
    assert_eq!(report[..27], *b"0\t9\t150\n10\t12\t0\n13\t30\t150\n\x07");
    assert_eq!(report_prices(terms, 9, 2000, 1, &mut []), Ok(0));
}
