//! The calls that return a `Vec`: each answers as the call over lent buffers does where these are large, also for the
//! longest results, so none of them is refused for want of room.

use fickle::{
    fleet_report, models_report, plain_rows, price_report, rank_models, read_rows, report_fleet,
    report_prices, rows_of_text, run_in_own_store, run_rows, text_of_rows, translate_rows, write_text,
    Outcome, Reason, Refusal, Run, Stop, Value, MOST_FUEL, MOST_LINE_BYTES, MOST_MODEL_BYTES, MOST_OBJECTS,
    MOST_PRICE_REPORT_BYTES, MOST_ROWS, MOST_TRANSLATED_ROWS, OBJECT_WIDTH, ROW_WIDTH,
};
use second::generate;
use second::notation::rows;
use second::random::Random;

const SEEDS: u64 = 500;
const FUEL: u64 = 2_000;

/// What a service answers over a large buffer: its result cut to what was written.
fn lent<T: Copy>(
    buffer: &mut [T],
    width: usize,
    call: impl FnOnce(&mut [T]) -> Result<usize, Refusal>,
) -> Result<Vec<T>, Refusal> {
    call(buffer).map(|count| buffer[..count * width].to_vec())
}

#[test]
fn answers_as_over_large_buffers() {
    let (mut numbers, mut bytes) = (vec![0; MOST_ROWS * ROW_WIDTH], vec![0; MOST_ROWS * MOST_LINE_BYTES]);
    let mut store = vec![0; FUEL as usize * OBJECT_WIDTH];
    let mut translated = 0;
    for seed in 0..SEEDS {
        let random = &mut Random::new(seed);
        let text = generate::text(random);
        let read = lent(&mut numbers, ROW_WIDTH, |rows| read_rows(&text, rows));
        assert_eq!(rows_of_text(&text), read, "seed {seed}");
        let buffer = generate::row_buffer(random);
        let written = lent(&mut bytes, 1, |text| write_text(&buffer, text));
        assert_eq!(text_of_rows(&buffer), written, "seed {seed}");
        for rows in [generate::program(random), generate::damaged(random), generate::extreme(random), buffer]
        {
            let plain = lent(&mut numbers, ROW_WIDTH, |plain| translate_rows(&rows, plain));
            assert_eq!(plain_rows(&rows), plain, "seed {seed}");
            translated += usize::from(plain.is_ok());
            let run = run_rows(&rows, FUEL, &mut store);
            let run = run.map(|run| (run, store[..run.objects as usize * OBJECT_WIDTH].to_vec()));
            assert_eq!(run_in_own_store(&rows, FUEL), run, "seed {seed}");
        }
    }
    assert!(translated > 250, "{translated} translated");
}

#[test]
fn the_longest_texts() {
    let widest = "R\t65535\t65535\n";
    for lines in [MOST_ROWS - 1, MOST_ROWS] {
        let text = widest.repeat(lines).into_bytes();
        let rows = rows_of_text(&text).expect("within the limit");
        assert_eq!(rows, [82, 65_535, 65_535, 0].repeat(lines));
        assert_eq!(text_of_rows(&rows), Ok(text));
    }
    let over = Refusal::new(Reason::Limit, MOST_ROWS as u64 + 1);
    assert_eq!(rows_of_text(widest.repeat(MOST_ROWS + 1).as_bytes()), Err(over));
    assert_eq!(rows_of_text(format!("{}T", widest.repeat(MOST_ROWS)).as_bytes()), Err(over));
    assert_eq!(text_of_rows(&[82, 65_535, 65_535, 0].repeat(MOST_ROWS + 1)), Err(over));
    assert_eq!((rows_of_text(b""), text_of_rows(&[])), (Ok(vec![]), Ok(vec![])));
    assert_eq!(rows_of_text(b"T"), Err(Refusal::new(Reason::Line, 1)));
    assert_eq!(text_of_rows(&[84, 0, 0]), Err(Refusal::new(Reason::Line, 0)));
}

/// A program with so many changes of class, each of which copies the most fields of a root.
fn changes(count: usize) -> Vec<u32> {
    let fields: String = (0..16).map(|name| format!("F 1 {name}, ")).collect();
    rows(&format!("C 1 0, {fields}S, B 1 {count}, V 1, {count}*R 1 1"))
}

#[test]
fn the_longest_translations() {
    let others = changes(0).len() / ROW_WIDTH;
    for count in [1, 2, 100, MOST_TRANSLATED_ROWS - others] {
        let rows = changes(count);
        let plain = plain_rows(&rows).expect("translated");
        // Each change of class has 88 plain rows; the other rows stay, and two classes with a field each are added.
        assert_eq!(plain.len() / ROW_WIDTH, 88 * count + others + 4);
    }
    let over = changes(MOST_TRANSLATED_ROWS - others + 1);
    assert_eq!(plain_rows(&over).map_err(|over| over.reason), Err(Reason::Limit));
    assert_eq!(plain_rows(&rows("C 0 0, F 255 254, S, B 0 1, T")), Err(Refusal::new(Reason::Reserved, 2)));
    assert_eq!(plain_rows(&[]), Err(Refusal::new(Reason::Place, 1)));
    assert_eq!(plain_rows(&[83, 0, 0]), Err(Refusal::new(Reason::Line, 0)));
}

#[test]
fn runs_have_all_the_room_that_they_can_use() {
    // Three objects: without enough fuel the run is spent, never full.
    let three = rows("S, B 0 3, W 0, W 0, W 0");
    for fuel in 0..6 {
        let (run, objects) = run_in_own_store(&three, fuel).expect("accepted");
        let made = fuel.saturating_sub(1).min(3) as u32;
        let outcome = if fuel < 4 { Outcome::Stop(Stop::Spent) } else { Outcome::Value(Value::Object(3)) };
        assert_eq!(run, Run { outcome, steps: fuel.min(4) as u32, objects: made, changes: 0 });
        assert_eq!(objects, vec![0; made as usize * OBJECT_WIDTH]);
    }
    // 65,536 objects are wanted, one more than any store holds.
    let many = rows(
        "C 0 0, M 0 0, B 0 16, 16*W 0, M 0 1, B 0 16, 16*(Q 0 0; I 0), M 0 2, B 0 16, 16*(Q 1 0; I 0), \
         M 0 3, B 0 16, 16*(Q 2 0; I 0), S, B 0 1, Q 3 0, W 1",
    );
    let (run, objects) = run_in_own_store(&many, MOST_FUEL).expect("accepted");
    assert_eq!((run.outcome, run.objects as usize), (Outcome::Stop(Stop::Full), MOST_OBJECTS));
    assert_eq!(objects.len(), MOST_OBJECTS * OBJECT_WIDTH);
    for fuel in [MOST_FUEL + 1, u64::MAX] {
        assert_eq!(run_in_own_store(&three, fuel), Err(Refusal::new(Reason::Limit, 0)));
    }
}

#[test]
fn the_longest_reports() {
    let models = 1_000;
    let line = |place: u32| [u32::MAX - place, 4_000_000_000, 3_999_999_999, 4_000_000_000];
    let counts: Vec<u32> = (0..models).flat_map(line).collect();
    let report = models_report(&counts).expect("ranked");
    assert_eq!(report.len(), models as usize * MOST_MODEL_BYTES);
    let mut large = vec![0; 2 * report.len()];
    assert_eq!(lent(&mut large, 1, |report| rank_models(&counts, report)), Ok(report));
    assert_eq!(models_report(&counts[1..]), Err(Refusal::new(Reason::Line, 0)));
    assert_eq!((models_report(&[]), fleet_report(&[], &[], &[])), (Ok(vec![]), Ok(vec![])));

    let (program, object) = (rows("C 1 0, C 2 1, S, B 0 1, T"), [1; OBJECT_WIDTH]);
    let run = |place: u32| [u32::MAX - place, 5, 1, 1, 2, 4_000_000_000];
    let runs: Vec<u32> = (0..models).flat_map(run).collect();
    let (programs, stores) = (program.repeat(models as usize), object.repeat(models as usize));
    let report = fleet_report(&runs, &programs, &stores).expect("reported");
    assert_eq!(report.iter().filter(|byte| **byte == b'\n').count(), models as usize);
    assert!(report.ends_with(b"4294967295\t1\t0\t4000000000\n"));
    let over_large = lent(&mut large, 1, |report| report_fleet(&runs, &programs, &stores, report));
    assert_eq!(over_large, Ok(report));
    assert_eq!(fleet_report(&runs, &programs, &stores[1..]), Err(Refusal::new(Reason::Class, 1_000)));

    // Every day of May 2179 has a price of its own.
    let terms: String =
        (0..31).map(|day| format!("7\t{0}\t{0}\t{1}\t{day}\n", 65_499 + day, 65_535 - day)).collect();
    let report = price_report(terms.as_bytes(), 7, 2179, 5).expect("reported");
    assert_eq!(report.len(), MOST_PRICE_REPORT_BYTES);
    let mut large = [0; 2 * MOST_PRICE_REPORT_BYTES];
    let over_large = lent(&mut large, 1, |report| report_prices(terms.as_bytes(), 7, 2179, 5, report));
    assert_eq!(over_large, Ok(report));
    assert_eq!(price_report(terms.as_bytes(), 7, 2179, 6), Err(Refusal::new(Reason::Date, 0)));
}
