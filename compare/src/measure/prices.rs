//! What the benchmark measures of prices: the price on a day and the report of a month by few terms and by as many as there
//! are signing numbers, and both conversions of all days.

use super::{assert_same, left, times, Means, Measured, Table, JUNK, SHORT_CALLS, SHORT_ROUNDS, TURNS};
use fickle::{LARGEST_NUMBER, MOST_PRICE_REPORT_BYTES};
use second::services::{Date, Services};

/// How many days there are, which is also how many signing numbers there are.
const ALL: u32 = LARGEST_NUMBER + 1;
/// Terms of the texts.
const TERMS: [u32; 2] = [10, ALL];
/// The model of all terms; a day within the month; and the month.
const MODEL: u32 = 7;
const DAY: u32 = 36_570;
const MONTH: (u32, u32) = (2100, 2);
/// Rounds of a long text, and of conversions.
const ROUNDS: usize = 50;
/// A step through signing numbers that meets all of them in no order.
const STEP: u32 = 7_919;

/// So many terms of one model. Every second one holds on the day, the others on 501 days anywhere.
fn terms(count: u32) -> Vec<u8> {
    let line = |place: u32| {
        let on_day = [DAY - place % 40, DAY + place % 9];
        let anywhere = [place % 65_000, place % 65_000 + 500];
        let [first, last] = if place.is_multiple_of(2) { anywhere } else { on_day };
        let signing = place.wrapping_mul(STEP) % ALL;
        format!("{MODEL}\t{first}\t{last}\t{}\t{signing}\n", 1_000 + place % 977)
    };
    (0..count).map(line).collect::<String>().into_bytes()
}

/// Rounds and calls of a round for a text of so many terms: a call of few terms is too short for the clock.
fn rounds(count: u32) -> (usize, usize) {
    if count < ALL {
        (SHORT_ROUNDS, SHORT_CALLS)
    } else {
        (ROUNDS, 1)
    }
}

/// All dates in order.
fn dates(one: &dyn Services) -> Vec<Date> {
    (0..ALL).map(|day| one.date_of_day(day).expect("a day in range")).collect()
}

/// Prices, reports and conversions, in microseconds a call; of conversions a call is all days.
pub fn prices(all: &[Measured]) -> Means {
    let mut table = Table::new(&["service", "input"], "µs", all);
    let micro = |time: f64| format!("{:.2}", time * 1e6);
    for count in TERMS {
        let (terms, (rounds, calls), input) = (terms(count), rounds(count), format!("{count} terms"));
        let best = times(all, rounds, calls, |one| {
            assert!(one.price_on_day(&terms, MODEL, DAY).is_ok_and(|price| price.is_some()))
        });
        table.line(&["price_on_day", &input], &best, micro);
        let mut report = [0; MOST_PRICE_REPORT_BYTES];
        let best = times(all, rounds, calls, |one| {
            assert!(one.report_prices(&terms, MODEL, MONTH, &mut report).is_ok_and(|length| length > 0))
        });
        table.line(&["report_prices", &input], &best, micro);
    }
    let days = format!("all {ALL} days");
    let best =
        times(all, ROUNDS.max(TURNS), 1, |one| assert!((0..ALL).all(|day| one.date_of_day(day).is_ok())));
    table.line(&["date_of_day", &days], &best, micro);
    let dates = dates(all[0].services);
    let best = times(all, ROUNDS.max(TURNS), 1, |one| {
        assert!(dates.iter().all(|date| one.day_of_date(*date).is_ok()))
    });
    table.line(&["day_of_date", &days], &best, micro);
    table.means()
}

/// Panics unless two implementations convert, price and report alike on all inputs of the benchmark.
pub fn assert_prices_agree(pair: [&dyn Services; 2]) {
    for count in TERMS {
        let terms = terms(count);
        assert_same("price_on_day", "terms", pair.map(|one| one.price_on_day(&terms, MODEL, DAY)));
        let date = (MONTH.0, MONTH.1, 7);
        assert_same("price_on_date", "terms", pair.map(|one| one.price_on_date(&terms, MODEL, date)));
        let report = |one: &dyn Services| {
            left(MOST_PRICE_REPORT_BYTES, JUNK as u8, |report| {
                one.report_prices(&terms, MODEL, MONTH, report)
            })
        };
        assert_same("report_prices", "terms", pair.map(report));
    }
    assert_same("date_of_day", "all days", pair.map(dates));
    for date in dates(pair[0]) {
        assert_same("day_of_date", "a date", pair.map(|one| one.day_of_date(date)));
    }
}
