//! Price terms by date (document 02, §11): the calendar day by day, terms and their refusals, and reports held against the
//! price of each day.

use second::prices::{date_of_day, day_of_date, price_on_date, price_on_day, report_prices, Date, Price};
use second::random::Random;
use second::rows::Refusal;

/// A text of lines with spaces for tabs and commas for line feeds.
fn text(lines: &str) -> Vec<u8> {
    lines.replace(' ', "\t").replace(',', "\n").into_bytes()
}

fn refused<T>(number: u32, line: u32) -> Result<T, Refusal> {
    Err(Refusal::new(number, line))
}

fn report(terms: &[u8], model: u32, year: u32, month: u32) -> Result<String, Refusal> {
    let mut report = [b'?'; 560];
    let length = report_prices(terms, model, year, month, &mut report)?;
    assert!(report[length..].iter().all(|byte| *byte == b'?'));
    Ok(String::from_utf8_lossy(&report[..length]).replace('\t', " ").replace('\n', ","))
}

#[test]
fn the_calendar_day_by_day() {
    let lengths = [31, 28, 31, 30, 31, 30, 31, 31, 30, 31, 30, 31];
    let (mut year, mut month, mut day) = (2000, 1, 1);
    for number in 0..=65_535 {
        assert_eq!(day_of_date(year, month, day), Ok(number));
        assert_eq!(date_of_day(number), Ok(Date { year, month, day }));
        // Of the years from 2000 on every fourth has a leap day, but not 2100.
        let leap = month == 2 && year % 4 == 0 && year != 2100;
        day += 1;
        if day > lengths[month as usize - 1] + u32::from(leap) {
            assert_eq!(day_of_date(year, month, day), refused(24, 0), "{year} {month} {day}");
            (month, day) = (month + 1, 1);
        }
        if month > 12 {
            assert_eq!(day_of_date(year, month, day), refused(24, 0));
            (year, month) = (year + 1, 1);
        }
    }
    assert_eq!((year, month, day), (2179, 6, 7));
    assert_eq!(day_of_date(year, month, day), refused(24, 0));
}

#[test]
fn days_and_dates_out_of_range() {
    for day in [65_536, 146_097, 1 << 31, u32::MAX] {
        assert_eq!(date_of_day(day), refused(24, 0), "{day}");
    }
    let most = u32::MAX;
    let dates = [
        (1999, 12, 31),
        (0, 1, 1),
        (0, 3, 1),
        (2180, 1, 1),
        (2400, 2, 29),
        (most, 1, 1),
        (most, 12, 31),
        (most, most, most),
        (2000, 0, 1),
        (2000, 13, 1),
        (2000, most, 1),
        (2000, 1, 0),
        (2000, 1, 32),
        (2000, 2, 30),
        (2001, 2, 29),
        (2100, 2, 29),
        (2000, 1, most),
    ];
    for (year, month, day) in dates {
        assert_eq!(day_of_date(year, month, day), refused(24, 0), "{year} {month} {day}");
        assert_eq!(price_on_date(b"", 7, year, month, day), refused(24, 0), "{year} {month} {day}");
    }
}

#[test]
fn the_term_that_was_signed_last() {
    let terms = text("7 0 30 150 9,7 10 20 99 3,8 0 65535 1 65535,7 15 15 0 0,7 40 40 0 10,");
    let on = |model, day| price_on_day(&terms, model, day);
    let price = |cents, line| Ok(Some(Price { cents, line }));
    assert_eq!(on(7, 15), price(150, 1));
    assert_eq!(on(7, 40), price(0, 5));
    for (model, day) in [(7, 31), (7, 41), (9, 15), (65_536, 0), (u32::MAX, 0)] {
        assert_eq!(on(model, day), Ok(None), "{model} {day}");
    }
    assert_eq!(on(8, 65_535), price(1, 3));
    assert_eq!(on(8, 65_536), refused(24, 0));
    assert_eq!(price_on_date(&terms, 7, 2000, 2, 10), price(0, 5));
}

#[test]
fn refusals_in_order() {
    let good = "7 0 30 5 1,";
    let malformed = [
        "7 0 30 5,",
        "7 0 30 5 2 2,",
        "7 0 30 5 ,",
        " 7 0 30 5 2,",
        "7  0 30 5 2,",
        "7 0 30 5 2",
        ",",
        "7 0 30 5 02,",
        "7 0 30 5 65536,",
        "7 0 30 5 100000,",
        "7 0 30 5 -1,",
        "C 7 0 30 5 2,",
    ];
    for line in malformed {
        let terms = text(&format!("{good}{line}"));
        assert_eq!(price_on_day(&terms, 7, 65_536), refused(1, 2), "{line}");
        assert_eq!(report_prices(&terms, 7, 2000, 13, &mut []), refused(1, 2), "{line}");
    }
    for line in ["7 9 8 5 2,", "8 0 0 6 1,", "8 9 8 6 1,"] {
        let terms = text(&format!("{good}{line}7,"));
        assert_eq!(price_on_day(&terms, 7, 65_536), refused(23, 2), "{line}");
        assert_eq!(report_prices(&terms, 7, 2000, 13, &mut []), refused(23, 2), "{line}");
    }
    let terms = text(good);
    for (year, month) in [(2000, 0), (2000, 13), (1999, 12), (2179, 6), (2179, 7), (2000, u32::MAX)] {
        assert_eq!(report_prices(&terms, 7, year, month, &mut []), refused(24, 0), "{year} {month}");
    }
    assert_eq!(report_prices(&terms, 7, 2000, 1, &mut [0; 6]), refused(13, 0));
    assert_eq!(report_prices(&terms, 7, 2000, 1, &mut [0; 7]), Ok(7));
    assert_eq!(report_prices(&terms, 8, 2000, 1, &mut []), Ok(0));
}

#[test]
fn every_signing_number_once() {
    let all: String = (0..65_536).map(|number| format!("7 {number} {number} 3 {number},")).collect();
    assert_eq!(price_on_day(&text(&all), 7, 65_535), Ok(Some(Price { cents: 3, line: 65_536 })));
    assert_eq!(report(&text(&all), 7, 2179, 5), Ok("65499 65529 3,".to_string()));
    assert_eq!(price_on_day(&text(&(all + "8 0 0 1 0,")), 7, 0), refused(23, 65_537));
}

#[test]
fn runs_of_days() {
    let cases = [
        ("7 0 30 5 1,7 10 12 6 2,", "0 9 5,10 12 6,13 30 5,"),
        // A price that a later signature hides leaves no trace; equal neighbours are one run; a gap parts runs.
        ("7 10 12 6 1,7 0 30 5 2,", "0 30 5,"),
        ("7 0 9 5 1,7 10 30 5 2,", "0 30 5,"),
        ("7 0 9 5 1,7 11 30 5 2,", "0 9 5,11 30 5,"),
        ("7 0 30 5 1,7 0 0 6 2,7 30 40 7 3,8 5 5 9 4,", "0 0 6,1 29 5,30 30 7,"),
    ];
    for (terms, expected) in cases {
        assert_eq!(report(&text(terms), 7, 2000, 1), Ok(expected.to_string()), "{terms}");
    }
    assert_eq!(report(&text("7 0 65535 5 1,"), 7, 2100, 2), Ok("36556 36583 5,".to_string()));
}

/// A report is what the prices of the month's days come to, one after another.
#[test]
fn reports_are_the_prices_of_their_days() {
    let mut random = Random::new(1);
    let mut lines_seen = 0;
    for _ in 0..3_000 {
        let (year, month) = (random.between(2_000, 2_178) as u32, random.between(1, 12) as u32);
        let first = day_of_date(year, month, 1).expect("a day in range");
        let mut terms = String::new();
        for signing in 0..random.below(12) {
            let from = (first + random.below(40) as u32).saturating_sub(5).min(65_535);
            let to = (from + random.below(12) as u32).min(65_535);
            let (model, cents) = (random.between(7, 8), random.below(3));
            terms += &format!("{model} {from} {to} {cents} {},", signing * 7 % 12);
        }
        let terms = text(&terms);
        let mut expected = Vec::new();
        for day in first.. {
            if date_of_day(day).map(|date| (date.year, date.month)) != Ok((year, month)) {
                break;
            }
            match (price_on_day(&terms, 7, day).expect("good terms"), expected.last_mut()) {
                (Some(price), Some((_, last, cents))) if *last + 1 == day && *cents == price.cents => {
                    *last = day
                }
                (Some(price), _) => expected.push((day, day, price.cents)),
                (None, _) => (),
            }
        }
        lines_seen += expected.len();
        let lines = expected.iter().map(|(first, last, cents)| format!("{first} {last} {cents},"));
        assert_eq!(report(&terms, 7, year, month), Ok(lines.collect()), "{year} {month}");
    }
    assert!(lines_seen > 5_000);
}
