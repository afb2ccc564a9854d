//! Price terms by date (document 02, §11): the Gregorian calendar by eras of 400 years, terms read line by line, and the
//! report of a month by painting the terms on it in the order in which they were signed.

use crate::rows::{number, refuse, Refusal, NUMBER_MOST};
use crate::text::{next_field, read_number, write_number, LINE_FEED, TAB};
use std::collections::HashSet;
use std::ops::RangeInclusive;

/// The largest day number; day 0 is 2000-01-01.
const DAY_MOST: u64 = NUMBER_MOST as u64;
/// Numbers of a term's line.
const FIELDS: usize = 5;

// Years are counted from March on here, so that a leap day is a year's last day. After 400 years the calendar recurs.
const ERA_YEARS: u64 = 400;
const ERA_DAYS: u64 = 146_097;
const CENTURY_DAYS: u64 = 36_524;
const FOUR_YEAR_DAYS: u64 = 1_461;
const YEAR_DAYS: u64 = 365;
/// Days from March of the year 0 to 2000-01-01.
const BEFORE_DAY_0: u64 = 730_425;

/// A date by its year, month and day of the month.
#[derive(Clone, Copy, Debug, PartialEq, Eq)]
pub struct Date {
    pub year: u32,
    pub month: u32,
    pub day: u32,
}

/// A price in cents, and the line of the term that it is from.
#[derive(Clone, Copy, Debug, PartialEq, Eq)]
pub struct Price {
    pub cents: u32,
    pub line: u32,
}

/// The number of the day that has a date; 24 where it is not in the calendar or range.
pub fn day_of_date(year: u32, month: u32, day: u32) -> Result<u32, Refusal> {
    let date = Date { year, month, day };
    if !is_date(date) {
        return refuse(number::DATE, 0);
    }
    in_range(days_since_march(date).and_then(|days| days.checked_sub(BEFORE_DAY_0)))
}

/// The date of a day; 24 where its number is out of range.
pub fn date_of_day(day: u32) -> Result<Date, Refusal> {
    in_range(Some(u64::from(day))).map(|day| date_since_march(u64::from(day) + BEFORE_DAY_0))
}

/// Whether the calendar has a date: its month is 1 to 12, and the month has the day.
fn is_date(Date { year, month, day }: Date) -> bool {
    (1..=12).contains(&month) && (1..=days_in_month(year, month)).contains(&day)
}

/// The days of a month, 1 to 12.
fn days_in_month(year: u32, month: u32) -> u32 {
    match month {
        2 if is_leap(year) => 29,
        2 => 28,
        4 | 6 | 9 | 11 => 30,
        _ => 31,
    }
}

/// Every fourth year, but for those of the hundreds that are not of the four hundreds.
fn is_leap(year: u32) -> bool {
    year.is_multiple_of(4) && (!year.is_multiple_of(100) || year.is_multiple_of(400))
}

/// A day number in range; else 24.
fn in_range(day: Option<u64>) -> Result<u32, Refusal> {
    day.filter(|day| *day <= DAY_MOST).map(|day| day as u32).ok_or(Refusal::new(number::DATE, 0))
}

/// The days from March of the year 0 to a date of the calendar; none for a date before.
fn days_since_march(date: Date) -> Option<u64> {
    let [year, month, day] = [date.year, date.month, date.day].map(u64::from);
    let year = year.checked_sub(u64::from(month < 3))?;
    let (era, of_era) = (year / ERA_YEARS, year % ERA_YEARS);
    let of_year = days_before_month((month + 9) % 12) + day - 1;
    Some(era * ERA_DAYS + of_era * YEAR_DAYS + of_era / 4 - of_era / 100 + of_year)
}

/// The days of a year before a month, where March is month 0: every five months in a row have 153 days.
fn days_before_month(month: u64) -> u64 {
    (153 * month + 2) / 5
}

/// The date so many days after March of the year 0 began.
fn date_since_march(days: u64) -> Date {
    let (era, of_era) = (days / ERA_DAYS, days % ERA_DAYS);
    // The day of the era without the leap days before it tells the year.
    let leap_days = of_era / (FOUR_YEAR_DAYS - 1) + of_era / (ERA_DAYS - 1);
    let year = (of_era - leap_days + of_era / CENTURY_DAYS) / YEAR_DAYS;
    let of_year = of_era - (year * YEAR_DAYS + year / 4 - year / 100);
    let from_march = (5 * of_year + 2) / 153;
    let month = (from_march + 2) % 12 + 1;
    let year = era * ERA_YEARS + year + u64::from(month < 3);
    let day = of_year - days_before_month(from_march) + 1;
    let [year, month, day] = [year, month, day].map(|part| part as u32);
    Date { year, month, day }
}

/// A term, with its line from 1.
#[derive(Clone, Copy, Debug, PartialEq, Eq)]
struct Term {
    line: u32,
    model: u32,
    first: u32,
    last: u32,
    cents: u32,
    signing: u32,
}

impl Term {
    /// Whether it holds for a model on a day: both edge days belong to it.
    fn holds(&self, model: u32, day: u32) -> bool {
        self.model == model && self.first <= day && day <= self.last
    }
}

/// The terms of a text. Line by line: 1 for a malformed line; 23 for a first day that follows the last, and for a signing
/// number that an earlier line has.
fn terms_of(text: &[u8]) -> Result<Vec<Term>, Refusal> {
    let (mut terms, mut signed, mut rest) = (Vec::new(), HashSet::new(), text);
    while !rest.is_empty() {
        let line = terms.len() as u32 + 1;
        let Some(end) = rest.iter().position(|byte| *byte == LINE_FEED) else {
            return refuse(number::LINE, line);
        };
        let Some(term) = read_term(&rest[..end], line) else { return refuse(number::LINE, line) };
        if term.first > term.last || !signed.insert(term.signing) {
            return refuse(number::TERM, line);
        }
        terms.push(term);
        rest = &rest[end + 1..];
    }
    Ok(terms)
}

/// One line without its line feed: five numbers with one tab between them.
fn read_term(line: &[u8], place: u32) -> Option<Term> {
    let first = line.iter().position(|byte| *byte == TAB).unwrap_or(line.len());
    let mut numbers = [read_number(&line[..first])?; FIELDS];
    let mut rest = &line[first..];
    for number in &mut numbers[1..] {
        let (field, after) = next_field(rest)?;
        *number = read_number(field)?;
        rest = after;
    }
    let [model, first, last, cents, signing] = numbers;
    rest.is_empty().then_some(Term { line: place, model, first, last, cents, signing })
}

/// The price of a model on a day, by the term with the highest signing number among those that hold; none where no term
/// holds. The terms' refusals come first, then 24.
pub fn price_on_day(terms: &[u8], model: u32, day: u32) -> Result<Option<Price>, Refusal> {
    let terms = terms_of(terms)?;
    in_range(Some(u64::from(day))).map(|day| price(&terms, model, day))
}

/// The same on a date.
pub fn price_on_date(
    terms: &[u8],
    model: u32,
    year: u32,
    month: u32,
    day: u32,
) -> Result<Option<Price>, Refusal> {
    let terms = terms_of(terms)?;
    day_of_date(year, month, day).map(|day| price(&terms, model, day))
}

fn price(terms: &[Term], model: u32, day: u32) -> Option<Price> {
    let holding = terms.iter().filter(|term| term.holds(model, day));
    let latest = holding.max_by_key(|term| term.signing)?;
    Some(Price { cents: latest.cents, line: latest.line })
}

/// A run of days with one price.
#[derive(Clone, Copy, Debug, PartialEq, Eq)]
struct Run {
    first: u32,
    last: u32,
    cents: u32,
}

/// The report of a model and a month: each run of days with one price as a line. The terms' refusals come first, then 24,
/// then 13.
pub fn report_prices(
    terms: &[u8],
    model: u32,
    year: u32,
    month: u32,
    report: &mut [u8],
) -> Result<usize, Refusal> {
    let terms = terms_of(terms)?;
    let days = month_days(year, month)?;
    let text = lines(&joined(painted(&terms, model, days)));
    let lent = report.get_mut(..text.len()).ok_or(Refusal::new(number::ROOM, 0))?;
    lent.copy_from_slice(&text);
    Ok(text.len())
}

/// The days of a month; 24 where it is no month, or one of its days is out of range.
fn month_days(year: u32, month: u32) -> Result<RangeInclusive<u32>, Refusal> {
    Ok(day_of_date(year, month, 1)?..=day_of_date(year, month, days_in_month(year, month))?)
}

/// The days with a price, as runs in order of days. A term takes the days that it holds of all that were signed before it.
fn painted(terms: &[Term], model: u32, days: RangeInclusive<u32>) -> Vec<Run> {
    let mut signed: Vec<&Term> = terms.iter().filter(|term| term.model == model).collect();
    signed.sort_unstable_by_key(|term| term.signing);
    let mut runs = Vec::new();
    for term in signed {
        let (first, last) = (term.first.max(*days.start()), term.last.min(*days.end()));
        if first <= last {
            paint(&mut runs, Run { first, last, cents: term.cents });
        }
    }
    runs
}

/// Puts a run over others, which keep what lies before it and after it.
fn paint(runs: &mut Vec<Run>, over: Run) {
    let before = runs.iter().filter(|run| run.first < over.first);
    let after = runs.iter().filter(|run| run.last > over.last);
    let kept_before = before.map(|run| Run { last: run.last.min(over.first - 1), ..*run });
    let kept_after = after.map(|run| Run { first: run.first.max(over.last + 1), ..*run });
    *runs = kept_before.chain([over]).chain(kept_after).collect();
}

/// Runs with their neighbours of equal price joined. A day without a term parts them.
fn joined(runs: Vec<Run>) -> Vec<Run> {
    let mut all: Vec<Run> = Vec::with_capacity(runs.len());
    for run in runs {
        match all.last_mut() {
            Some(before) if before.last + 1 == run.first && before.cents == run.cents => {
                before.last = run.last
            }
            _ => all.push(run),
        }
    }
    all
}

/// A line for each run: first day, last day, price.
fn lines(runs: &[Run]) -> Vec<u8> {
    let mut text = Vec::new();
    for run in runs {
        for (number, after) in [(run.first, TAB), (run.last, TAB), (run.cents, LINE_FEED)] {
            write_number(u64::from(number), &mut text);
            text.push(after);
        }
    }
    text
}
