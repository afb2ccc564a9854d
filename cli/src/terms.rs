//! Price terms: their file, days and dates as they are typed, and the words for what the services answer.

use crate::arguments::Arguments;
use crate::input::{refused, Input};
use crate::lines::{number, No};
use crate::Trouble;
use fickle::{
    date_of_day, day_of_date, price_on_date, price_on_day, price_report, Date, Price, Reason, Refusal,
    LARGEST_NUMBER, MOST_TERM_BYTES,
};
use std::ffi::OsStr;
use std::fmt;

/// What decides any verdict on terms. Signing numbers differ, so line 65,537 is refused at the latest.
const TEXT_MOST: u64 = (LARGEST_NUMBER as u64 + 2) * MOST_TERM_BYTES as u64;
/// The most digits of a day's number, and the digits of a year, a month and a day.
const DAY_DIGITS: usize = 5;
const DATE_DIGITS: [usize; 3] = [4, 2, 2];

/// A text of terms.
pub struct Terms(Input);

impl Terms {
    /// Reads a file, or standard input for `-`.
    pub fn read(file: &OsStr) -> Result<Terms, Trouble> {
        Input::read_first(file, TEXT_MOST).map(Terms)
    }

    /// What the file is called in messages.
    pub fn name(&self) -> &str {
        &self.0.name
    }

    /// Whether the terms themselves are good.
    pub fn check(&self) -> Result<(), No> {
        price_on_day(self.0.text(), 0, 0).map(|_| ()).map_err(|refusal| self.refused(refusal, "day 0"))
    }

    /// The price of a model on a day or date, or none.
    pub fn price(&self, model: u32, when: When) -> Result<Option<Price>, Refusal> {
        match when {
            When::Day(day) => price_on_day(self.0.text(), model, day),
            When::Date(date) => price_on_date(self.0.text(), model, date.year, date.month, date.day),
        }
    }

    /// The report of a month, as the service writes it.
    pub fn report(&self, model: u32, month: Month) -> Result<Vec<u8>, Refusal> {
        price_report(self.0.text(), model, month.year, month.month)
    }

    /// A refusal, with the line of the terms, or with the day, date or month where no line is to blame.
    pub fn refused(&self, refusal: Refusal, when: &str) -> No {
        if refusal.line == 0 {
            return No::Refused(format!("{when}: {}", refused(refusal.reason)));
        }
        let sentence = self.0.refused(refusal);
        let place = format!("{}:{}", self.0.name, refusal.line);
        let note = self.0.line(refusal.line).and_then(|line| suspected(line, refusal.reason));
        No::Refused(note.map_or(sentence.clone(), |note| format!("{sentence}\n{place}: note: {note}")))
    }

    /// A price's term in words: its line, its price, and from when to when it holds.
    pub fn why(&self, price: Price) -> String {
        let line = self.0.line(u64::from(price.line)).unwrap_or_default();
        let text = String::from_utf8_lossy(line);
        let numbers: Vec<u32> = text.trim_end().split('\t').filter_map(number).collect();
        let place = format!("{}:{}", self.0.name, price.line);
        match numbers[..] {
            [model, first, last, cents, signing] => {
                let [first, last] = [first, last].map(|day| When::Day(day).in_full());
                format!(
                    "{place}: model {model}, {cents} cents, from {first} to {last}, signing number {signing}"
                )
            }
            _ => format!("{place}: {} cents", price.cents),
        }
    }
}

/// Why a line of terms may be refused, where its bytes tell.
fn suspected(line: &[u8], reason: Reason) -> Option<String> {
    if reason != Reason::Line {
        return None;
    }
    let text = String::from_utf8_lossy(line);
    let fields: Vec<&str> = text.trim_end_matches('\n').split('\t').collect();
    let date = fields.iter().find_map(|field| match When::of(field) {
        Some(When::Date(date)) => Some(date),
        _ => None,
    });
    Some(if line.starts_with(b"\xef\xbb\xbf") {
        "the file begins with a byte-order mark; save it without one".to_string()
    } else if line.ends_with(b"\r\n") {
        "the line ends in a carriage return and a line feed; save the file with line feeds alone".to_string()
    } else if line == b"\n" {
        "the line is empty, and no line may be".to_string()
    } else if line.starts_with(b"#") {
        "the line begins with #; every line is a term, and there are no remarks".to_string()
    } else if line.contains(&b' ') {
        "the line has a space; one tab goes between two numbers, and nothing else".to_string()
    } else if let Some(date) = date {
        let day = day_of_date(date.year, date.month, date.day);
        let known = day.map_or(String::new(), |day| format!(", and {} is day {day}", When::Date(date)));
        format!("the line has a date; a term has the numbers of its days{known}")
    } else if !line.ends_with(b"\n") {
        "the line does not end in a line feed".to_string()
    } else if fields.len() != 5 {
        let found =
            if fields.len() == 1 { "one field".to_string() } else { format!("{} fields", fields.len()) };
        format!("the line has {found}; a term has five: model, first day, last day, cents, signing number")
    } else {
        return None;
    })
}

/// A day as it is typed: by its number, or by its date.
#[derive(Clone, Copy, PartialEq, Eq, Hash)]
pub enum When {
    Day(u32),
    Date(Date),
}

/// What a day may be typed as.
pub const WHEN: &str = "a date is YYYY-MM-DD, or a day's number of one to five digits";

impl When {
    /// A day's number of one to five digits, or YYYY-MM-DD. Whether there is such a day is left to the services.
    pub fn of(text: &str) -> Option<When> {
        if text.len() <= DAY_DIGITS {
            return number(text).map(When::Day);
        }
        match parts(text)?[..] {
            [year, month, day] => Some(When::Date(Date { year, month, day })),
            _ => None,
        }
    }

    /// Its date, where it is a day in range.
    pub fn dated(self) -> String {
        match self {
            When::Day(day) => date_of_day(day).map_or(self.to_string(), |date| When::Date(date).to_string()),
            When::Date(_) => self.to_string(),
        }
    }

    /// Its date and its number, as far as the calendar has them.
    pub fn in_full(self) -> String {
        let day = match self {
            When::Day(day) => Ok(day),
            When::Date(date) => day_of_date(date.year, date.month, date.day),
        };
        match day.and_then(|day| date_of_day(day).map(|date| (day, date))) {
            Ok((day, date)) => format!("{} (day {day})", When::Date(date)),
            Err(_) => self.to_string(),
        }
    }
}

impl fmt::Display for When {
    fn fmt(&self, f: &mut fmt::Formatter) -> fmt::Result {
        match self {
            When::Day(day) => write!(f, "day {day}"),
            When::Date(date) => write!(f, "{:04}-{:02}-{:02}", date.year, date.month, date.day),
        }
    }
}

/// A month as it is typed.
#[derive(Clone, Copy)]
pub struct Month {
    pub year: u32,
    pub month: u32,
}

impl Month {
    /// YYYY-MM. Whether there is such a month is left to the services.
    pub fn of(text: &str) -> Option<Month> {
        match parts(text)?[..] {
            [year, month] => Some(Month { year, month }),
            _ => None,
        }
    }
}

impl fmt::Display for Month {
    fn fmt(&self, f: &mut fmt::Formatter) -> fmt::Result {
        write!(f, "{:04}-{:02}", self.year, self.month)
    }
}

/// The numbers of a date or month: four digits for the year, two for each of the others, dashes between.
fn parts(text: &str) -> Option<Vec<u32>> {
    let parts: Vec<&str> = text.split('-').collect();
    let lengths = parts.len() <= DATE_DIGITS.len()
        && parts.iter().zip(DATE_DIGITS).all(|(part, digits)| part.len() == digits);
    lengths.then(|| parts.iter().map(|part| number(part)).collect()).flatten()
}

/// The model that a command is given.
pub fn model(arguments: &Arguments, given: &OsStr) -> Result<u32, Trouble> {
    let digits = given.to_string_lossy();
    let sentence = format!("a model is a whole number up to {}, not '{digits}'", u32::MAX);
    number(&digits).ok_or_else(|| arguments.trouble(&sentence))
}
