//! The notation of dates and prices in the cases of document 02: a text of terms, a model, and a day, date or month.

use super::fleets::{named_inputs, repeated, shown, LENT};
use crate::services::{Date, Price, Refused, Services};

/// What is asked of the calendar or of terms.
#[derive(Clone, Debug)]
pub enum Asked {
    DayOfDate(Date),
    DateOfDay(u32),
    PriceOnDay {
        terms: Vec<u8>,
        model: u32,
        day: u32,
    },
    PriceOnDate {
        terms: Vec<u8>,
        model: u32,
        date: Date,
    },
    /// The report of a month, and the length of what is lent for it.
    Report {
        terms: Vec<u8>,
        model: u32,
        month: (u32, u32),
        room: usize,
    },
}

/// What is asked; none where the notation is another one.
pub fn asked(service: &str, inputs: &str) -> Option<Asked> {
    let inputs = named_inputs(inputs)?;
    let number = |name| inputs.get(name)?.parse::<u32>().ok();
    let date = || Some((number("year")?, number("month")?, number("day")?));
    let of_terms = || Some((text(inputs.get("terms")?)?, number("model")?));
    Some(match service {
        "day_of_date" => Asked::DayOfDate(date()?),
        "date_of_day" => Asked::DateOfDay(number("day")?),
        "price_on_day" => {
            let (terms, model) = of_terms()?;
            Asked::PriceOnDay { terms, model, day: number("day")? }
        }
        "price_on_date" => {
            let (terms, model) = of_terms()?;
            Asked::PriceOnDate { terms, model, date: date()? }
        }
        "price_report" => {
            let (terms, model) = of_terms()?;
            let (month, room) = ((number("year")?, number("month")?), inputs.get("room")?.parse().ok()?);
            Asked::Report { terms, model, month, room }
        }
        _ => return None,
    })
}

/// What an implementation answers, in the words of the files.
pub fn answer(services: &dyn Services, asked: &Asked) -> String {
    match asked {
        Asked::DayOfDate(date) => told(services.day_of_date(*date), |day| day.to_string()),
        Asked::DateOfDay(day) => {
            told(services.date_of_day(*day), |(year, month, day)| format!("{year} {month} {day}"))
        }
        Asked::PriceOnDay { terms, model, day } => told(services.price_on_day(terms, *model, *day), cents),
        Asked::PriceOnDate { terms, model, date } => {
            told(services.price_on_date(terms, *model, *date), cents)
        }
        Asked::Report { terms, model, month, room } => {
            let mut report = vec![LENT; *room];
            let answer = services.report_prices(terms, *model, *month, &mut report);
            shown(answer, &report)
        }
    }
}

/// An answer without a buffer.
fn told<T>(answer: Result<T, Refused>, words: impl FnOnce(T) -> String) -> String {
    match answer {
        Ok(value) => format!("ok: {}", words(value)),
        Err((number, line)) => format!("! {number} {line}"),
    }
}

fn cents(price: Option<Price>) -> String {
    price.map_or("none".to_string(), |(cents, _)| cents.to_string())
}

/// A text: space stands for tab, `;` for line feed, `\xHH` for any other byte, `-` for nothing.
fn text(notation: &str) -> Option<Vec<u8>> {
    if notation == "-" {
        return Some(Vec::new());
    }
    let written = repeated(notation)?.replace(' ', "\t").replace(';', "\n");
    let mut parts = written.split("\\x");
    let mut text = parts.next()?.as_bytes().to_vec();
    for part in parts {
        text.push(u8::from_str_radix(part.get(..2)?, 16).ok()?);
        text.extend(part[2..].bytes());
    }
    Some(text)
}
