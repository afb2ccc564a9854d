//! A case is one call with all that it is lent; a reply is all that comes back: the answer and the lent buffers.

use fickle::{Exception, Reason, Stop, ROW_WIDTH};
use second::services::{Counted, Date, End, Ended, Fleet, Price, Printed, Programs, Ran, Refused};
use std::collections::BTreeMap;
use std::fmt;

/// One call of a service or a program. Buffers are lent as they stand here, mostly full of junk.
#[derive(Clone, Debug)]
pub enum Case {
    Read { text: Vec<u8>, rows: Vec<u32> },
    Write { rows: Vec<u32>, text: Vec<u8> },
    Check { rows: Vec<u32> },
    Translate { rows: Vec<u32>, plain: Vec<u32> },
    Run { rows: Vec<u32>, fuel: u64, store: Vec<u32> },
    Count(Ended),
    CountPlain(Ended),
    Rank { counts: Vec<u32>, report: Vec<u8> },
    Report { fleet: Fleet, report: Vec<u8> },
    DayOfDate(Date),
    DateOfDay(u32),
    PriceOnDay { terms: Vec<u8>, model: u32, day: u32 },
    PriceOnDate { terms: Vec<u8>, model: u32, date: Date },
    PriceReport { terms: Vec<u8>, model: u32, month: (u32, u32), report: Vec<u8> },
    TranslatingProgram { text: Vec<u8> },
    RunningProgram { text: Vec<u8> },
}

/// What a call answers and leaves in what it was lent.
#[derive(Debug, PartialEq, Eq)]
pub enum Reply {
    Rows(Result<usize, Refused>, Vec<u32>),
    Text(Result<usize, Refused>, Vec<u8>),
    Verdict(Result<(), Refused>),
    Ran(Result<Ran, Refused>, Vec<u32>),
    Counted(Result<Counted, Refused>),
    Day(Result<u32, Refused>),
    Date(Result<Date, Refused>),
    Price(Result<Option<Price>, Refused>),
    Printed(Printed),
}

/// What a reply comes to: a result, that there is no price, a refusal, a stop or an exception; `Other` is a number that
/// documents 01 and 02 do not have.
#[derive(Clone, Copy, Debug, PartialEq, Eq, PartialOrd, Ord)]
pub enum Answer {
    Result,
    None,
    Refused(Reason),
    Stopped(Stop),
    Exception(Exception),
    Other(u32),
}

impl Case {
    /// The reply of an implementation.
    pub fn reply(&self, services: &dyn Programs) -> Reply {
        match self {
            Case::Read { text, rows } => {
                let mut rows = rows.clone();
                Reply::Rows(services.read_rows(text, &mut rows), rows)
            }
            Case::Write { rows, text } => {
                let mut text = text.clone();
                Reply::Text(services.write_text(rows, &mut text), text)
            }
            Case::Check { rows } => Reply::Verdict(services.check_rows(rows)),
            Case::Translate { rows, plain } => {
                let mut plain = plain.clone();
                Reply::Rows(services.translate_rows(rows, &mut plain), plain)
            }
            Case::Run { rows, fuel, store } => {
                let mut store = store.clone();
                Reply::Ran(services.run_rows(rows, *fuel, &mut store), store)
            }
            Case::Count(ended) => Reply::Counted(services.count_run(ended)),
            Case::CountPlain(ended) => Reply::Counted(services.count_plain_run(ended)),
            Case::Rank { counts, report } => {
                let mut report = report.clone();
                Reply::Text(services.rank_models(counts, &mut report), report)
            }
            Case::Report { fleet, report } => {
                let mut report = report.clone();
                Reply::Text(services.report_fleet(fleet, &mut report), report)
            }
            Case::DayOfDate(date) => Reply::Day(services.day_of_date(*date)),
            Case::DateOfDay(day) => Reply::Date(services.date_of_day(*day)),
            Case::PriceOnDay { terms, model, day } => {
                Reply::Price(services.price_on_day(terms, *model, *day))
            }
            Case::PriceOnDate { terms, model, date } => {
                Reply::Price(services.price_on_date(terms, *model, *date))
            }
            Case::PriceReport { terms, model, month, report } => {
                let mut report = report.clone();
                Reply::Text(services.report_prices(terms, *model, *month, &mut report), report)
            }
            Case::TranslatingProgram { text } => Reply::Printed(services.translate(text)),
            Case::RunningProgram { text } => Reply::Printed(services.run(text)),
        }
    }

    /// The rows of the program that is checked, translated or run.
    fn program(&self) -> Option<&[u32]> {
        match self {
            Case::Check { rows } | Case::Translate { rows, .. } | Case::Run { rows, .. } => Some(rows),
            _ => None,
        }
    }
}

impl Reply {
    pub fn answer(&self) -> Answer {
        match self {
            Reply::Rows(answer, _) | Reply::Text(answer, _) => of_result(answer),
            Reply::Verdict(answer) => of_result(answer),
            Reply::Counted(answer) => of_result(answer),
            Reply::Day(answer) => of_result(answer),
            Reply::Date(answer) => of_result(answer),
            Reply::Price(Ok(None)) => Answer::None,
            Reply::Price(answer) => of_result(answer),
            Reply::Ran(Ok(Ran { end: End::Exception(exception), .. }), _) => of_exception(*exception),
            Reply::Ran(Ok(Ran { end: End::Stop(stop), .. }), _) => of_stop(*stop),
            Reply::Ran(answer, _) => of_result(answer),
            Reply::Printed(printed) => of_output(&printed.output),
        }
    }

    /// Whether a program was accepted: it was not refused, however its run ended.
    fn accepted(&self) -> bool {
        !matches!(self.answer(), Answer::Refused(_))
    }
}

fn of_result<T>(answer: &Result<T, Refused>) -> Answer {
    answer.as_ref().map_or_else(|(number, _)| of_refusal(*number), |_| Answer::Result)
}

fn of_refusal(number: u32) -> Answer {
    Reason::from_number(number).map_or(Answer::Other(number), Answer::Refused)
}

fn of_stop(number: u32) -> Answer {
    Stop::from_number(number).map_or(Answer::Other(number), Answer::Stopped)
}

fn of_exception(number: u32) -> Answer {
    Exception::from_number(number).map_or(Answer::Other(number), Answer::Exception)
}

/// What a program's first line comes to: `!` stands before the number of a refusal or stop, `E` before an exception.
fn of_output(output: &[u8]) -> Answer {
    let digits = output.iter().skip(2).take_while(|byte| byte.is_ascii_digit());
    let number = digits.fold(0, |number, digit| number * 10 + u32::from(digit - b'0'));
    match output.first() {
        Some(b'!') => Stop::from_number(number).map_or_else(|| of_refusal(number), Answer::Stopped),
        Some(b'E') => of_exception(number),
        _ => Answer::Result,
    }
}

impl fmt::Display for Answer {
    fn fmt(&self, f: &mut fmt::Formatter) -> fmt::Result {
        match self {
            Answer::Result => write!(f, "result"),
            Answer::None => write!(f, "none"),
            Answer::Refused(reason) => write!(f, "{}", reason.number()),
            Answer::Stopped(stop) => write!(f, "{}", stop.number()),
            Answer::Exception(exception) => write!(f, "exception {}", exception.number()),
            Answer::Other(number) => write!(f, "unknown number {number}"),
        }
    }
}

/// How often each answer came, and each letter in programs that were accepted.
#[derive(Default)]
pub struct Reached {
    pub answers: BTreeMap<Answer, u64>,
    pub letters: BTreeMap<char, u64>,
}

impl Reached {
    pub fn count(&mut self, case: &Case, reply: &Reply) {
        *self.answers.entry(reply.answer()).or_insert(0) += 1;
        let rows = case.program().filter(|_| reply.accepted());
        for row in rows.into_iter().flat_map(|rows| rows.chunks_exact(ROW_WIDTH)) {
            *self.letters.entry(char::from(row[0] as u8)).or_insert(0) += 1;
        }
    }
}

impl fmt::Display for Reached {
    fn fmt(&self, f: &mut fmt::Formatter) -> fmt::Result {
        write!(f, "{}", shown(&self.answers))?;
        if !self.letters.is_empty() {
            write!(f, "; letters of accepted programs {}", shown(&self.letters))?;
        }
        Ok(())
    }
}

fn shown<K: fmt::Display>(counts: &BTreeMap<K, u64>) -> String {
    counts.iter().map(|(key, count)| format!("{key}: {count}")).collect::<Vec<_>>().join(", ")
}
