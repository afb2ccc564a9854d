//! Price terms by date: days and dates, the price of a model on one of them, and reports of a month (document 02, §11).
//!
//! A term is a line of five numbers with tabs between them: model, first day, last day, cents, signing number. Days count
//! from 2000-01-01, which is day 0, to 65,535, which is 2179-06-06.

use crate::answers::unpack;
use crate::{c, written, Refusal};

/// A date of the Gregorian calendar.
#[derive(Clone, Copy, Debug, PartialEq, Eq, PartialOrd, Ord, Hash)]
pub struct Date {
    pub year: u32,
    pub month: u32,
    pub day: u32,
}

/// A price in cents, and the line of the term that it is from, which counts from 1.
#[derive(Clone, Copy, Debug, PartialEq, Eq)]
pub struct Price {
    pub cents: u32,
    pub line: u32,
}

/// Returns the number of the day that has a date. Refused with 24, line 0, where the calendar has no such date, or it is not
/// within 2000-01-01 to 2179-06-06.
///
/// ```
/// use fickle::{day_of_date, Reason, Refusal};
/// assert_eq!(day_of_date(2000, 2, 29), Ok(59));
/// assert_eq!(day_of_date(2100, 2, 29), Err(Refusal::new(Reason::Date, 0)));
/// ```
pub fn day_of_date(year: u32, month: u32, day: u32) -> Result<u32, Refusal> {
    // SAFETY: numbers alone are passed.
    unpack(unsafe { c::fickle_day_of_date(year, month, day) })
}

/// Returns the date of a day. Refused with 24, line 0, where the day's number is above 65,535.
///
/// ```
/// use fickle::{date_of_day, Date, Reason, Refusal};
/// assert_eq!(date_of_day(59), Ok(Date { year: 2000, month: 2, day: 29 }));
/// assert_eq!(date_of_day(65_536), Err(Refusal::new(Reason::Date, 0)));
/// ```
pub fn date_of_day(day: u32) -> Result<Date, Refusal> {
    let (mut year, mut month, mut of_month) = (0, 0, 0);
    // SAFETY: the three numbers are lent to nobody else.
    let answer = unsafe { c::fickle_date_of_day(day, &mut year, &mut month, &mut of_month) };
    unpack(answer).map(|_| Date { year, month, day: of_month })
}

/// Returns the price of a model on a day: that of the term with the highest signing number among those that hold, or none
/// where no term holds. Both edge days belong to a term. Refusals: by lines 1 for a malformed one, and 23 where the first day
/// follows the last or an earlier line has the signing number; then 24, line 0, for a day above 65,535.
///
/// ```
/// use fickle::{price_on_day, Price, Reason, Refusal};
/// let terms = b"7\t0\t30\t150\t1\n7\t10\t20\t120\t2\n";
/// assert_eq!(price_on_day(terms, 7, 10), Ok(Some(Price { cents: 120, line: 2 })));
/// assert_eq!(price_on_day(terms, 7, 31), Ok(None));
/// assert_eq!(price_on_day(b"7\t9\t8\t150\t1\n", 7, 9), Err(Refusal::new(Reason::Term, 1)));
/// ```
pub fn price_on_day(terms: &[u8], model: u32, day: u32) -> Result<Option<Price>, Refusal> {
    let mut price = Price { cents: 0, line: 0 };
    // SAFETY: pointer and length are those of a live slice; the two numbers are lent to nobody else.
    let answer = unsafe {
        c::fickle_price_on_day(terms.as_ptr(), terms.len(), model, day, &mut price.cents, &mut price.line)
    };
    unpack(answer).map(|found| (found == PRICED).then_some(price))
}

/// Returns the price of a model on a date, as `price_on_day` does on its day; 24 where `day_of_date` refuses the date.
///
/// ```
/// use fickle::{price_on_date, Price, Reason, Refusal};
/// let terms = b"7\t59\t59\t150\t1\n";
/// assert_eq!(price_on_date(terms, 7, 2000, 2, 29), Ok(Some(Price { cents: 150, line: 1 })));
/// assert_eq!(price_on_date(terms, 7, 2000, 2, 30), Err(Refusal::new(Reason::Date, 0)));
/// ```
pub fn price_on_date(
    terms: &[u8],
    model: u32,
    year: u32,
    month: u32,
    day: u32,
) -> Result<Option<Price>, Refusal> {
    let mut price = Price { cents: 0, line: 0 };
    // SAFETY: as above.
    let answer = unsafe {
        c::fickle_price_on_date(
            terms.as_ptr(),
            terms.len(),
            model,
            year,
            month,
            day,
            &mut price.cents,
            &mut price.line,
        )
    };
    unpack(answer).map(|found| (found == PRICED).then_some(price))
}

/// Writes the price report of a model and a month: a line for each run of days with one price, in order of days: first day,
/// last day, cents. Returns how many bytes were written; `MOST_PRICE_REPORT_BYTES` are enough for any month. Refusals: those
/// of the terms, as for `price_on_day`; 24, line 0, where it is no month or one of its days is out of range; 13 last.
///
/// ```
/// let mut report = [0; fickle::MOST_PRICE_REPORT_BYTES];
/// let terms = b"7\t0\t30\t150\t1\n7\t10\t20\t120\t2\n";
/// let length = fickle::report_prices(terms, 7, 2000, 1, &mut report)?;
/// assert_eq!(report[..length], *b"0\t9\t150\n10\t20\t120\n21\t30\t150\n");
/// # Ok::<(), fickle::Refusal>(())
/// ```
pub fn report_prices(
    terms: &[u8],
    model: u32,
    year: u32,
    month: u32,
    report: &mut [u8],
) -> Result<usize, Refusal> {
    // SAFETY: as above, and `report` is lent to nobody else.
    written(unsafe {
        c::fickle_report_prices(
            terms.as_ptr(),
            terms.len(),
            model,
            year,
            month,
            report.as_mut_ptr(),
            report.len(),
        )
    })
}

/// The result where there is a price; it is 0 where there is none.
const PRICED: u32 = 1;
