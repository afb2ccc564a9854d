//! Cases of the calendar, of prices on a day or date, and of price reports.

mod texts;

use crate::cases::Case;
use crate::text::junk;
use fickle::{LARGEST_NUMBER, MOST_PRICE_REPORT_BYTES};
use second::prices::{date_of_day, day_of_date, report_prices};
use second::random::Random;
use second::services::Date;
use texts::{terms, Region};

/// The last day.
const LAST_DAY: u32 = LARGEST_NUMBER;
/// Numbers beyond every date, day and model; some are small ones once their upper bits are lost.
const LARGE: [u32; 8] = [65_536, 65_543, 65_595, 146_097, 1 << 31, (1 << 31) + 7, u32::MAX - 1, u32::MAX];
/// Days at the edges of years, of leap days and of the range.
const EDGES: [u32; 12] = [0, 30, 31, 58, 59, 60, 365, 366, 36_583, 36_584, 65_529, LAST_DAY];
/// Months at the edges, and some that are none or lie out of range.
const MONTHS: [(u32, u32); 14] = [
    (2000, 1),
    (2000, 2),
    (2100, 2),
    (2179, 5),
    (2179, 6),
    (2179, 7),
    (2179, 12),
    (2180, 1),
    (1999, 12),
    (2000, 0),
    (2000, 13),
    (0, 2),
    (2000, u32::MAX),
    (u32::MAX, 1),
];

/// Every date of the range, and those around each: months 0 and 13, days 0 and 29 to 32.
pub fn dates() -> Vec<Case> {
    let mut cases = Vec::new();
    for year in 1998..=2181 {
        for month in 0..=13 {
            cases.extend((0..=32).map(|day| Case::DayOfDate((year, month, day))));
        }
    }
    for large in LARGE {
        cases.extend(
            [(large, 1, 1), (2000, large, 1), (2000, 1, large), (large, large, large)].map(Case::DayOfDate),
        );
    }
    cases
}

/// Every day of the range, and days beyond it.
pub fn days() -> Vec<Case> {
    (0..=LAST_DAY + 1_000).chain(LARGE).map(Case::DateOfDay).collect()
}

/// The report of every month of the range and of those around it, by terms of its own length and by a term of all days.
pub fn months() -> Vec<Case> {
    let all = (1999..=2180).flat_map(|year| (0..=13).map(move |month| (year, month)));
    let report = || vec![7; MOST_PRICE_REPORT_BYTES];
    let mut cases = Vec::new();
    for (at, month) in all.enumerate() {
        let first = day_of_date(month.0, month.1, 1).unwrap_or(at as u32);
        let weekly: String = (0..6)
            .map(|week| {
                let day = first.saturating_sub(3) + 7 * week;
                format!("7\t{}\t{}\t{week}\t{week}\n", day.min(LAST_DAY), (day + 6).min(LAST_DAY))
            })
            .collect();
        for terms in [weekly, "7\t0\t65535\t65535\t0\n".to_string()] {
            cases.push(Case::PriceReport { terms: terms.into_bytes(), model: 7, month, report: report() });
        }
    }
    cases
}

/// A generated date.
pub fn dating(random: &mut Random) -> Vec<Case> {
    vec![Case::DayOfDate(date(random))]
}

/// A generated day.
pub fn numbering(random: &mut Random) -> Vec<Case> {
    vec![Case::DateOfDay(day(random))]
}

/// The price on a generated day.
pub fn pricing(random: &mut Random) -> Vec<Case> {
    let region = Region::new(day(random));
    let terms = terms(&region, random);
    let day = if random.chance(90) { day_for(&terms, &region, random) } else { day(random) };
    vec![Case::PriceOnDay { terms, model: model(random), day }]
}

/// The price on a generated date.
pub fn pricing_by_date(random: &mut Random) -> Vec<Case> {
    let region = Region::new(day(random));
    let terms = terms(&region, random);
    let date = if random.chance(90) { of_day(day_for(&terms, &region, random)) } else { date(random) };
    vec![Case::PriceOnDate { terms, model: model(random), date }]
}

/// The report of a generated month, into a buffer that is chosen by the report's length.
pub fn reporting(random: &mut Random) -> Vec<Case> {
    let month = match random.below(20) {
        0..=1 => random.pick(&MONTHS),
        2..=4 => random.pick(&MONTHS[..4]),
        _ => {
            let (year, month, _) = of_day(random.below(65_530) as u32);
            (year, month)
        }
    };
    let region = Region::new(day_of_date(month.0, month.1, 1).unwrap_or(LAST_DAY - 20));
    let (terms, model) = (terms(&region, random), model(random));
    let mut room = [0; MOST_PRICE_REPORT_BYTES];
    let length = report_prices(&terms, model, month.0, month.1, &mut room).unwrap_or(9);
    vec![Case::PriceReport { terms, model, month, report: junk(random, length, |bits| bits as u8) }]
}

/// A day for terms: mostly an edge of one of them, the day before it or the day after; else any day near.
fn day_for(terms: &[u8], region: &Region, random: &mut Random) -> u32 {
    let lines: Vec<&[u8]> = terms.split(|byte| *byte == b'\n').collect();
    let edge = random.pick(&lines).split(|byte| *byte == b'\t').nth(random.between(1, 2));
    let edge = edge.and_then(|digits| std::str::from_utf8(digits).ok()?.parse().ok());
    match (edge, random.below(8)) {
        (Some(edge), 0) => u32::saturating_sub(edge, 1),
        (Some(edge), 1) => edge.saturating_add(1),
        (Some(edge), 2..=5) => edge,
        _ => region.near(random),
    }
}

/// A day: at an edge, out of range, or any.
fn day(random: &mut Random) -> u32 {
    match random.below(20) {
        0 => random.pick(&LARGE),
        1 => LAST_DAY + random.below(3) as u32,
        2..=4 => random.pick(&EDGES),
        _ => random.below(LAST_DAY as usize + 1) as u32,
    }
}

/// A date: that of a day, or one with a number that is another one, or any numbers.
fn date(random: &mut Random) -> Date {
    let (year, month, day) = of_day(day(random));
    match random.below(12) {
        0 => (year, random.pick(&[0, 13, 2, 6, u32::MAX]), day),
        1 => (year, month, random.pick(&[0, 29, 30, 31, 32, u32::MAX])),
        2 => (random.pick(&[0, 1999, 2000, 2100, 2179, 2180, u32::MAX]), month, day),
        3 => (random.bits() as u32, random.below(14) as u32, random.below(33) as u32),
        4 => (year.wrapping_add(random.pick(&LARGE)), month, day),
        _ => (year, month, day),
    }
}

/// The date of a day, or the day after the last one.
fn of_day(day: u32) -> Date {
    date_of_day(day).map_or((2179, 6, 7), |date| (date.year, date.month, date.day))
}

/// A model: mostly one of those that terms have.
fn model(random: &mut Random) -> u32 {
    match random.below(30) {
        0 => random.pick(&LARGE),
        1 => random.pick(&[0, LAST_DAY]),
        2..=4 => random.between(8, 9) as u32,
        _ => 7,
    }
}
