//! All services behind one trait, so that implementations can be asked the same questions: the second implementation,
//! the proved one, and copies of the second one with a fault planted in them.

/// A refusal's number and line.
pub type Refused = (u32, u64);

/// Labels printed, and those of them that were spoiled.
pub type Counted = (u32, u32);

/// A value; objects are numbered from 1 in the order in which they were made.
#[derive(Clone, Copy, Debug, PartialEq, Eq)]
pub enum Value {
    Null,
    Truth(bool),
    Object(u32),
}

/// How a run ended: with a value, by an exception, or at a stop.
#[derive(Clone, Copy, Debug, PartialEq, Eq)]
pub enum End {
    Value(Value),
    Exception(u32),
    Stop(u32),
}

/// The answer of a run: its end, nodes entered, objects made and changes of class.
#[derive(Clone, Copy, Debug, PartialEq, Eq)]
pub struct Ran {
    pub end: End,
    pub steps: u64,
    pub objects: u64,
    pub changes: u64,
}

/// An ended run to be counted: the source's rows, the store, how many objects were made, and the two classes.
#[derive(Clone, Debug)]
pub struct Ended {
    pub rows: Vec<u32>,
    pub store: Vec<u32>,
    pub objects: u32,
    pub printed: u32,
    pub spoiled: u32,
}

/// A fleet to be reported: six numbers a run, the programs one after another, and the stores.
#[derive(Clone, Debug, Default)]
pub struct Fleet {
    pub runs: Vec<u32>,
    pub programs: Vec<u32>,
    pub stores: Vec<u32>,
}

/// A date: year, month and day of the month.
pub type Date = (u32, u32, u32);

/// A price in cents, and the line of the term that it is from.
pub type Price = (u32, u32);

/// What a program leaves behind: its output, what it wrote to standard error, and its exit status, if it exited.
#[derive(Clone, Debug, PartialEq, Eq)]
pub struct Printed {
    pub output: Vec<u8>,
    pub errors: Vec<u8>,
    pub status: Option<i32>,
}

impl Printed {
    /// A program that printed this and ended well, as both programs do whatever their input is.
    pub fn well(output: Vec<u8>) -> Printed {
        Printed { output, errors: Vec::new(), status: Some(0) }
    }
}

/// The services of document 01, and those of document 02 that have landed.
pub trait Services: Sync {
    fn read_rows(&self, text: &[u8], rows: &mut [u32]) -> Result<usize, Refused>;
    fn write_text(&self, rows: &[u32], text: &mut [u8]) -> Result<usize, Refused>;
    fn check_rows(&self, rows: &[u32]) -> Result<(), Refused>;
    fn translate_rows(&self, rows: &[u32], plain: &mut [u32]) -> Result<usize, Refused>;
    fn run_rows(&self, rows: &[u32], fuel: u64, store: &mut [u32]) -> Result<Ran, Refused>;
    fn count_run(&self, ended: &Ended) -> Result<Counted, Refused>;
    fn count_plain_run(&self, ended: &Ended) -> Result<Counted, Refused>;
    fn rank_models(&self, counts: &[u32], report: &mut [u8]) -> Result<usize, Refused>;
    fn report_fleet(&self, fleet: &Fleet, report: &mut [u8]) -> Result<usize, Refused>;
    fn day_of_date(&self, date: Date) -> Result<u32, Refused>;
    fn date_of_day(&self, day: u32) -> Result<Date, Refused>;
    fn price_on_day(&self, terms: &[u8], model: u32, day: u32) -> Result<Option<Price>, Refused>;
    fn price_on_date(&self, terms: &[u8], model: u32, date: Date) -> Result<Option<Price>, Refused>;
    /// The report of a month, which is a year and a month.
    fn report_prices(
        &self,
        terms: &[u8],
        model: u32,
        month: (u32, u32),
        report: &mut [u8],
    ) -> Result<usize, Refused>;
}

/// The two programs of document 01, beside the services.
pub trait Programs: Services {
    /// The translating program on an input.
    fn translate(&self, input: &[u8]) -> Printed;
    /// The running program on an input.
    fn run(&self, input: &[u8]) -> Printed;
}

/// Makes a type whose services and programs are those of a crate that is this one or a copy of it.
#[macro_export]
macro_rules! services_of {
    ($name:ident, $($implementation:tt)+) => {
        pub struct $name;

        impl $crate::services::Services for $name {
            fn read_rows(&self, text: &[u8], rows: &mut [u32]) -> Result<usize, $crate::services::Refused> {
                $($implementation)+::text::read_rows(text, rows).map_err(Into::into)
            }

            fn write_text(&self, rows: &[u32], text: &mut [u8]) -> Result<usize, $crate::services::Refused> {
                $($implementation)+::text::write_text(rows, text).map_err(Into::into)
            }

            fn check_rows(&self, rows: &[u32]) -> Result<(), $crate::services::Refused> {
                $($implementation)+::check::check_rows(rows).map_err(Into::into)
            }

            fn translate_rows(
                &self,
                rows: &[u32],
                plain: &mut [u32],
            ) -> Result<usize, $crate::services::Refused> {
                $($implementation)+::plain::translate_rows(rows, plain).map_err(Into::into)
            }

            fn run_rows(
                &self,
                rows: &[u32],
                fuel: u64,
                store: &mut [u32],
            ) -> Result<$crate::services::Ran, $crate::services::Refused> {
                use $crate::services::{End, Ran, Value};
                use $($implementation)+::machine::{Outcome, Value as Given};
                let run = $($implementation)+::machine::run_rows(rows, fuel, store)?;
                let end = match run.outcome {
                    Outcome::Value(Given::Null) => End::Value(Value::Null),
                    Outcome::Value(Given::False) => End::Value(Value::Truth(false)),
                    Outcome::Value(Given::True) => End::Value(Value::Truth(true)),
                    Outcome::Value(Given::Object(object)) => End::Value(Value::Object(object)),
                    Outcome::Exception(exception) => End::Exception(exception),
                    Outcome::Stop(stop) => End::Stop(stop),
                };
                Ok(Ran { end, steps: run.steps, objects: u64::from(run.objects), changes: run.changes })
            }

            $crate::fleet_services!($($implementation)+::fleet);
            $crate::price_services!($($implementation)+::prices);
        }

        impl $crate::services::Programs for $name {
            fn translate(&self, input: &[u8]) -> $crate::services::Printed {
                $crate::services::Printed::well($($implementation)+::programs::translate(input))
            }

            fn run(&self, input: &[u8]) -> $crate::services::Printed {
                $crate::services::Printed::well($($implementation)+::programs::run(input))
            }
        }
    };
}

/// The services on fleets, by a module that has them as functions.
#[macro_export]
macro_rules! fleet_services {
    ($($from:tt)+) => {
        fn count_run(
            &self,
            ended: &$crate::services::Ended,
        ) -> Result<$crate::services::Counted, $crate::services::Refused> {
            let $crate::services::Ended { rows, store, objects, printed, spoiled } = ended;
            let counted = $($from)+::count_run(rows, store, *objects, *printed, *spoiled);
            counted.map(|labels| (labels.printed, labels.spoiled)).map_err(Into::into)
        }

        fn count_plain_run(
            &self,
            ended: &$crate::services::Ended,
        ) -> Result<$crate::services::Counted, $crate::services::Refused> {
            let $crate::services::Ended { rows, store, objects, printed, spoiled } = ended;
            let counted = $($from)+::count_plain_run(rows, store, *objects, *printed, *spoiled);
            counted.map(|labels| (labels.printed, labels.spoiled)).map_err(Into::into)
        }

        fn rank_models(
            &self,
            counts: &[u32],
            report: &mut [u8],
        ) -> Result<usize, $crate::services::Refused> {
            $($from)+::rank_models(counts, report).map_err(Into::into)
        }

        fn report_fleet(
            &self,
            fleet: &$crate::services::Fleet,
            report: &mut [u8],
        ) -> Result<usize, $crate::services::Refused> {
            let reported = $($from)+::report_fleet(&fleet.runs, &fleet.programs, &fleet.stores, report);
            reported.map_err(Into::into)
        }
    };
}

/// The services on dates and prices, by a module that has them as functions.
#[macro_export]
macro_rules! price_services {
    ($($from:tt)+) => {
        fn day_of_date(
            &self,
            (year, month, day): $crate::services::Date,
        ) -> Result<u32, $crate::services::Refused> {
            $($from)+::day_of_date(year, month, day).map_err(Into::into)
        }

        fn date_of_day(&self, day: u32) -> Result<$crate::services::Date, $crate::services::Refused> {
            let date = $($from)+::date_of_day(day);
            date.map(|date| (date.year, date.month, date.day)).map_err(Into::into)
        }

        fn price_on_day(
            &self,
            terms: &[u8],
            model: u32,
            day: u32,
        ) -> Result<Option<$crate::services::Price>, $crate::services::Refused> {
            let price = $($from)+::price_on_day(terms, model, day)?;
            Ok(price.map(|price| (price.cents, price.line)))
        }

        fn price_on_date(
            &self,
            terms: &[u8],
            model: u32,
            (year, month, day): $crate::services::Date,
        ) -> Result<Option<$crate::services::Price>, $crate::services::Refused> {
            let price = $($from)+::price_on_date(terms, model, year, month, day)?;
            Ok(price.map(|price| (price.cents, price.line)))
        }

        fn report_prices(
            &self,
            terms: &[u8],
            model: u32,
            (year, month): (u32, u32),
            report: &mut [u8],
        ) -> Result<usize, $crate::services::Refused> {
            let written = $($from)+::report_prices(terms, model, year, month, report);
            written.map_err(Into::into)
        }
    };
}

services_of!(Second, crate);
