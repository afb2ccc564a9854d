//! The cases that the gate compares: for each service and program those at its limits, and generated ones by seed.

use crate::cases::{Answer, Case};
use crate::{check, fleet, prices, programs, run, text, translate};
use fickle::{Exception, Reason, Stop, MOST_ROWS, ROW_WIDTH};
use second::random::Random;
use second::vectors::{self, prices::Asked as Priced, Asked};

/// Cases of one service or program.
pub struct Series {
    pub name: &'static str,
    /// One seed is tried for so many that are asked for.
    pub sparse: u64,
    /// Cases that are tried whatever the seeds are.
    pub fixed: fn() -> Vec<Case>,
    /// The cases of one seed.
    pub generated: fn(&mut Random) -> Vec<Case>,
    /// The answers that must come among the generated cases, where enough of them are tried.
    pub wanted: Vec<Answer>,
}

/// How many seeds the gate asks for; every wanted answer comes among so many.
pub const SEEDS: u64 = 100_000;

/// All series, in two halves of about the same length.
pub fn halves() -> [Vec<Series>; 2] {
    use Reason::*;
    let result_or = |all: &[Reason]| {
        let refusals = all.iter().copied().map(Answer::Refused);
        std::iter::once(Answer::Result).chain(refusals).collect::<Vec<_>>()
    };
    let or_none = |all: &[Reason]| [result_or(all), vec![Answer::None]].concat();
    let filling = || result_or(&[Line, Limit, Room]);
    let verdict =
        || result_or(&[Line, Limit, Place, Name, Kind, Override, Slot, Member, Type, Effect, Change]);
    let stops = Stop::ALL.map(Answer::Stopped);
    let cut = [Stop::Spent, Stop::Deep].map(Answer::Stopped);
    let exceptions = Exception::ALL.map(Answer::Exception);
    // What the programs' generated texts surely bring about; the pinned ones bring about the rest.
    let often = || result_or(&[Line, Limit, Place, Name, Reserved, Room]);
    let series = |name, sparse, fixed, generated, wanted| Series { name, sparse, fixed, generated, wanted };
    let none = Vec::new;
    [
        vec![
            series("read_rows", 1, none, text::reading, filling()),
            series("write_text", 1, none, text::writing, filling()),
            series("check_rows", 1, check::limits, check::checking, verdict()),
            series("count_run", 1, none, fleet::counting, result_or(&[Class])),
            series("count_plain_run", 1, none, fleet::counting_plain, result_or(&[Class])),
            series("report_fleet", 1, none, fleet::reporting, result_or(&[Line, Room, Sum, Class])),
            series("day_of_date", 1, prices::dates, prices::dating, result_or(&[Date])),
            series("date_of_day", 1, prices::days, prices::numbering, result_or(&[Date])),
            series("price_on_day", 1, none, prices::pricing, or_none(&[Line, Term, Date])),
            series("price_on_date", 1, none, prices::pricing_by_date, or_none(&[Line, Term, Date])),
            series("vectors", u64::MAX, of_vectors, |_| Vec::new(), Vec::new()),
            series("program translate", 50, programs::pinned_translating, programs::translating, often()),
            series(
                "program run",
                50,
                programs::pinned_running,
                programs::running,
                [&often()[..], &cut, &exceptions].concat(),
            ),
        ],
        vec![
            series(
                "translate_rows",
                1,
                translate::limits,
                translate::translating,
                [verdict(), [Reserved, Room].map(Answer::Refused).to_vec()].concat(),
            ),
            series("run_rows", 1, run::limits, run::running, [&verdict()[..], &stops, &exceptions].concat()),
            series("run_rows, every fuel", 100, none, run::every_fuel, Vec::new()),
            series("rank_models", 1, fleet::many_models, fleet::ranking, result_or(&[Line, Room, Sum])),
            series(
                "report_prices",
                1,
                prices::months,
                prices::reporting,
                result_or(&[Line, Room, Term, Date]),
            ),
        ],
    ]
}

/// The cases of the files of vectors, without their expected answers.
fn of_vectors() -> Vec<Case> {
    let vectors = vectors::all().expect("files of vectors");
    vectors
        .iter()
        .filter_map(|vector| match vector.service() {
            "check" => Some(Case::Check { rows: vector.rows() }),
            "translate" => {
                Some(Case::Translate { rows: vector.rows(), plain: vec![9; MOST_ROWS * ROW_WIDTH] })
            }
            "run" => {
                let store = vec![9; vector.store()];
                Some(Case::Run { rows: vector.rows(), fuel: vector.fuel(), store })
            }
            "read" => Some(Case::Read { text: vector.text(), rows: vec![9; MOST_ROWS * ROW_WIDTH] }),
            "running" => Some(Case::RunningProgram { text: vector.text() }),
            "translating" => Some(Case::TranslatingProgram { text: vector.text() }),
            _ => {
                vector.prices().map(of_prices).or(vector.report().map(|(asked, room)| match asked.clone() {
                    Asked::Fleet(fleet) => Case::Report { fleet, report: vec![9; room] },
                    Asked::Rank(counts) => Case::Rank { counts, report: vec![9; room] },
                }))
            }
        })
        .collect()
}

/// The case of what is asked of the calendar or of terms.
fn of_prices(asked: &Priced) -> Case {
    match asked.clone() {
        Priced::DayOfDate(date) => Case::DayOfDate(date),
        Priced::DateOfDay(day) => Case::DateOfDay(day),
        Priced::PriceOnDay { terms, model, day } => Case::PriceOnDay { terms, model, day },
        Priced::PriceOnDate { terms, model, date } => Case::PriceOnDate { terms, model, date },
        Priced::Report { terms, model, month, room } => {
            Case::PriceReport { terms, model, month, report: vec![9; room] }
        }
    }
}
