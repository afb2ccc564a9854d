//! What the benchmark measures of fleets: the report over many runs, and rankings of counted lines.

use super::{assert_same, left, times, Means, Measured, Table, JUNK, TURNS};
use crate::load;
use fickle::MOST_MODEL_BYTES;
use second::fleet::LINE_WIDTH;
use second::rows::{OBJECT_WIDTH, ROW_WIDTH};
use second::services::{Fleet, Services};

/// The fleets: count of runs, rows of each, labels of each.
const FLEETS: [(u32, usize, u32); 3] = [(10_000, 15, 2), (100_000, 15, 2), (10_000, 500, 50)];
/// How many models the runs have.
const MODELS: [u32; 3] = [100, 1_000, 10_000];
/// Counted lines of a ranking.
const LINES: [u32; 2] = [10_000, 100_000];
/// Steps through models and costs that meet all of them in no order.
const MODEL_STEP: u32 = 7_919;
const COST_STEP: u32 = 31;
const COSTS: u32 = 977;

/// A fleet of the benchmark.
struct Case {
    runs: u32,
    rows: usize,
    labels: u32,
    models: u32,
    /// Whether all runs have the same rows. If not, no run has those of the run before.
    equal: bool,
}

impl Case {
    fn all() -> Vec<Case> {
        let of = |equal: bool| {
            FLEETS.into_iter().flat_map(move |(runs, rows, labels)| {
                MODELS.map(|models| Case { runs, rows, labels, models, equal })
            })
        };
        of(false).chain(of(true)).collect()
    }

    fn fleet(&self) -> Fleet {
        let mut fleet = Fleet::default();
        for run in 0..self.runs {
            let rows = load::labels(if self.equal { 0 } else { run % 2 }, self.rows);
            let count = (rows.len() / ROW_WIDTH) as u32;
            let [model, cents] = model_and_cents(run, self.models);
            fleet.runs.extend([model, count, self.labels, 1, 2, cents]);
            fleet.programs.extend(rows);
            for label in 0..self.labels {
                let class = if (run + label).is_multiple_of(5) { 2 } else { 1 };
                fleet.stores.extend([&[class][..], &[0; OBJECT_WIDTH - 1]].concat());
            }
        }
        fleet
    }
}

/// A model, and cents that differ from run to run.
fn model_and_cents(run: u32, models: u32) -> [u32; 2] {
    [run.wrapping_mul(MODEL_STEP) % models, 1_000 + run.wrapping_mul(COST_STEP) % COSTS]
}

/// So many counted lines.
fn counted_lines(lines: u32, models: u32) -> Vec<u32> {
    let line = |place: u32| {
        let [model, cents] = model_and_cents(place, models);
        [model, 1 + place % 50, place % 3 % (1 + place % 50), cents]
    };
    (0..lines).flat_map(line).collect()
}

/// The rankings of the benchmark: counted lines, and how many models they have.
fn rankings() -> Vec<(Vec<u32>, u32)> {
    let of_lines = |lines| MODELS.map(|models| (counted_lines(lines, models), models));
    LINES.into_iter().flat_map(of_lines).collect()
}

fn in_milliseconds(time: f64) -> String {
    format!("{:.2}", time * 1e3)
}

/// The report over fleets, with other rows in each run and with the same ones.
pub fn reports(all: &[Measured]) -> Means {
    let mut table = Table::new(&["report_fleet", "runs", "rows of each", "models"], "ms", all);
    for case in Case::all() {
        let fleet = case.fleet();
        let mut report = vec![0; MOST_MODEL_BYTES * case.models as usize];
        let best = times(all, TURNS, 1, |one| assert!(one.report_fleet(&fleet, &mut report).is_ok()));
        let name = if case.equal { "equal rows" } else { "other rows in each run" };
        let numbers = [case.runs as usize, case.rows, case.models as usize].map(|number| number.to_string());
        table.line(&[name, &numbers[0], &numbers[1], &numbers[2]], &best, in_milliseconds);
    }
    table.means()
}

/// Rankings of counted lines.
pub fn ranks(all: &[Measured]) -> Means {
    let mut table = Table::new(&["rank_models", "models"], "ms", all);
    for (counts, models) in rankings() {
        let mut report = vec![0; MOST_MODEL_BYTES * models as usize];
        let best = times(all, TURNS, 1, |one| assert!(one.rank_models(&counts, &mut report).is_ok()));
        let lines = format!("{} lines", counts.len() / LINE_WIDTH);
        table.line(&[&lines, &models.to_string()], &best, in_milliseconds);
    }
    table.means()
}

/// Panics unless two implementations report and rank alike on all inputs of the benchmark.
pub fn assert_fleets_agree(pair: [&dyn Services; 2]) {
    for case in Case::all() {
        let (fleet, lent) = (case.fleet(), MOST_MODEL_BYTES * case.models as usize);
        let report = |one: &dyn Services| left(lent, JUNK as u8, |report| one.report_fleet(&fleet, report));
        assert_same("report_fleet", "a fleet", pair.map(report));
    }
    for (counts, models) in rankings() {
        let lent = MOST_MODEL_BYTES * models as usize;
        let rank = |one: &dyn Services| left(lent, JUNK as u8, |report| one.rank_models(&counts, report));
        assert_same("rank_models", "counted lines", pair.map(rank));
    }
}
