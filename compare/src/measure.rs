//! What the benchmarks measure: the services of several implementations on the same inputs, side by side. `tables` prints
//! the tables of docs/PERFORMANCE.md, which says what their columns are; `assert_agree` compares two implementations.

mod fleets;
mod prices;

use crate::check::program;
use crate::load::{self, Load, LOADS, WORKS};
use crate::services_of_fickle;
use fickle::{
    MOST_FUEL, MOST_LINE_BYTES, MOST_OBJECTS, MOST_ROWS, MOST_TRANSLATED_ROWS, OBJECT_WIDTH, ROW_WIDTH,
};
use second::generate;
use second::random::Random;
use second::services::{Second, Services};
use std::time::Instant;

/// An implementation that is measured, and what the columns of the tables call it.
pub struct Measured {
    pub name: &'static str,
    pub services: &'static dyn Services,
}

services_of_fickle!(OnThisStack, fickle, run_rows_on_this_stack);

pub const PROVED: Measured = Measured { name: "proved", services: &OnThisStack };
pub const SECOND: Measured = Measured { name: "second", services: &Second };

/// Room for the longest text, for the longest program, and for the most objects that a run makes.
const TEXT_ROOM: usize = MOST_ROWS * MOST_LINE_BYTES;
const ROW_ROOM: usize = MOST_ROWS * ROW_WIDTH;
const STORE_ROOM: usize = MOST_OBJECTS * OBJECT_WIDTH;
/// The fuel of short programs: more than they need.
const SHORT_FUEL: u64 = 10_000;
/// The fuel of long runs.
const LONG_FUEL: [u64; 2] = [10_000_000, MOST_FUEL];
/// How often each implementation has its turn in a measurement.
const TURNS: usize = 5;
/// Rounds of a measurement: of reader and writer, of the translator, of short programs.
const TEXT_ROUNDS: usize = 100;
const TRANSLATED_ROUNDS: usize = 2_000;
const SHORT_ROUNDS: usize = 100;
/// Calls in a round of a short program: one call is too short for the clock.
const SHORT_CALLS: usize = 100;
/// Rows of all rounds of the check together.
const CHECKED_IN_ALL: usize = 2_000_000;
/// Nodes of all rounds of a long run together, and the most rounds of one.
const RUN_IN_ALL: usize = 200_000_000;
const RUN_ROUNDS: usize = 100;
const MILLION: f64 = 1e6;

/// The mean of each implementation's times in a table, where the first implementation's is 1.
pub type Means = Vec<f64>;

/// What measures and prints a table, and returns its means.
pub type Measure = fn(&[Measured]) -> Means;

/// All tables, each with its name.
pub const TABLES: [(&str, Measure); 8] = [
    ("reader and writer", text),
    ("check", check),
    ("translator", translate),
    ("runner, long runs", run),
    ("short programs", short_programs),
    ("reports over fleets", fleets::reports),
    ("rankings", fleets::ranks),
    ("prices", prices::prices),
];

/// Prints all tables and returns their means, each with the table's name. The first implementation is the one that the
/// others are compared with.
pub fn tables(all: &[Measured]) -> [(&'static str, Means); 8] {
    TABLES.map(|(name, measure)| (name, measure(all)))
}

/// Prints a table of means: for each pair of implementations, how long the one takes in times of the other.
pub fn summary(all: &[Measured], means: &[(&str, Means)], pairs: &[(usize, usize)]) {
    let head = pairs.iter().map(|(one, other)| format!(" {} ÷ {} |", all[*one].name, all[*other].name));
    println!("\n| means |{}\n|---{}|", head.collect::<String>(), "|---".repeat(pairs.len()));
    for (name, mean) in means {
        let cells = pairs.iter().map(|(one, other)| format!(" {:.2} |", mean[*one] / mean[*other]));
        println!("| {name} |{}", cells.collect::<String>());
    }
}

/// Returns the best time of one call of each implementation, in seconds. A round is `calls` calls in a row, after which
/// the clock is read. Implementations take turns, so that other work on the machine does not slow down only one of them.
fn times(all: &[Measured], rounds: usize, calls: usize, mut task: impl FnMut(&dyn Services)) -> Vec<f64> {
    let mut best = vec![f64::INFINITY; all.len()];
    for _ in 0..TURNS {
        for (one, best) in all.iter().zip(&mut best) {
            for _ in 0..rounds.div_ceil(TURNS) {
                let start = Instant::now();
                for _ in 0..calls {
                    task(one.services);
                }
                *best = best.min(start.elapsed().as_secs_f64() / calls as f64);
            }
        }
    }
    best
}

/// A table with columns of its own, values of the first and the last implementation, and the time of each implementation
/// but the first divided by the time of the first.
struct Table<'a> {
    all: &'a [Measured],
    own: usize,
    /// The ratios of each line.
    ratios: Vec<Vec<f64>>,
}

impl<'a> Table<'a> {
    /// Prints the head of a table.
    fn new(own: &[&str], unit: &str, all: &'a [Measured]) -> Table<'a> {
        let (first, last) = (all[0].name, all[all.len() - 1].name);
        let mut cells: Vec<String> = own.iter().map(|cell| cell.to_string()).collect();
        cells.extend([first, last].map(|name| format!("{name}, {unit}")));
        cells.extend(all[1..].iter().map(|services| format!("{} ÷ {first}", services.name)));
        println!("\n| {} |\n{}|", cells.join(" | "), "|---".repeat(cells.len()));
        Table { all, own: own.len(), ratios: Vec::new() }
    }

    /// Prints a line.
    fn line(&mut self, own: &[&str], times: &[f64], value: impl Fn(f64) -> String) {
        let ratios: Vec<f64> = times[1..].iter().map(|time| time / times[0]).collect();
        let mut cells: Vec<String> = own.iter().map(|cell| cell.to_string()).collect();
        cells.extend([value(times[0]), value(times[times.len() - 1])]);
        cells.extend(ratios.iter().map(|ratio| format!("{ratio:.2}")));
        println!("| {} |", cells.join(" | "));
        self.ratios.push(ratios);
    }

    /// Prints the last line, the geometric means of the ratios, and returns them after the first implementation's 1.
    fn means(&self) -> Means {
        let mean = |column: usize| {
            let sum: f64 = self.ratios.iter().map(|line| line[column].ln()).sum();
            (sum / self.ratios.len() as f64).exp()
        };
        let means: Means = (0..self.all.len() - 1).map(mean).collect();
        let cells: String = means.iter().map(|mean| format!(" {mean:.2} |")).collect();
        println!("| geometric mean |{}{cells}", " |".repeat(self.own + 1));
        [vec![1.0], means].concat()
    }
}

fn in_microseconds(time: f64) -> String {
    format!("{:.1}", time * MILLION)
}

/// Reader and writer, in megabytes a second.
fn text(all: &[Measured]) -> Means {
    let rows = crate::long_rows();
    let mut text = vec![0; TEXT_ROOM];
    let length = all[0].services.write_text(&rows, &mut text).expect("the rows are well formed");
    let text = &text[..length];
    let mut row_buffer = vec![0; rows.len()];
    let mut text_buffer = vec![0; length];
    println!("{} lines, {length} bytes", rows.len() / ROW_WIDTH);
    let mut table = Table::new(&["service"], "MB/s", all);
    let rate = |time: f64| format!("{:.0}", length as f64 / MILLION / time);
    let read = times(all, TEXT_ROUNDS, 1, |one| assert!(one.read_rows(text, &mut row_buffer).is_ok()));
    table.line(&["read_rows"], &read, rate);
    let written = times(all, TEXT_ROUNDS, 1, |one| assert!(one.write_text(&rows, &mut text_buffer).is_ok()));
    table.line(&["write_text"], &written, rate);
    table.means()
}

/// Accepted programs for the check, each with its name.
fn checked_programs() -> Vec<(String, Vec<u32>)> {
    let sizes = [100, 5_000, 30_000, 60_000];
    let of_load = |load: Load| sizes.map(|count| (format!("{load:?}"), load::checked(load, count)));
    LOADS.into_iter().flat_map(of_load).collect()
}

/// The check on accepted programs of several sizes.
fn check(all: &[Measured]) -> Means {
    let mut table = Table::new(&["check_rows", "rows"], "µs", all);
    for (name, rows) in checked_programs() {
        let count = rows.len() / ROW_WIDTH;
        let best = times(all, CHECKED_IN_ALL / count, 1, |one| assert!(one.check_rows(&rows).is_ok()));
        table.line(&[&name, &count.to_string()], &best, in_microseconds);
    }
    table.means()
}

/// Programs of the most rows that the translator takes, each with its name. The last has the longest translation.
fn translated_programs() -> Vec<(String, Vec<u32>)> {
    let of_load = |load: Load| (format!("{load:?}"), load::checked(load, MOST_TRANSLATED_ROWS));
    let changes = ("660 R, 16 fields".to_string(), load::longest_translation());
    [Load::Choices, Load::Calls].map(of_load).into_iter().chain([changes]).collect()
}

/// The translator on programs of 680 rows.
fn translate(all: &[Measured]) -> Means {
    let mut table = Table::new(&["translate_rows", "rows", "plain rows"], "µs", all);
    let mut plain = vec![0; ROW_ROOM];
    for (name, rows) in translated_programs() {
        let count = all[0].services.translate_rows(&rows, &mut plain).expect("within the limits");
        let best = times(all, TRANSLATED_ROUNDS, 1, |one| {
            assert_eq!(one.translate_rows(&rows, &mut plain), Ok(count));
        });
        let counts = [rows.len() / ROW_WIDTH, count].map(|count| count.to_string());
        table.line(&[&name, &counts[0], &counts[1]], &best, in_microseconds);
    }
    table.means()
}

/// Programs that run until the fuel is spent or the store is full, each with its name and fuel.
fn long_runs() -> Vec<(String, Vec<u32>, u64)> {
    let mut runs = Vec::new();
    for work in WORKS {
        runs.extend(LONG_FUEL.map(|fuel| (format!("{work:?}"), load::long_run(work), fuel)));
    }
    for size in [1, 100, 50_000] {
        let name = format!("calls beside untaken arms of {size} rows");
        runs.push((name, load::untaken(size), LONG_FUEL[0]));
    }
    runs
}

/// The runner, in million nodes a second: on two amounts of fuel, and beside arms that are not taken.
fn run(all: &[Measured]) -> Means {
    let mut table = Table::new(&["run_rows", "nodes"], "million/s", all);
    let mut store = vec![0; STORE_ROOM];
    for (name, rows, fuel) in long_runs() {
        let ran = all[0].services.run_rows(&rows, fuel, &mut store).expect("accepted");
        let nodes = ran.steps as usize;
        let rounds = (RUN_IN_ALL / nodes).clamp(TURNS, RUN_ROUNDS);
        let best = times(all, rounds, 1, |one| assert_eq!(one.run_rows(&rows, fuel, &mut store), Ok(ran)));
        let rate = |time: f64| format!("{:.0}", nodes as f64 / MILLION / time);
        table.line(&[&name, &nodes.to_string()], &best, rate);
    }
    table.means()
}

/// Programs of a few rows, each with its name.
fn few_rows() -> [(&'static str, Vec<u32>); 2] {
    [("program D", load::program_d()), ("labels.rules", load::shipped_rules())]
}

/// The three services on programs of a few rows, and the runs of their translations.
fn short_programs(all: &[Measured]) -> Means {
    let mut table = Table::new(&["program", "service", "rows"], "µs", all);
    let mut plain = vec![0; ROW_ROOM];
    let mut store = vec![0; STORE_ROOM];
    for (name, rows) in few_rows() {
        let length = all[0].services.translate_rows(&rows, &mut plain).expect("within the limits");
        let translated = plain[..length * ROW_WIDTH].to_vec();
        let check = |one: &dyn Services| assert!(one.check_rows(&rows).is_ok());
        short(&mut table, [name, "check_rows"], &rows, check);
        let translate = |one: &dyn Services| assert!(one.translate_rows(&rows, &mut plain).is_ok());
        short(&mut table, [name, "translate_rows"], &rows, translate);
        let run = |one: &dyn Services| assert!(one.run_rows(&rows, SHORT_FUEL, &mut store).is_ok());
        short(&mut table, [name, "run_rows"], &rows, run);
        let run = |one: &dyn Services| assert!(one.run_rows(&translated, SHORT_FUEL, &mut store).is_ok());
        short(&mut table, [name, "run_rows of its translation"], &translated, run);
    }
    table.means()
}

/// A service on a program of a few rows.
fn short(table: &mut Table, [name, service]: [&str; 2], rows: &[u32], task: impl FnMut(&dyn Services)) {
    let best = times(table.all, SHORT_ROUNDS, SHORT_CALLS, task);
    table.line(&[name, service, &(rows.len() / ROW_WIDTH).to_string()], &best, in_microseconds);
}

/// How many generated programs and texts two implementations have to agree on.
const AGREED: u64 = 5_000;
/// Numbers in the buffers lent for generated programs: enough for most, too few for some.
const PLAIN_LENT: usize = 2_000 * ROW_WIDTH;
const STORE_LENT: usize = 100 * OBJECT_WIDTH + 5;
/// What the buffers hold before, so that it shows where nothing was written.
const JUNK: u32 = 0xABCD;

/// Panics unless two implementations with the interface of `fickle` give the same answers and leave the same buffers, on
/// all inputs of the benchmark and on generated ones.
pub fn assert_agree(one: &Measured, other: &Measured) {
    let pair = [one.services, other.services];
    assert_texts_agree(pair, &crate::long_rows());
    for (name, rows) in checked_programs().into_iter().chain(translated_programs()) {
        assert_programs_agree(pair, &name, &rows, ROW_ROOM, 0);
    }
    for (name, rows) in few_rows() {
        assert_programs_agree(pair, name, &rows, ROW_ROOM, SHORT_FUEL);
    }
    for (name, rows, fuel) in long_runs() {
        assert_runs_agree(pair, &name, &rows, fuel, STORE_ROOM);
    }
    fleets::assert_fleets_agree(pair);
    prices::assert_prices_agree(pair);
    let mut random = Random::new(1);
    for case in 0..AGREED {
        let fuel = random.below(300) as u64;
        assert_programs_agree(pair, &format!("program {case}"), &program(&mut random), PLAIN_LENT, fuel);
        assert_texts_agree(pair, &generate::row_buffer(&mut random));
        let text = generate::text(&mut random);
        let read = |services: &dyn Services| left(PLAIN_LENT, JUNK, |rows| services.read_rows(&text, rows));
        assert_same("read_rows", &format!("text {case}"), pair.map(read));
    }
    println!("{} and {} agree on the benchmark's inputs and {AGREED} programs", one.name, other.name);
}

/// Panics unless rows are written alike, and what was written is read alike.
fn assert_texts_agree(pair: [&dyn Services; 2], rows: &[u32]) {
    let written = pair.map(|services| left(TEXT_ROOM, 0, |text: &mut [u8]| services.write_text(rows, text)));
    let text = written[0].1[..written[0].0.unwrap_or(0)].to_vec();
    assert_same("write_text", "rows", written);
    let read = pair.map(|services| left(ROW_ROOM, JUNK, |rows| services.read_rows(&text, rows)));
    assert_same("read_rows", "what was written", read);
}

/// Panics unless a program is checked, translated and run alike.
fn assert_programs_agree(pair: [&dyn Services; 2], name: &str, rows: &[u32], lent: usize, fuel: u64) {
    assert_same("check_rows", name, pair.map(|services| services.check_rows(rows)));
    let plain = pair.map(|services| left(lent, JUNK, |plain| services.translate_rows(rows, plain)));
    assert_same("translate_rows", name, plain);
    assert_runs_agree(pair, name, rows, fuel, STORE_LENT);
}

/// Panics unless a program runs alike.
fn assert_runs_agree(pair: [&dyn Services; 2], name: &str, rows: &[u32], fuel: u64, lent: usize) {
    let run = |services: &dyn Services| left(lent, JUNK, |store| services.run_rows(rows, fuel, store));
    assert_same("run_rows", name, pair.map(run));
}

/// Returns what a service answers, and the buffer that it was lent.
fn left<T: Copy, A>(length: usize, junk: T, service: impl FnOnce(&mut [T]) -> A) -> (A, Vec<T>) {
    let mut lent = vec![junk; length];
    (service(&mut lent), lent)
}

/// Panics where two answers differ.
fn assert_same<A: PartialEq>(service: &str, input: &str, [one, other]: [A; 2]) {
    assert!(one == other, "{service} of {input}: the answers differ");
}
