//! `sigvolar report`: the table of a fleet, printer model and cents per good label. Order and figures are those of the
//! report that the proved service wrote.

mod page;
mod table;

use crate::arguments::{Argument, Arguments};
use crate::count::{cut, BOTH_FROM_INPUT};
use crate::fleet::costs::Costs;
use crate::fleet::runs::{Ended, Runs, Taken};
use crate::fleet::{why, Fleet, Limits, Run};
use crate::input::{reason, same_file};
use crate::lines::{told, No};
use crate::names::Names;
use crate::output::{print, print_bytes, say};
use crate::progress::Progress;
use crate::terms::Terms;
use crate::{Status, Trouble};
use fickle::{fleet_report, Outcome, OBJECT_WIDTH, ROW_WIDTH};
use std::ffi::{OsStr, OsString};
use table::Table;

/// A class that no program declares: a run whose store holds it is refused.
const UNDECLARED: u32 = u32::MAX;

/// What is asked for.
struct Asked<'a> {
    fleet: &'a OsStr,
    names: Option<&'a OsStr>,
    prices: Option<&'a OsStr>,
    limits: Limits,
    full: bool,
    tsv: bool,
    html: Option<&'a OsStr>,
}

pub fn command(rest: &[OsString]) -> Result<Status, Trouble> {
    let asked = asked(rest)?;
    told(reported(&asked))
}

fn asked(rest: &[OsString]) -> Result<Asked<'_>, Trouble> {
    let mut arguments = Arguments::new("report", rest);
    let nothing = OsStr::new("");
    let mut asked = Asked {
        fleet: nothing,
        names: None,
        prices: None,
        limits: Limits::GIVEN,
        full: false,
        tsv: false,
        html: None,
    };
    let mut files = Vec::new();
    while let Some(argument) = arguments.next() {
        match argument {
            Argument::File(file) => files.push(file),
            Argument::Option(option, given) => match &*option {
                "--fuel" => asked.limits.fuel = arguments.number("--fuel", given)?,
                "--objects" => asked.limits.objects = arguments.number("--objects", given)?,
                "--names" => asked.names = Some(arguments.value("--names", given)?),
                "--prices" => asked.prices = Some(arguments.value("--prices", given)?),
                "--html" => asked.html = Some(arguments.value("--html", given)?),
                "--full" if given.is_none() => asked.full = true,
                "--tsv" if given.is_none() => asked.tsv = true,
                _ => return Err(arguments.no_such_option(&option)),
            },
        }
    }
    asked.limits.check(&arguments)?;
    if asked.tsv && asked.html.is_none() && (asked.full || asked.names.is_some()) {
        return Err(
            arguments.trouble("--tsv prints the report as it is; --full and --names are for the table")
        );
    }
    if asked.html.is_some_and(OsStr::is_empty) {
        return Err(arguments.trouble("--html needs the name of a file"));
    }
    match files[..] {
        [fleet] if fleet == "-" && asked.prices.is_some_and(|prices| prices == "-") => {
            Err(arguments.trouble(BOTH_FROM_INPUT))
        }
        [fleet] => Ok(Asked { fleet, ..asked }),
        _ => Err(arguments.trouble("one fleet is needed, or - for standard input")),
    }
}

fn reported(asked: &Asked) -> Result<Status, No> {
    let fleet = Fleet::read(asked.fleet)?;
    let names = asked.names.map_or_else(|| Ok(Names::default()), Names::read)?;
    let costs = Costs::new(asked.prices.map(Terms::read).transpose()?, &fleet)?;
    if let Some(html) = asked.html {
        keep_inputs(html, asked, &fleet)?;
    }
    let progress = Progress::start(format!("{}: running", fleet.name));
    let slices = Slices::of(&fleet, asked.limits, costs)?;
    let report = slices.report(&fleet)?;
    drop(progress);
    let table = Table::of(&report, &names, asked.full);
    if let Some(html) = asked.html {
        write_page(html, &page::page(&table, &slices.notes_by_line()))?;
    }
    if fleet.runs.is_empty() {
        say(&format!("{}: there are no runs, so there is no table", fleet.name));
        return Ok(Status::Well);
    }
    let notes: String =
        slices.notes.iter().map(|(line, note)| format!("{}:{line}: {note}\n", fleet.name)).collect();
    if asked.tsv {
        say_all(&notes);
        return Ok(print_bytes(&report)?);
    }
    let below = if notes.is_empty() { String::new() } else { format!("\n{notes}") };
    Ok(print(&format!("{}{below}", table.text()))?)
}

fn say_all(notes: &str) {
    notes.lines().for_each(say);
}

/// What the service takes of a fleet, and what is to be said of its runs.
#[derive(Default)]
struct Slices<'a> {
    runs: Vec<u32>,
    programs: Vec<u32>,
    stores: Vec<u32>,
    taken: Vec<(&'a Run, Taken)>,
    /// Lines of runs that did not end in a value, each with a sentence.
    notes: Vec<(usize, String)>,
    /// What is said of the first run that was cut or has no price: those after it are not made.
    ended: Option<String>,
}

impl<'a> Slices<'a> {
    fn of(fleet: &'a Fleet, limits: Limits, mut costs: Costs) -> Result<Slices<'a>, No> {
        let (mut runs, mut slices) = (Runs::new(limits), Slices::default());
        for run in &fleet.runs {
            let taken = match runs.ended(fleet, run)? {
                Ended::Counts(taken) => taken,
                Ended::Cut { stop, labels } => {
                    slices.ended = Some(cut(fleet, run, stop, labels, limits));
                    break;
                }
            };
            match costs.of_run(fleet, run, &taken) {
                Ok(cents) => slices.add(run, taken, cents),
                Err(No::Refused(sentence)) => {
                    slices.ended = Some(sentence);
                    break;
                }
                Err(trouble) => return Err(trouble),
            }
        }
        Ok(slices)
    }

    /// Adds a run. A plain store enters as the labels that are counted in it: objects of the printed and of the spoiled
    /// class; where they cannot be counted, as an object of a class that no program has.
    fn add(&mut self, run: &'a Run, taken: Taken, cents: u32) {
        let before = self.stores.len();
        if taken.plain {
            let mut label = |class| self.stores.extend([&[class][..], &[0; OBJECT_WIDTH - 1]].concat());
            match taken.labels(run) {
                Ok(labels) => {
                    (labels.spoiled..labels.printed).for_each(|_| label(run.printed));
                    (0..labels.spoiled).for_each(|_| label(run.spoiled));
                }
                Err(_) => label(UNDECLARED),
            }
        } else {
            self.stores.extend_from_slice(&taken.store);
        }
        let objects = ((self.stores.len() - before) / OBJECT_WIDTH) as u32;
        let rows = (taken.rows.len() / ROW_WIDTH) as u32;
        self.runs.extend([run.model, rows, objects, run.printed, run.spoiled, cents]);
        self.programs.extend_from_slice(&taken.rows);
        if let Some(outcome) = taken.unusual {
            self.notes.push((run.line, unusual(outcome)));
        }
        self.taken.push((run, taken));
    }

    /// The report of all runs; or why there is none: the first run that is refused, else what ended the list before its
    /// end.
    fn report(&self, fleet: &Fleet) -> Result<Vec<u8>, No> {
        let report = fleet_report(&self.runs, &self.programs, &self.stores).map_err(|refusal| {
            let place = (refusal.line as usize).checked_sub(1).and_then(|place| self.taken.get(place));
            No::Refused(match place {
                Some((run, taken)) => why::refused(fleet, run, taken, refusal),
                None => refusal.to_string(),
            })
        })?;
        match &self.ended {
            Some(sentence) => Err(No::Refused(sentence.clone())),
            None => Ok(report),
        }
    }

    /// The notes for a page, which names no file.
    fn notes_by_line(&self) -> Vec<String> {
        self.notes.iter().map(|(line, note)| format!("Line {line}: {note}.")).collect()
    }
}

/// What is said of a run that did not end in a value.
fn unusual(outcome: Outcome) -> String {
    let how = match outcome {
        Outcome::Stop(stop) => format!("stopped ({}, {})", stop.number(), stop.word()),
        Outcome::Exception(exception) => format!("ended in exception {}", exception.number()),
        Outcome::Value(_) => "ended in a value".to_string(),
    };
    format!("the run {how}; its labels count as they were then")
}

/// Refuses a page that would overwrite what it is made from.
fn keep_inputs(html: &OsStr, asked: &Asked, fleet: &Fleet) -> Result<(), Trouble> {
    let stores = fleet.runs.iter().filter_map(|run| run.store.as_ref()).map(|store| store.path.as_os_str());
    let rules = fleet.runs.iter().map(|run| run.rules.as_os_str());
    let given = [Some(asked.fleet), asked.names, asked.prices].into_iter().flatten();
    let mut inputs = given.chain(rules).chain(stores);
    match inputs.find(|input| same_file(html, input)) {
        Some(input) => Err(Trouble(format!("the page would overwrite {}.", input.to_string_lossy()))),
        None => Ok(()),
    }
}

/// Writes a page beside its place, then renames it, so that no half page is ever seen.
fn write_page(file: &OsStr, page: &str) -> Result<(), Trouble> {
    let mut part = file.to_os_string();
    part.push(format!(".{}.part", std::process::id()));
    let written = std::fs::write(&part, page).and_then(|()| std::fs::rename(&part, file));
    written.map_err(|error| {
        let _ = std::fs::remove_file(&part);
        Trouble(format!("cannot write {}: {}.", file.to_string_lossy(), reason(&error)))
    })
}
