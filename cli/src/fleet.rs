//! Fleets: a file with a run a line, its rules and store, and what the services take of it.

pub mod costs;
pub mod runs;
pub mod why;

use crate::arguments::Arguments;
use crate::lines::{lines, number, read, read_input, wrong, Line, No, STANDARD_INPUT};
use crate::terms::{When, WHEN};
use crate::Trouble;
use fickle::{Stop, MOST_FUEL, MOST_OBJECTS, MOST_SOURCE_FUEL};
use std::ffi::OsStr;
use std::path::{Path, PathBuf};

/// Fuel where none is given: as much as a plain program is promised to end alike on.
pub const FUEL: u64 = MOST_SOURCE_FUEL;

/// What a store's name begins with where a plain run left it.
const PLAIN: &str = "plain:";

/// What the cents of a run begin with where they are a date.
const DATED: char = '@';

/// A fleet as its file has it.
pub struct Fleet {
    pub name: String,
    pub runs: Vec<Run>,
}

/// A line of a fleet.
pub struct Run {
    /// The number of the line.
    pub line: usize,
    pub model: u32,
    pub rules: PathBuf,
    pub printed: u32,
    pub spoiled: u32,
    pub cents: Cents,
    /// Where the run ended elsewhere.
    pub store: Option<StoreFile>,
}

/// What a run costs: so many cents, or its labels at their price on a date.
#[derive(Clone, Copy)]
pub enum Cents {
    Given(u32),
    On(When),
}

/// The store of a run that ended elsewhere.
pub struct StoreFile {
    pub path: PathBuf,
    pub plain: bool,
}

/// Fuel of the runs that are made here, and how many objects they have room for.
#[derive(Clone, Copy)]
pub struct Limits {
    pub fuel: u64,
    pub objects: usize,
}

impl Limits {
    pub const GIVEN: Limits = Limits { fuel: FUEL, objects: MOST_OBJECTS };

    /// Refuses what no run can have.
    pub fn check(&self, arguments: &Arguments) -> Result<(), Trouble> {
        if self.fuel > MOST_FUEL {
            return Err(arguments.trouble(&format!("a run may have at most {MOST_FUEL} fuel")));
        }
        if self.objects > MOST_OBJECTS {
            return Err(arguments.trouble(&format!("a store holds at most {MOST_OBJECTS} objects")));
        }
        Ok(())
    }

    /// What to do about a run that was stopped.
    pub fn advice(&self, stop: Stop) -> &'static str {
        match stop {
            Stop::Full if self.objects < MOST_OBJECTS => "raise --objects",
            Stop::Full => "no store holds more objects, so let it be several runs",
            _ if self.fuel < MOST_FUEL => "raise --fuel",
            _ => "no run may have more fuel, so let it be several runs",
        }
    }
}

impl Fleet {
    /// Reads a fleet from a file, or from standard input for `-`. Paths are taken from the file's folder.
    pub fn read(file: &OsStr) -> Result<Fleet, No> {
        let (name, text, folder) = if file == "-" {
            (STANDARD_INPUT.to_string(), read_input()?, Path::new("."))
        } else {
            let path = Path::new(file);
            (path.to_string_lossy().into_owned(), read(path)?, path.parent().unwrap_or(Path::new(".")))
        };
        let runs: Result<Vec<Run>, No> =
            lines(&name, &text)?.iter().map(|line| Run::of(&name, line, folder)).collect();
        Ok(Fleet { name, runs: runs? })
    }

    /// A place in the file.
    pub fn at(&self, run: &Run) -> String {
        format!("{}:{}", self.name, run.line)
    }
}

impl Run {
    fn of(name: &str, line: &Line, folder: &Path) -> Result<Run, No> {
        let fields: Vec<&str> = line.text.split('\t').collect();
        let (needed, store) = match &fields[..] {
            [model, rules, printed, spoiled, cents] => ([model, rules, printed, spoiled, cents], ""),
            [model, rules, printed, spoiled, cents, store] => {
                ([model, rules, printed, spoiled, cents], *store)
            }
            _ => return Err(wrong(name, line.number, &fields_due(fields.len()))),
        };
        let [model, rules, printed, spoiled, cents] = needed;
        if rules.is_empty() {
            return Err(wrong(name, line.number, "the rules file has no name"));
        }
        let whole = |what: &str, field: &str| {
            let advice = match what {
                "model" => "; names go in a file for --names",
                "cents" => ", nor @ and a date",
                _ => "",
            };
            let sentence = format!("{what} '{field}' is not a whole number up to {}{advice}", u32::MAX);
            number(field).ok_or_else(|| wrong(name, line.number, &sentence))
        };
        Ok(Run {
            line: line.number,
            model: whole("model", model)?,
            rules: within(folder, rules),
            printed: whole("printed class", printed)?,
            spoiled: whole("spoiled class", spoiled)?,
            cents: match cents.strip_prefix(DATED) {
                Some(date) => {
                    let sentence = format!("'{cents}' is not {DATED} and a date; {WHEN}");
                    Cents::On(When::of(date).ok_or_else(|| wrong(name, line.number, &sentence))?)
                }
                None => Cents::Given(whole("cents", cents)?),
            },
            store: (!store.is_empty()).then(|| StoreFile::of(folder, store)),
        })
    }
}

impl StoreFile {
    fn of(folder: &Path, field: &str) -> StoreFile {
        match field.strip_prefix(PLAIN) {
            Some(path) => StoreFile { path: within(folder, path), plain: true },
            None => StoreFile { path: within(folder, field), plain: false },
        }
    }
}

/// A path as it is taken from a folder. The folder that one is in already is not named.
fn within(folder: &Path, path: &str) -> PathBuf {
    if folder == Path::new(".") {
        PathBuf::from(path)
    } else {
        folder.join(path)
    }
}

fn fields_due(fields: usize) -> String {
    let found = if fields == 1 { "one field".to_string() } else { format!("{fields} fields") };
    format!(
        "the line has {found}; it needs model, rules file, printed class, spoiled class and cents, and may have a store \
         file, with one tab between them"
    )
}
