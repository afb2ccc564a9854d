//! The runs of a fleet as the services take them: rows, and the store that the run left here or elsewhere.

use super::{Fleet, Limits, Run};
use crate::input::Input;
use crate::lines::{lines, number, read, wrong, No};
use crate::Trouble;
use fickle::{
    count_plain_run, count_run, run_rows_on_this_stack, Labels, Outcome, Refusal, Stop, OBJECT_WIDTH,
};
use std::collections::HashMap;
use std::path::{Path, PathBuf};
use std::rc::Rc;

/// A run with its rows and its store.
pub enum Ended {
    /// In a value, an exception, or too deep a call: its labels count.
    Counts(Taken),
    /// Stopped for want of fuel or room after so many labels: it was cut.
    Cut { stop: Stop, labels: u32 },
}

/// What the services take of a run.
#[derive(Clone)]
pub struct Taken {
    /// Empty where the rules are no rows.
    pub rows: Rc<[u32]>,
    pub store: Rc<[u32]>,
    pub plain: bool,
    /// How a run that was made here ended, where it did not end in a value.
    pub unusual: Option<Outcome>,
}

impl Taken {
    pub fn objects(&self) -> u32 {
        (self.store.len() / OBJECT_WIDTH) as u32
    }

    /// Its labels, or 18.
    pub fn labels(&self, run: &Run) -> Result<Labels, Refusal> {
        let count = if self.plain { count_plain_run } else { count_run };
        count(&self.rows, &self.store, self.objects(), run.printed, run.spoiled)
    }
}

/// Makes runs. The same rules run alike, so they are run once.
pub struct Runs {
    limits: Limits,
    rows: HashMap<PathBuf, Rc<[u32]>>,
    made: HashMap<PathBuf, Ended>,
}

impl Runs {
    pub fn new(limits: Limits) -> Runs {
        Runs { limits, rows: HashMap::new(), made: HashMap::new() }
    }

    /// The run of a line. What goes wrong with its files is said with the line.
    pub fn ended(&mut self, fleet: &Fleet, run: &Run) -> Result<Ended, No> {
        self.ended_somewhere(run).map_err(|no| match no {
            No::Refused(sentence) => No::Refused(format!("{}: {sentence}", fleet.at(run))),
            No::Trouble(Trouble(sentence)) => No::Trouble(Trouble(format!("{}: {sentence}", fleet.at(run)))),
        })
    }

    /// A run that is made here, or that left its store elsewhere.
    fn ended_somewhere(&mut self, run: &Run) -> Result<Ended, No> {
        let Some(file) = &run.store else { return Ok(self.made_here(&run.rules)?) };
        let (rows, store) = (self.rows(&run.rules)?, objects(&file.path)?.into());
        Ok(Ended::Counts(Taken { rows, store, plain: file.plain, unusual: None }))
    }

    /// The rows of a file.
    fn rows(&mut self, rules: &Path) -> Result<Rc<[u32]>, Trouble> {
        if let Some(known) = self.rows.get(rules) {
            return Ok(known.clone());
        }
        let rows: Rc<[u32]> = Input::open(rules)?.rows().unwrap_or_default().into();
        self.rows.insert(rules.to_path_buf(), rows.clone());
        Ok(rows)
    }

    fn made_here(&mut self, rules: &Path) -> Result<Ended, Trouble> {
        if let Some(known) = self.made.get(rules) {
            return Ok(known.again());
        }
        let rows = self.rows(rules)?;
        let mut store = vec![0; self.limits.objects * OBJECT_WIDTH];
        let ended = match run_rows_on_this_stack(&rows, self.limits.fuel, &mut store) {
            Ok(run) => match run.outcome {
                Outcome::Stop(stop @ (Stop::Spent | Stop::Full)) => Ended::Cut { stop, labels: run.objects },
                outcome => {
                    let store = store[..run.objects as usize * OBJECT_WIDTH].into();
                    let unusual = Some(outcome).filter(|outcome| !matches!(outcome, Outcome::Value(_)));
                    Ended::Counts(Taken { rows, store, plain: false, unusual })
                }
            },
            // Rules that are refused are not run, and no run of them counts.
            Err(_) => Ended::Counts(Taken { rows, store: Rc::new([]), plain: false, unusual: None }),
        };
        let again = ended.again();
        self.made.insert(rules.to_path_buf(), ended);
        Ok(again)
    }
}

impl Ended {
    /// The same end, of another run of the same rules.
    fn again(&self) -> Ended {
        match self {
            Ended::Counts(taken) => Ended::Counts(taken.clone()),
            Ended::Cut { stop, labels } => Ended::Cut { stop: *stop, labels: *labels },
        }
    }
}

/// The numbers of a store file: an object a line.
fn objects(path: &Path) -> Result<Vec<u32>, No> {
    let (name, text) = (path.to_string_lossy(), read(path)?);
    let mut store = Vec::new();
    for line in lines(&name, &text)? {
        let numbers: Option<Vec<u32>> = line.text.split('\t').map(number).collect();
        match numbers {
            Some(numbers) if numbers.len() == OBJECT_WIDTH => store.extend(numbers),
            _ => {
                let due =
                    format!("the line is not an object: {OBJECT_WIDTH} numbers with one tab between them");
                return Err(wrong(&name, line.number, &due));
            }
        }
    }
    Ok(store)
}
