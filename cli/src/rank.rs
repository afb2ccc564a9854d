//! `sigvolar rank`: counted lines or reports, summed by model and ranked.

use crate::arguments::files;
use crate::lines::{lines, number, read, read_input, told, wrong, No, STANDARD_INPUT};
use crate::output::{print_bytes, say};
use crate::{Status, Trouble};
use fickle::{models_report, Reason, Refusal, COUNTED_WIDTH};
use std::ffi::{OsStr, OsString};
use std::path::Path;

pub fn command(rest: &[OsString]) -> Result<Status, Trouble> {
    let files = files("rank", rest)?;
    told(ranked(if files.is_empty() { vec![OsStr::new("-")] } else { files }))
}

/// Counted lines, and where each comes from: its file and line.
#[derive(Default)]
struct Counts {
    numbers: Vec<u32>,
    names: Vec<String>,
    places: Vec<(usize, usize)>,
}

fn ranked(files: Vec<&OsStr>) -> Result<Status, No> {
    let mut counts = Counts::default();
    for file in files {
        counts.add(file)?;
    }
    let report = models_report(&counts.numbers).map_err(|refusal| counts.refused(refusal))?;
    if report.is_empty() {
        say("there are no counted lines, so there is no report");
    }
    Ok(print_bytes(&report)?)
}

impl Counts {
    /// Adds the lines of a file, or of standard input for `-`.
    fn add(&mut self, file: &OsStr) -> Result<(), No> {
        let (name, text) = if file == "-" {
            (STANDARD_INPUT.to_string(), read_input()?)
        } else {
            (file.to_string_lossy().into_owned(), read(Path::new(file))?)
        };
        for line in lines(&name, &text)? {
            let numbers: Option<Vec<u32>> = line.text.split('\t').map(number).collect();
            let Some(numbers) = numbers.filter(|numbers| numbers.len() == COUNTED_WIDTH) else {
                let due = "the line is not model, printed, spoiled and cents: four whole numbers with one tab between \
                           them, as `sigvolar count` prints them";
                return Err(wrong(&name, line.number, due));
            };
            self.numbers.extend(numbers);
            self.places.push((self.names.len(), line.number));
        }
        self.names.push(name);
        Ok(())
    }

    /// A refusal of a line, with its file.
    fn refused(&self, refusal: Refusal) -> No {
        let place = (refusal.line as usize).checked_sub(1).and_then(|place| self.places.get(place));
        let Some((file, line)) = place else { return No::Refused(refusal.to_string()) };
        let what = match refusal.reason {
            Reason::Line => "the line has more labels spoiled than printed".to_string(),
            Reason::Sum => {
                "refused (17, sum): the line takes one of its model's sums past 4000000000".to_string()
            }
            _ => refusal.to_string(),
        };
        wrong(&self.names[*file], *line, &what)
    }
}
