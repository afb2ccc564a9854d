//! `sigvolar prices`: the prices of a model in a month, by price terms.

use crate::arguments::{Argument, Arguments};
use crate::lines::{number, told, No};
use crate::output::{print, print_bytes, say};
use crate::terms::{model, Month, Terms, When};
use crate::{Status, Trouble};
use std::ffi::{OsStr, OsString};

/// What is asked for.
struct Asked<'a> {
    terms: &'a OsStr,
    model: u32,
    month: Month,
    tsv: bool,
}

pub fn command(rest: &[OsString]) -> Result<Status, Trouble> {
    let asked = asked(rest)?;
    let terms = Terms::read(asked.terms)?;
    told(reported(&terms, &asked))
}

fn asked(rest: &[OsString]) -> Result<Asked<'_>, Trouble> {
    let mut arguments = Arguments::new("prices", rest);
    let (mut given, mut tsv) = (Vec::new(), false);
    while let Some(argument) = arguments.next() {
        match argument {
            Argument::File(file) => given.push(file),
            Argument::Option(option, None) if option == "--tsv" => tsv = true,
            Argument::Option(option, _) => return Err(arguments.no_such_option(&option)),
        }
    }
    let [terms, of, month] = given[..] else {
        return Err(arguments.trouble("the terms' file, a model and a month are needed"));
    };
    let model = model(&arguments, of)?;
    let typed = month.to_string_lossy();
    let month =
        Month::of(&typed).ok_or_else(|| arguments.trouble(&format!("a month is YYYY-MM, not '{typed}'")))?;
    Ok(Asked { terms, model, month, tsv })
}

/// Prints the report, with dates for day numbers unless it is asked for as it is.
fn reported(terms: &Terms, asked: &Asked) -> Result<Status, No> {
    let (model, month) = (asked.model, asked.month);
    let report = terms.report(model, month);
    let report = report.map_err(|refusal| terms.refused(refusal, &month.to_string()))?;
    if report.is_empty() {
        say(&format!("{}: model {model} has no price in {month}", terms.name()));
    }
    if asked.tsv {
        return Ok(print_bytes(&report)?);
    }
    let text = String::from_utf8_lossy(&report);
    Ok(print(&text.lines().map(dated).collect::<String>())?)
}

/// A line of the report with dates for its two day numbers.
fn dated(line: &str) -> String {
    let numbers: Vec<u32> = line.split('\t').filter_map(number).collect();
    match numbers[..] {
        [first, last, cents] => {
            let [first, last] = [first, last].map(|day| When::Day(day).dated());
            format!("{first}\t{last}\t{cents}\n")
        }
        _ => format!("{line}\n"),
    }
}
