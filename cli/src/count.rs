//! `sigvolar count`: the labels of each run of a fleet, a line a run.

use crate::arguments::{Argument, Arguments};
use crate::fleet::costs::Costs;
use crate::fleet::runs::{Ended, Runs};
use crate::fleet::{why, Fleet, Limits, Run};
use crate::lines::{told, No};
use crate::output::print;
use crate::progress::Progress;
use crate::terms::Terms;
use crate::{Status, Trouble};
use fickle::Stop;
use std::ffi::{OsStr, OsString};

/// What is asked for.
struct Asked<'a> {
    fleet: &'a OsStr,
    prices: Option<&'a OsStr>,
    limits: Limits,
}

pub fn command(rest: &[OsString]) -> Result<Status, Trouble> {
    told(counted(&asked(rest)?))
}

fn asked(rest: &[OsString]) -> Result<Asked<'_>, Trouble> {
    let mut arguments = Arguments::new("count", rest);
    let (mut limits, mut prices, mut files) = (Limits::GIVEN, None, Vec::new());
    while let Some(argument) = arguments.next() {
        match argument {
            Argument::File(file) => files.push(file),
            Argument::Option(option, given) => match &*option {
                "--fuel" => limits.fuel = arguments.number("--fuel", given)?,
                "--objects" => limits.objects = arguments.number("--objects", given)?,
                "--prices" => prices = Some(arguments.value("--prices", given)?),
                _ => return Err(arguments.no_such_option(&option)),
            },
        }
    }
    limits.check(&arguments)?;
    match files[..] {
        [fleet] if fleet == "-" && prices.is_some_and(|prices| prices == "-") => {
            Err(arguments.trouble(BOTH_FROM_INPUT))
        }
        [fleet] => Ok(Asked { fleet, prices, limits }),
        _ => Err(arguments.trouble("one fleet is needed, or - for standard input")),
    }
}

/// What is said where standard input is to be two files.
pub const BOTH_FROM_INPUT: &str = "the fleet and the prices cannot both be standard input";

/// Prints the lines of all runs, or none.
fn counted(asked: &Asked) -> Result<Status, No> {
    let (fleet, limits) = (Fleet::read(asked.fleet)?, asked.limits);
    let mut costs = Costs::new(asked.prices.map(Terms::read).transpose()?, &fleet)?;
    let progress = Progress::start(format!("{}: counting", fleet.name));
    let (mut runs, mut lines) = (Runs::new(limits), String::new());
    for run in &fleet.runs {
        match runs.ended(&fleet, run)? {
            Ended::Cut { stop, labels } => return Err(No::Refused(cut(&fleet, run, stop, labels, limits))),
            Ended::Counts(taken) => match taken.labels(run) {
                Ok(labels) => {
                    let cents = costs.of(&fleet, run, labels)?;
                    lines += &format!("{}\t{}\t{}\t{cents}\n", run.model, labels.printed, labels.spoiled);
                }
                Err(refusal) => return Err(No::Refused(why::refused(&fleet, run, &taken, refusal))),
            },
        }
    }
    drop(progress);
    Ok(print(&lines)?)
}

/// Says that a run was cut, and what to do.
pub fn cut(fleet: &Fleet, run: &Run, stop: Stop, labels: u32, limits: Limits) -> String {
    let labels = if labels == 1 { "1 label".to_string() } else { format!("{labels} labels") };
    let (at, number, word, advice) = (fleet.at(run), stop.number(), stop.word(), limits.advice(stop));
    format!("{at}: the run stopped ({number}, {word}) after {labels}; {advice}")
}
