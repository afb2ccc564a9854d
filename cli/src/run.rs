//! `sigvolar run`: a run of rules, what it made, and on request the run of the plain program beside it.

use crate::arguments::{Argument, Arguments};
use crate::fleet::FUEL;
use crate::input::{reason, same_file, Input};
use crate::output::{print, say};
use crate::progress::Progress;
use crate::store::{counted, Objects};
use crate::translate::refused;
use crate::{Status, Trouble};
use fickle::{
    plain_rows, run_rows_on_this_stack, Exception, Outcome, Refusal, Run, Stop, Value, MOST_OBJECTS,
    MOST_SOURCE_FUEL, OBJECT_WIDTH, PLAIN_STEPS_A_STEP,
};
use std::ffi::{OsStr, OsString};

/// The line above the counts of each program.
const OBJECTS: &str = "objects by the class they ended in (exactly that class, not one below it):\n";
const IDENTITIES: &str = "objects of the source program, as the plain store has them:\n";

/// What is asked for.
struct Asked<'a> {
    file: &'a OsStr,
    fuel: u64,
    objects: usize,
    store: Option<&'a OsStr>,
    plain: bool,
}

/// A run with the store that it left.
struct Done {
    run: Run,
    store: Vec<u32>,
}

pub fn command(rest: &[OsString]) -> Result<Status, Trouble> {
    let asked = asked(rest)?;
    let input = Input::read(asked.file)?;
    let (rows, done) = match source(&input, &asked) {
        Ok(ran) => ran,
        Err(refusal) => {
            refused(&input, refusal);
            return Ok(Status::Refused);
        }
    };
    let made = done.objects();
    print(&shown("source program", &done.run, OBJECTS, &made.classes()))?;
    if let Some(file) = &asked.store {
        let written = std::fs::write(file, made.lines());
        written.map_err(|error| {
            Trouble(format!("cannot write {}: {}.", file.to_string_lossy(), reason(&error)))
        })?;
    }
    if !matches!(done.run.outcome, Outcome::Value(_)) {
        say(&format!(
            "{}: the run did not end in a value, so the classes are those where it ended",
            input.name
        ));
    }
    let both = if asked.plain { beside(&input, &rows, &asked, &done)? } else { Status::Well };
    let ended = if matches!(done.run.outcome, Outcome::Value(_)) { Status::Well } else { Status::Refused };
    Ok(ended.max(both))
}

fn asked(rest: &[OsString]) -> Result<Asked<'_>, Trouble> {
    let mut arguments = Arguments::new("run", rest);
    let (mut fuel, mut objects, mut store, mut plain) = (FUEL, MOST_OBJECTS, None, false);
    let mut files = Vec::new();
    while let Some(argument) = arguments.next() {
        match argument {
            Argument::File(file) => files.push(file),
            Argument::Option(option, given) => match &*option {
                "--fuel" => fuel = arguments.number("--fuel", given)?,
                "--objects" => objects = arguments.number("--objects", given)?,
                "--store" => store = Some(arguments.value("--store", given)?),
                "--plain" if given.is_none() => plain = true,
                _ => return Err(arguments.no_such_option(&option)),
            },
        }
    }
    if objects > MOST_OBJECTS {
        return Err(arguments.trouble(&format!("a store holds at most {MOST_OBJECTS} objects")));
    }
    if plain && fuel > MOST_SOURCE_FUEL {
        return Err(arguments.trouble(&format!(
            "with --plain the fuel is at most {MOST_SOURCE_FUEL}: up to there the plain program is proved to end alike"
        )));
    }
    match files[..] {
        [file] if store.is_some_and(|store| same_file(store, file)) => {
            Err(arguments.trouble("the store would overwrite the rules"))
        }
        [file] => Ok(Asked { file, fuel, objects, store, plain }),
        _ => Err(arguments.trouble("one file is needed, or - for standard input")),
    }
}

/// The rows of a file, and their run, which checks them first.
fn source(input: &Input, asked: &Asked) -> Result<(Vec<u32>, Done), Refusal> {
    let rows = input.rows()?;
    let _progress = Progress::start(format!("{}: running", input.name));
    let done = Done::of(&rows, asked.fuel, asked.objects)?;
    Ok((rows, done))
}

/// Runs the plain program beside a run, and says whether they end alike and count alike.
fn beside(input: &Input, rows: &[u32], asked: &Asked, source: &Done) -> Result<Status, Trouble> {
    if let Outcome::Stop(stop @ (Stop::Spent | Stop::Full)) = source.run.outcome {
        say(&format!(
            "{}: the plain program was not run, since a run that ends in {} is cut short",
            input.name,
            stop.number()
        ));
        return Ok(Status::Refused);
    }
    let needed = source.run.plain_objects();
    if needed > MOST_OBJECTS as u64 {
        say(&format!(
            "{}: the plain program was not run, since it makes {needed} objects and a store holds {MOST_OBJECTS}",
            input.name
        ));
        return Ok(Status::Refused);
    }
    let progress = Progress::start(format!("{}: running the plain program", input.name));
    let fuel = PLAIN_STEPS_A_STEP * asked.fuel;
    let ran = plain_rows(rows).and_then(|plain| Done::of(&plain, fuel, needed as usize));
    drop(progress);
    let plain = match ran {
        Ok(plain) => plain,
        Err(refusal) => {
            refused(input, refusal);
            return Ok(Status::Refused);
        }
    };
    let classes = plain.objects().source_classes();
    print(&format!(
        "\n{}",
        shown("plain program", &plain.run, IDENTITIES, classes.as_deref().unwrap_or(&[]))
    ))?;
    if ends_alike(source, &plain) && classes == Some(source.objects().classes()) {
        return print("\nBoth end alike and count alike.\n");
    }
    say("THE TWO RUNS DISAGREE. Trust neither count, and report these rules: this must never happen.");
    Ok(Status::Refused)
}

impl Done {
    fn of(rows: &[u32], fuel: u64, objects: usize) -> Result<Done, Refusal> {
        let mut store = vec![0; objects * OBJECT_WIDTH];
        let run = run_rows_on_this_stack(rows, fuel, &mut store)?;
        Ok(Done { run, store })
    }

    fn objects(&self) -> Objects<'_> {
        Objects::new(&self.store, self.run.objects)
    }
}

/// Whether both gave null, the same truth value, or an object and its Identity, raised the same exception, or came to too
/// deep a call.
fn ends_alike(source: &Done, plain: &Done) -> bool {
    match (source.run.outcome, plain.run.outcome) {
        (Outcome::Value(Value::Object(object)), Outcome::Value(Value::Object(identity))) => {
            plain.objects().identities().get(object as usize - 1) == Some(&identity)
        }
        (one, other) => one == other,
    }
}

/// A run in words, with the objects by class.
fn shown(program: &str, run: &Run, counted_as: &str, classes: &[u32]) -> String {
    let mut text = format!(
        "{program}: {}\nsteps: {}\nobjects: {}\nchanges of class: {}\n",
        outcome(run.outcome),
        run.steps,
        run.objects,
        run.changes
    );
    if !classes.is_empty() {
        text += counted_as;
    }
    for (class, count) in counted(classes) {
        let object = if class == 0 { " (Object)" } else { "" };
        text += &format!("  class {class}{object}: {count}\n");
    }
    text
}

/// How a run ended, in words.
fn outcome(outcome: Outcome) -> String {
    match outcome {
        Outcome::Value(Value::Null) => "null".to_string(),
        Outcome::Value(Value::Truth(truth)) => truth.to_string(),
        Outcome::Value(Value::Object(object)) => format!("object {object}"),
        Outcome::Exception(exception) => {
            let why = match exception {
                Exception::NullObject => "null where an object is needed",
                Exception::WrongClass => "an object of another class than its cast asks for",
            };
            format!("exception {}: {why}", exception.number())
        }
        Outcome::Stop(stop) => {
            format!("stopped ({}, {}): {}", stop.number(), stop.word(), stop.sentence())
        }
    }
}
