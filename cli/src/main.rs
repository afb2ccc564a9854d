//! `sigvolar`, the tool that a person types: checks, translates, runs and explains label rules, reports what labels cost,
//! and prices them by date. Every judgement, every price and every figure of a report is that of a proved service; the tool
//! reads files and chooses words. docs/TOOL.md describes it.

mod arguments;
mod check;
mod count;
mod explain;
mod fleet;
mod help;
mod input;
mod lines;
mod names;
mod output;
mod price;
mod prices;
mod progress;
mod rank;
mod report;
mod run;
mod store;
mod terms;
mod translate;

use std::ffi::OsString;
use std::process::ExitCode;

/// How a command ends; of several files the worst counts.
#[derive(Clone, Copy, PartialEq, Eq, PartialOrd, Ord)]
pub enum Status {
    Well = 0,
    /// Rules were refused, or a run did not end in a value.
    Refused = 1,
    /// The command was called wrongly, or a file could not be read or written.
    Trouble = 2,
}

/// Why a command could not do its work, as a sentence for standard error. The status is then 2.
pub struct Trouble(pub String);

impl From<std::io::Error> for Trouble {
    /// Trouble with standard output.
    fn from(error: std::io::Error) -> Trouble {
        match error.kind() {
            std::io::ErrorKind::BrokenPipe => {
                Trouble("standard output was closed before all was printed.".to_string())
            }
            _ => Trouble(format!("cannot print: {}.", input::reason(&error))),
        }
    }
}

/// The stack of the thread that does the work: enough for any run of a program, and a quarter more for the tool.
const STACK: usize = fickle::RUN_ROWS_STACK_NEEDED / 4 * 5;

fn main() -> ExitCode {
    let work = || {
        let arguments: Vec<OsString> = std::env::args_os().skip(1).collect();
        command(&arguments)
    };
    let ended = match std::thread::Builder::new().stack_size(STACK).spawn(work) {
        Ok(thread) => thread.join().unwrap_or_else(|_| Err(Trouble("the work was broken off.".to_string()))),
        Err(error) => {
            Err(Trouble(format!("the system has no thread for the work: {}.", input::reason(&error))))
        }
    };
    let status = ended.unwrap_or_else(|Trouble(sentence)| {
        output::say(&format!("sigvolar: {sentence}"));
        Status::Trouble
    });
    ExitCode::from(status as u8)
}

fn command(arguments: &[OsString]) -> Result<Status, Trouble> {
    let Some((name, rest)) = arguments.split_first() else {
        return Err(Trouble(format!("no command is given.\n\n{}", help::USAGE.trim_end())));
    };
    let name = name.to_string_lossy();
    if let Some(page) = help::page(&name).filter(|_| help::is_asked(rest)) {
        return output::print(page);
    }
    match &*name {
        "check" => check::command(rest),
        "translate" => translate::command(rest),
        "run" => run::command(rest),
        "report" => report::command(rest),
        "count" => count::command(rest),
        "rank" => rank::command(rest),
        "price" => price::command(rest),
        "prices" => prices::command(rest),
        "explain" => explain::command(rest),
        "help" => help::command(rest),
        "--help" | "-h" => output::print(help::TOOL),
        "--version" | "-V" => output::print(concat!("sigvolar ", env!("CARGO_PKG_VERSION"), "\n")),
        other => Err(Trouble(format!("there is no command '{other}'. See `sigvolar --help`."))),
    }
}
