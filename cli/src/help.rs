//! The pages that `--help` prints.

use crate::output::print;
use crate::{Status, Trouble};
use std::ffi::OsString;

pub const USAGE: &str = "\
Usage:
  sigvolar check FILE...
  sigvolar translate FILE
  sigvolar run FILE [--fuel N] [--objects N] [--store OUT] [--plain]
  sigvolar report FLEET [--names FILE] [--prices TERMS] [--full | --tsv] [--html OUT] [--fuel N] [--objects N]
  sigvolar count FLEET [--prices TERMS] [--fuel N] [--objects N]
  sigvolar rank [FILE...]
  sigvolar price TERMS MODEL DATE [--why]
  sigvolar prices TERMS MODEL MONTH [--tsv]
  sigvolar explain NUMBER
  sigvolar help COMMAND
";

pub const TOOL: &str = "\
sigvolar checks, translates and runs label rules, programs in which each label is an object that changes class,
reports what a good label costs on each printer model, and tells the price of a model's labels by date. Every verdict,
translation, run, report and price is that of a service that is proved to follow the published rules.

Usage:
  sigvolar check FILE...              say of each file whether its rules are accepted
  sigvolar translate FILE             print the plain program that printers run
  sigvolar run FILE                   run the rules, and count the objects by the class they ended in
  sigvolar report FLEET               print the table of a fleet: printer model, cents per good label
  sigvolar count FLEET                print the labels of each run of a fleet, to be ranked elsewhere
  sigvolar rank [FILE...]             print the report over such lines, or over reports
  sigvolar price TERMS MODEL DATE     print a model's price on a date
  sigvolar prices TERMS MODEL MONTH   print a model's prices in a month
  sigvolar explain NUMBER             say what a refusal means, with a smallest example
  sigvolar help COMMAND               print the page of a command, as `sigvolar COMMAND --help` does
  sigvolar --version

FILE, FLEET and TERMS may be - for standard input. After -- everything is a file.

Results are printed on standard output, everything else on standard error. Exit status: 0 where all went well, 1 where
rules, a fleet, counted lines, price terms or a date were refused, a run did not end in a value, or a run of a fleet was
cut short, 2 where the command was called wrongly or a file could not be read or written; with several files 2 wins
over 1.
";

const CHECK: &str = "\
Usage: sigvolar check FILE...

Says of each file whether its rules are accepted:

  FILE: accepted
  FILE:LINE: refused (10, effect): sentence

Every file is tried, whatever became of those before it. The number and the word are those of `sigvolar explain`.
Where the bytes of a malformed line tell what is wrong with it, a note on standard error says so.
";

const TRANSLATE: &str = "\
Usage: sigvolar translate FILE

Prints the lines of the plain program, in which no object changes class and which printers run. Rules that are
refused, or that are over the translator's limits, print nothing; the refusal is said on standard error.
";

const RUN: &str = "\
Usage: sigvolar run FILE [--fuel N] [--objects N] [--store OUT] [--plain]

Runs the rules and prints how the run ended, its steps, the objects made, the changes of class, and how many objects
ended in each class. An object is counted in exactly the class that it ended in: one of a class below another is not
counted in that other class.

  --fuel N      how many steps the run may take, up to 100,000,000 (1,000,000 where it is not given)
  --objects N   how many objects the store has room for, up to 65,535 (65,535 where it is not given)
  --store OUT   write the objects made to the file OUT: an object a line, its 18 numbers with tabs between them, the
                class first, then the fields
  --plain       run the translation as well, on 84 times the fuel and with room for the 2n + r objects that it makes
                where the rules make n objects and r changes of class, and say whether both end alike and count alike;
                the fuel is then at most 1,000,000
";

const REPORT: &str = "\
Usage: sigvolar report FLEET [--names FILE] [--prices TERMS] [--full | --tsv] [--html OUT] [--fuel N] [--objects N]

Prints what a good label costs on each printer model of a fleet, lowest first. A good label is one that was printed
and not spoiled. Models without a good label come last, with a dash.

FLEET has a run a line, with one tab between its fields: model (a number), rules file, printed class, spoiled class,
cents. A sixth field is the store file of a run that ended elsewhere, as `sigvolar run --store` writes it; plain:FILE
is the store of a plain run. Runs without a store file are made here. Paths are taken from FLEET's folder. Empty lines
and lines that begin with # are passed over. The runs of a model are summed. Cents that are @DATE stand for the labels
printed, spoiled ones too, times the model's price on that date by the terms of --prices.

  --names FILE  put names in the first column: FILE has a model, a tab and its name on each line
  --prices TERMS
                price labels by these terms, where a line has @DATE for its cents (`sigvolar price --help`)
  --full        add the labels printed and spoiled, and the cents
  --tsv         print the report as the service wrote it: model, printed, spoiled, cents, with tabs
  --html OUT    write the table as a page to the file OUT too
  --fuel N      how many steps a run made here may take, up to 100,000,000 (1,000,000 where it is not given)
  --objects N   how many objects it has room for, up to 65,535 (65,535 where it is not given)

There is no table where a run is refused, or stops at 14 or 16, since it was cut short; its line is said. Runs that
end in an exception or at 15 count, and are named below the table.
";

const COUNT: &str = "\
Usage: sigvolar count FLEET [--prices TERMS] [--fuel N] [--objects N]

Prints a line for each run of a fleet, in order: model, labels printed, labels spoiled, cents, with tabs between them.
So a fleet can be counted in parts, anywhere; `sigvolar rank` makes the report of all parts. FLEET and the options are
those of `sigvolar report`; for - paths are taken from the folder in which the command runs. Where a run is refused or
was cut short, its line is said and nothing is printed.
";

const RANK: &str = "\
Usage: sigvolar rank [FILE...]

Prints the report over the lines of all files: a line a model, its labels printed and spoiled and its cents, ordered
by cents per good label. The lines are those of `sigvolar count`, or of reports that `sigvolar rank` or `sigvolar
report --tsv` printed, so that reports can be joined. Without a file, standard input is read.
";

const PRICE: &str = "\
Usage: sigvolar price TERMS MODEL DATE [--why]

Prints what a label of a model costs on a date, in cents, or `none` where no term holds then. DATE is YYYY-MM-DD, from
2000-01-01 to 2179-06-06, or a day's number, from 0 to 65535.

TERMS has a term a line: model, first day, last day, cents, signing number, whole numbers up to 65,535 with one tab
between them. Both days belong to the term. Days count from 2000-01-01, which is day 0. Of the terms that hold on a day
the one with the highest signing number rules; each signing number occurs once.

  --why         say on a second line which line of TERMS rules, and from which date to which date it holds
";

const PRICES: &str = "\
Usage: sigvolar prices TERMS MODEL MONTH [--tsv]

Prints the prices of a model in a month, which is YYYY-MM: a line for each run of days with one price, in order: first
date, last date, cents, with tabs between them. Days without a price are in no line. TERMS is that of `sigvolar price`.

  --tsv         print the report as the service wrote it: first day, last day, cents, with days by their numbers
";

const EXPLAIN: &str = "\
Usage: sigvolar explain NUMBER

Prints what a refusal (1 to 13, 17, 18, 23, 24) or a stop (14 to 16) means, a smallest example that has it, and the
call that answers so. Its word does as well: `sigvolar explain effect`.
";

const HELP: &str = "\
Usage: sigvolar help COMMAND

Prints the page of a command: check, translate, run, report, count, rank, price, prices or explain.
";

/// The page of a command.
pub fn page(command: &str) -> Option<&'static str> {
    match command {
        "check" => Some(CHECK),
        "translate" => Some(TRANSLATE),
        "run" => Some(RUN),
        "report" => Some(REPORT),
        "count" => Some(COUNT),
        "rank" => Some(RANK),
        "price" => Some(PRICE),
        "prices" => Some(PRICES),
        "explain" => Some(EXPLAIN),
        "help" => Some(HELP),
        _ => None,
    }
}

/// Whether a command is asked for its page: by an option before `--`.
pub fn is_asked(rest: &[OsString]) -> bool {
    rest.iter()
        .take_while(|argument| *argument != "--")
        .any(|argument| argument == "--help" || argument == "-h")
}

pub fn command(rest: &[OsString]) -> Result<Status, Trouble> {
    match rest {
        [] => print(TOOL),
        [name, ..] => match page(&name.to_string_lossy()) {
            Some(page) => print(page),
            None => Err(Trouble(format!(
                "there is no command '{}'. See `sigvolar --help`.",
                name.to_string_lossy()
            ))),
        },
    }
}
