//! The proved services, and the proved programs target/bin/translate and target/bin/run.

use second::services::{Printed, Programs};
use std::io::Write;
use std::process::{Command, Stdio};

/// Makes a type whose services are those of a crate with the functions of `fickle`, rows being run by the one named.
#[macro_export]
macro_rules! services_of_fickle {
    ($name:ident, $from:ident, $run_rows:ident) => {
        pub struct $name;

        impl second::services::Services for $name {
            fn read_rows(&self, text: &[u8], rows: &mut [u32]) -> Result<usize, second::services::Refused> {
                $from::read_rows(text, rows).map_err(Into::into)
            }

            fn write_text(&self, rows: &[u32], text: &mut [u8]) -> Result<usize, second::services::Refused> {
                $from::write_text(rows, text).map_err(Into::into)
            }

            fn check_rows(&self, rows: &[u32]) -> Result<(), second::services::Refused> {
                $from::check_rows(rows).map_err(Into::into)
            }

            fn translate_rows(
                &self,
                rows: &[u32],
                plain: &mut [u32],
            ) -> Result<usize, second::services::Refused> {
                $from::translate_rows(rows, plain).map_err(Into::into)
            }

            fn run_rows(
                &self,
                rows: &[u32],
                fuel: u64,
                store: &mut [u32],
            ) -> Result<second::services::Ran, second::services::Refused> {
                use second::services::{End, Ran, Value};
                use $from::{Outcome, Value as Given};
                let run = $from::$run_rows(rows, fuel, store)?;
                let end = match run.outcome {
                    Outcome::Value(Given::Null) => End::Value(Value::Null),
                    Outcome::Value(Given::Truth(truth)) => End::Value(Value::Truth(truth)),
                    Outcome::Value(Given::Object(object)) => End::Value(Value::Object(object)),
                    Outcome::Exception(exception) => End::Exception(exception.number()),
                    Outcome::Stop(stop) => End::Stop(stop.number()),
                };
                let [steps, objects, changes] = [run.steps, run.objects, run.changes].map(u64::from);
                Ok(Ran { end, steps, objects, changes })
            }

            second::fleet_services!($from);
            second::price_services!($from);
        }
    };
}

services_of_fickle!(Proved, fickle, run_rows);

impl Programs for Proved {
    fn translate(&self, input: &[u8]) -> Printed {
        printed("translate", input)
    }

    fn run(&self, input: &[u8]) -> Printed {
        printed("run", input)
    }
}

/// What a program leaves behind on an input; where it cannot be started, why.
fn printed(name: &str, input: &[u8]) -> Printed {
    let program = format!("{}/../target/bin/{name}", env!("CARGO_MANIFEST_DIR"));
    started(&program, input).unwrap_or_else(|error| {
        let errors = format!("{program}: {error}; `tools/build.sh` makes it").into_bytes();
        Printed { output: Vec::new(), errors, status: None }
    })
}

fn started(program: &str, input: &[u8]) -> std::io::Result<Printed> {
    let piped = Stdio::piped;
    let mut child = Command::new(program).stdin(piped()).stdout(piped()).stderr(piped()).spawn()?;
    let mut stdin = child.stdin.take().expect("a pipe");
    // A program that holds no more stops reading, and its input is left unread.
    let _ = stdin.write_all(input);
    drop(stdin);
    let left = child.wait_with_output()?;
    Ok(Printed { output: left.stdout, errors: left.stderr, status: left.status.code() })
}
