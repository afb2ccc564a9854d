//! Cases with their expected answers, from the files of `vectors/`. Each file opens with its notation; a file whose
//! notation is unknown is an error, so that no file is left out.

mod fleets;
pub mod prices;

use crate::generate::text_of_rows;
use crate::notation;
use crate::rows::{CHECKED, OBJECT_WIDTH, ROW_WIDTH};
use crate::services::{End, Programs, Ran, Refused, Services, Value};
pub use fleets::Asked;
use std::collections::BTreeMap;
use std::path::Path;

/// The requests of document 02 that have landed: a case may hold from one of them on, or until one of them.
const LANDED: [&str; 2] = ["§1", "§11"];
/// What a case says that holds from the request on that makes objects wider.
const WIDER: &str = "width=35";

/// Room of a lent store, in objects, and fuel, where a case gives none.
const OBJECTS: usize = 10;
const FUEL: usize = 1_000;

/// A case: what is asked, the answer that must come, and why.
#[derive(Debug)]
pub struct Vector {
    /// File and line.
    pub place: String,
    service: String,
    records: String,
    pub expected: String,
    pub why: String,
    /// What a report is asked for, and the length of what is lent for it.
    report: Option<(Asked, usize)>,
    /// What is asked of the calendar or of terms.
    prices: Option<prices::Asked>,
}

/// The cases of all files that hold today, or what is wrong with a file.
pub fn all() -> Result<Vec<Vector>, String> {
    let folder = Path::new(env!("CARGO_MANIFEST_DIR")).join("vectors");
    let listed = std::fs::read_dir(&folder).map_err(|error| format!("{}: {error}", folder.display()))?;
    let mut paths: Vec<_> = listed.filter_map(|entry| entry.ok().map(|entry| entry.path())).collect();
    paths.sort();
    let mut vectors = Vec::new();
    for path in paths {
        let name = path.file_name().unwrap_or_default().to_string_lossy().into_owned();
        let text = std::fs::read_to_string(&path).map_err(|error| format!("{name}: {error}"))?;
        vectors.extend(of_file(&name, &text)?);
    }
    Ok(vectors)
}

/// Reads the parts of a line at a place: none where the line is in another notation, none within where the case does not
/// hold today.
type Reader<'a> = &'a dyn Fn(String, &[&str]) -> Option<Option<Vector>>;

/// The cases of one file that hold today.
fn of_file(name: &str, text: &str) -> Result<Vec<Vector>, String> {
    let programs = fleets::named_programs(text);
    let service = |place, parts: &[&str]| service(place, parts, &programs);
    let reader: Reader = match text.lines().next().unwrap_or_default().split('\t').next().unwrap_or_default()
    {
        "# verdict of check (accepted, or number and line)" => &verdict,
        "# request<TAB>rows<TAB>service<TAB>from<TAB>until<TAB>expected answer<TAB>why" => &request,
        first if first.starts_with("# Cases for the services of document 02.") => &service,
        other => return Err(format!("{name}: no reader for the notation {other:?}")),
    };
    let mut vectors = Vec::new();
    for (index, line) in text.lines().enumerate().filter(|(_, line)| !line.starts_with('#')) {
        let place = format!("{name}:{}", index + 1);
        let parts: Vec<&str> = line.split('\t').collect();
        match reader(place.clone(), &parts) {
            Some(Some(vector)) => vectors.push(vector),
            Some(None) => (),
            None => return Err(format!("{place}: not in the notation of its file")),
        }
    }
    Ok(vectors)
}

/// A line of the open points: the check's verdict, the point, the program.
fn verdict(place: String, parts: &[&str]) -> Option<Option<Vector>> {
    let [expected, why, records] = *parts else { return None };
    let expected = expected.replace(' ', " line ");
    let (service, records, why) = ("check".to_string(), records.to_string(), why.to_string());
    Some(Some(Vector { place, service, records, expected, why, report: None, prices: None }))
}

/// A line of the cases of requests: none where it holds only later or no longer.
fn request(place: String, parts: &[&str]) -> Option<Option<Vector>> {
    let [_, records, service, from, until, expected, why] = *parts else { return None };
    let holds = (from == "-" || LANDED.contains(&from)) && !LANDED.contains(&until);
    let [service, records, expected, why] = [service, records, expected, why].map(str::to_string);
    Some(holds.then_some(Vector { place, service, records, expected, why, report: None, prices: None }))
}

/// A line of the cases of services: none where its request has not landed, and for the line of column names.
fn service(place: String, parts: &[&str], programs: &BTreeMap<String, String>) -> Option<Option<Vector>> {
    let [id, request, service, inputs, expected, why] = *parts else { return None };
    if !LANDED.contains(&request) || inputs.starts_with(WIDER) {
        return Some(None);
    }
    let (report, prices) = (fleets::asked(service, inputs, programs), prices::asked(service, inputs));
    if report.is_none() && prices.is_none() {
        return None;
    }
    let place = format!("{place} ({id})");
    let [service, records, expected, why] = [service, inputs, expected, why].map(str::to_string);
    Some(Some(Vector { place, service, records, expected, why, report, prices }))
}

impl Vector {
    /// An option's number: `fuel 9` in the service's column gives 9 for `fuel`.
    fn option(&self, name: &str) -> Option<usize> {
        let mut words = self.service.split(' ').skip_while(|word| *word != name);
        words.nth(1)?.parse().ok()
    }

    /// The service's name.
    pub fn service(&self) -> &str {
        self.service.split(' ').next().unwrap_or_default()
    }

    /// The text of the records.
    pub fn text(&self) -> Vec<u8> {
        notation::text(&self.records)
    }

    /// The rows of the records, and as many numbers 0 more as the option `extra` says.
    pub fn rows(&self) -> Vec<u32> {
        let mut rows = notation::rows(&self.records);
        rows.extend(std::iter::repeat_n(0, self.option("extra").unwrap_or(0)));
        rows
    }

    pub fn fuel(&self) -> u64 {
        self.option("fuel").unwrap_or(FUEL) as u64
    }

    /// The length of the lent store.
    pub fn store(&self) -> usize {
        let room = self.option("room").unwrap_or(OBJECTS) * OBJECT_WIDTH;
        self.option("numbers").unwrap_or(room)
    }

    /// What a report is asked for, and the length of what is lent for it; none where the case is of something else.
    pub fn report(&self) -> Option<(&Asked, usize)> {
        self.report.as_ref().map(|(asked, room)| (asked, *room))
    }

    /// What is asked of the calendar or of terms; none where the case is of something else.
    pub fn prices(&self) -> Option<&prices::Asked> {
        self.prices.as_ref()
    }

    /// The answer of an implementation, in the words of the files.
    pub fn answer(&self, services: &dyn Programs) -> String {
        if let Some(asked) = self.prices() {
            return prices::answer(services, asked);
        }
        if let Some((asked, room)) = self.report() {
            return fleets::answer(services, asked, room);
        }
        let answer = match self.service() {
            "check" => services.check_rows(&self.rows()).map(|()| "accepted".to_string()),
            "translate" => self.translation(services, &self.rows()).map(|plain| lines_of(&plain)),
            "run" => self.ran(services, &self.rows()),
            "plainrun" => {
                self.translation(services, &self.rows()).and_then(|plain| self.ran(services, &plain))
            }
            "read" => self.read(services),
            "running" => Ok(shown(&services.run(&self.text()).output, " / ")),
            "translating" => Ok(shown(&services.translate(&self.text()).output, ", ")),
            other => Ok(format!("no such service: {other}")),
        };
        answer.unwrap_or_else(|(number, line)| format!("{number} line {line}"))
    }

    fn translation(&self, services: &dyn Services, rows: &[u32]) -> Result<Vec<u32>, Refused> {
        let room = self.option("room").unwrap_or(CHECKED.rows);
        let mut plain = vec![0; room * ROW_WIDTH];
        let count = services.translate_rows(rows, &mut plain)?;
        plain.truncate(count * ROW_WIDTH);
        Ok(plain)
    }

    fn ran(&self, services: &dyn Services, rows: &[u32]) -> Result<String, Refused> {
        let Ran { end, steps, objects, changes } =
            services.run_rows(rows, self.fuel(), &mut vec![9; self.store()])?;
        let end = match end {
            End::Value(Value::Null) => "N".to_string(),
            End::Value(Value::Truth(false)) => "L".to_string(),
            End::Value(Value::Truth(true)) => "T".to_string(),
            End::Value(Value::Object(object)) => format!("O {object}"),
            End::Exception(exception) => format!("E {exception}"),
            End::Stop(stop) => format!("! {stop}"),
        };
        Ok(format!("{end} {steps} {objects} {changes}"))
    }

    fn read(&self, services: &dyn Services) -> Result<String, Refused> {
        let mut rows = vec![9; CHECKED.rows * ROW_WIDTH];
        let count = services.read_rows(&self.text(), &mut rows)?;
        let numbers: Vec<String> = rows[..count * ROW_WIDTH].iter().map(u32::to_string).collect();
        Ok(numbers.join(" "))
    }
}

/// Rows as the files write them.
fn lines_of(rows: &[u32]) -> String {
    shown(&text_of_rows(rows).unwrap_or_default(), ", ")
}

/// A text with spaces for tabs and something else between lines.
fn shown(text: &[u8], between: &str) -> String {
    let lines: Vec<String> =
        String::from_utf8_lossy(text).lines().map(|line| line.replace('\t', " ")).collect();
    lines.join(between)
}
