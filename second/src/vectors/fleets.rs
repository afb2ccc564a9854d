//! The notation of fleets in the cases of document 02: runs, programs one after another and stores, or counted lines, and
//! room for the report.

use crate::notation;
use crate::rows::OBJECT_WIDTH;
use crate::services::{Fleet, Refused, Services};
use std::collections::BTreeMap;

/// What every number stands for that a case does not name, and every byte of a lent report.
const JUNK: u32 = 9;
pub const LENT: u8 = b'?';

/// The programs that a file's opening gives names to: `@M = C 1 0, S, B 0 1, T`, several on a line, each with remarks in
/// brackets after it.
pub fn named_programs(text: &str) -> BTreeMap<String, String> {
    let lines = text.lines().filter_map(|line| line.strip_prefix("# "));
    let parts = lines.flat_map(|line| line.split("   ")).map(str::trim);
    let named = parts.filter_map(|part| part.strip_prefix('@')?.split_once(" = "));
    named.map(|(name, records)| (name.to_string(), records.to_string())).collect()
}

/// What a report is asked for.
#[derive(Clone, Debug)]
pub enum Asked {
    Fleet(Fleet),
    Rank(Vec<u32>),
}

/// What a report is asked for, and the length of what is lent for it; none where the notation is another one.
pub fn asked(service: &str, inputs: &str, programs: &BTreeMap<String, String>) -> Option<(Asked, usize)> {
    let inputs = named_inputs(inputs)?;
    let numbers = |name| numbers(inputs.get(name)?);
    let asked = match service {
        "fleet" => Asked::Fleet(Fleet {
            runs: numbers("runs")?,
            programs: all_programs(&repeated(inputs.get("programs")?)?, programs)?,
            stores: objects(&repeated(inputs.get("stores")?)?)?,
        }),
        "rank" => Asked::Rank(numbers("counts")?),
        _ => return None,
    };
    Some((asked, inputs.get("room")?.parse().ok()?))
}

/// The inputs of a case by their names.
pub fn named_inputs(inputs: &str) -> Option<BTreeMap<&str, &str>> {
    inputs.split(" | ").map(|input| input.split_once('=')).collect()
}

/// What an implementation answers, in the words of the files.
pub fn answer(services: &dyn Services, asked: &Asked, room: usize) -> String {
    let mut report = vec![LENT; room];
    let answer = match asked {
        Asked::Fleet(fleet) => services.report_fleet(fleet, &mut report),
        Asked::Rank(counts) => services.rank_models(counts, &mut report),
    };
    shown(answer, &report)
}

/// The answer of a service that writes a report into what it was lent, and what it wrote.
pub fn shown(answer: Result<usize, Refused>, report: &[u8]) -> String {
    let written = answer.unwrap_or(0).min(report.len());
    if report[written..].iter().any(|byte| *byte != LENT) {
        return "changed what it had not to write".to_string();
    }
    match answer {
        Err((number, line)) => format!("! {number} {line}"),
        Ok(0) => "ok 0: -".to_string(),
        Ok(length) => {
            let text = String::from_utf8_lossy(&report[..written]).replace('\t', " ").replace('\n', ";");
            format!("ok {length}: {text}")
        }
    }
}

/// Numbers, where `/` is for the eye and `-` is none.
fn numbers(text: &str) -> Option<Vec<u32>> {
    text.split(' ').filter(|word| !["/", "-"].contains(word)).map(|word| word.parse().ok()).collect()
}

/// A text with `{x}*n` written out as x, n times; `#` within x is the index from 0.
pub fn repeated(text: &str) -> Option<String> {
    let Some((before, rest)) = text.split_once('{') else { return Some(text.to_string()) };
    let (group, rest) = rest.split_once("}*")?;
    let digits = rest.bytes().take_while(u8::is_ascii_digit).count();
    let times: usize = rest[..digits].parse().ok()?;
    let written = (0..times).map(|index| group.replace('#', &index.to_string())).collect::<String>();
    Some(format!("{before}{written}{}", repeated(&rest[digits..])?))
}

/// The rows of programs with `+` between them.
fn all_programs(text: &str, programs: &BTreeMap<String, String>) -> Option<Vec<u32>> {
    let mut all = Vec::new();
    for part in text.split('+').map(str::trim).filter(|part| *part != "-") {
        if let Some(loose) = part.strip_prefix('~') {
            all.extend(vec![JUNK; loose.parse().ok()?]);
            continue;
        }
        let (records, times) = match part.strip_prefix('@') {
            Some(name) => {
                let (name, times) = name.split_once('*').unwrap_or((name, "1"));
                (&programs.get(name)?[..], times.parse().ok()?)
            }
            None => (part, 1),
        };
        all.extend(notation::rows(records).repeat(times));
    }
    Some(all)
}

/// Objects by their classes, and loose numbers.
fn objects(text: &str) -> Option<Vec<u32>> {
    let mut all = Vec::new();
    for word in text.split(' ').filter(|word| !word.is_empty() && *word != "-") {
        match word.strip_prefix('~') {
            Some(loose) => all.extend(vec![JUNK; loose.parse().ok()?]),
            None => {
                all.push(word.parse().ok()?);
                all.extend([JUNK; OBJECT_WIDTH - 1]);
            }
        }
    }
    Some(all)
}
