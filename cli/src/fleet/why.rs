//! Why a run cannot be counted, in words: the verdict is a service's, and what is said here explains it.

use super::runs::Taken;
use super::{Fleet, Run};
use crate::input::{self, Input};
use fickle::{check_rows, Reason, Refusal, OBJECT_WIDTH, ROW_WIDTH};

/// A refusal of a run: the fleet's line, number and word, sentence; then why, where that can be told.
pub fn refused(fleet: &Fleet, run: &Run, taken: &Taken, refusal: Refusal) -> String {
    let refused = format!("{}: {}", fleet.at(run), input::refused(refusal.reason));
    match (refusal.reason == Reason::Class).then(|| why(run, taken)).flatten() {
        Some(why) => format!("{refused}\n{}: note: {why}", fleet.at(run)),
        None => refused,
    }
}

/// Why a run is 18: its rules, its classes, or its store.
fn why(run: &Run, taken: &Taken) -> Option<String> {
    if let Some(verdict) = rules_refused(run) {
        return Some(format!("its rules are refused: {verdict}"));
    }
    let above: Vec<u32> = taken
        .rows
        .chunks_exact(ROW_WIDTH)
        .filter(|row| row[0] == u32::from(b'C'))
        .map(|row| row[2])
        .collect();
    let (printed, spoiled) = (run.printed, run.spoiled);
    let rules = run.rules.to_string_lossy();
    for (what, class) in [("printed", printed), ("spoiled", spoiled)] {
        if class == 0 || class as usize > above.len() {
            return Some(format!(
                "{rules} declares {}, so {class} cannot be the {what} class",
                declared(above.len())
            ));
        }
    }
    if !is_strictly_below(&above, spoiled, printed) {
        return Some(format!(
            "in {rules} class {spoiled} is not strictly below class {printed}; the printed class comes first on the line"
        ));
    }
    if taken.plain {
        return Some(
            "an Identity has no implementor among the objects; is it the store of a plain run?".to_string(),
        );
    }
    let lacking =
        taken.store.chunks(OBJECT_WIDTH).map(|object| object[0]).find(|class| *class as usize > above.len());
    lacking.map(|class| {
        format!("the store holds an object of class {class}, which {rules} does not declare; is it a store of these rules?")
    })
}

/// The verdict on the rules, where they are refused.
fn rules_refused(run: &Run) -> Option<String> {
    let input = Input::open(&run.rules).ok()?;
    let refusal = input.rows().and_then(|rows| check_rows(&rows)).err()?;
    Some(input.refused(refusal))
}

/// The classes of a program, in words.
fn declared(classes: usize) -> String {
    match classes {
        0 => "no class".to_string(),
        1 => "class 1 alone".to_string(),
        _ => format!("classes 1 to {classes}"),
    }
}

/// Whether a class is below another and not the same. A superclass has a lower number in rules that are accepted.
fn is_strictly_below(above: &[u32], class: u32, upper: u32) -> bool {
    let mut class = above[class as usize - 1];
    while class > upper {
        class = above[class as usize - 1];
    }
    class == upper
}
