//! What the numbers of refusals and stops mean. docs/REFUSALS.md is the only source: a section for each number, with its
//! word, a sentence, a smallest example and the call that answers so.

/// The page, as it is read by people.
const PAGE: &str = include_str!("../../docs/REFUSALS.md");

/// A section of the page.
#[derive(Clone, Copy, Debug, PartialEq, Eq)]
pub struct Explanation {
    /// The number of a `Reason` or of a `Stop`.
    pub number: u32,
    /// Its word, as `effect`.
    pub word: &'static str,
    /// What it means, in a sentence.
    pub sentence: &'static str,
    /// A smallest program, for 17 counted lines, for 23 and 24 price terms; a line a record, where spaces stand for tabs.
    pub example: &'static str,
    /// What is called on that example, and its answer.
    pub call: &'static str,
}

/// Returns all sections, in the order of their numbers.
pub fn explanations() -> impl Iterator<Item = Explanation> {
    PAGE.split("\n## ").skip(1).filter_map(section)
}

/// Returns the section of a number.
pub fn explanation(number: u32) -> Option<Explanation> {
    explanations().find(|found| found.number == number)
}

/// Returns the word of a refusal's or stop's number.
pub(crate) fn word(number: u32) -> &'static str {
    explanation(number).map_or("", |found| found.word)
}

/// Returns what a refusal or a stop means, in a sentence.
pub(crate) fn sentence(number: u32) -> &'static str {
    explanation(number).map_or("", |found| found.sentence)
}

fn section(text: &'static str) -> Option<Explanation> {
    let (heading, rest) = text.split_once('\n')?;
    let (number, word) = heading.split_once(' ')?;
    let (sentence, rest) = rest.split_once("\n```\n")?;
    let (example, call) = rest.split_once("```\n")?;
    Some(Explanation { number: number.parse().ok()?, word, sentence, example, call: call.trim_end() })
}

#[cfg(test)]
mod tests {
    use super::explanations;
    use crate::{Reason, Stop};

    #[test]
    fn every_number_has_a_section() {
        let numbers: Vec<u32> = explanations().map(|found| found.number).collect();
        let reasons = Reason::ALL.map(Reason::number).into_iter();
        let mut known: Vec<u32> = reasons.chain(Stop::ALL.map(Stop::number)).collect();
        known.sort();
        assert_eq!(numbers, known);
        for found in explanations() {
            let parts = [found.word, found.sentence, found.example, found.call];
            assert!(parts.iter().all(|part| !part.trim().is_empty()), "{found:?}");
            assert!(!found.sentence.contains('\n') && !found.call.contains('\n'), "{found:?}");
        }
    }
}
