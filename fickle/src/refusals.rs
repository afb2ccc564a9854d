//! Why a call is refused: the numbers and words of documents 01 and 02, and the line to blame.

use crate::explanations::{sentence, word};
use std::fmt;

/// Why a call was refused, by the word that documents 01 and 02 have for it; `explanation` has an example of each. The
/// numbers 14, 15 and 16 are not among them: a run that stops was accepted, and its outcome is a `Stop`.
#[derive(Clone, Copy, Debug, PartialEq, Eq, PartialOrd, Ord, Hash)]
pub enum Reason {
    /// A line or row is malformed, or the length of a slice is wrong.
    Line = 1,
    /// There is more of something than is allowed, fuel included.
    Limit = 2,
    /// A record is not due here, a block has no expressions, or the program ends too early.
    Place = 3,
    /// A class is not declared, or a name is given twice.
    Name = 4,
    /// The kind of a class, the type of a field, or an X is wrong.
    Kind = 5,
    /// The heading of an overriding method differs, or its effect grows.
    Override = 6,
    /// A slot is not in scope, or `this` would be set.
    Slot = 7,
    /// There is no such field or method, or another count of arguments.
    Member = 8,
    /// A type is not what a rule needs.
    Type = 9,
    /// The effect of a body exceeds its X lines.
    Effect = 10,
    /// The class or the root of a change of class is wrong.
    Change = 11,
    /// A field has a name that the translator reserves: 254 or 255.
    Reserved = 12,
    /// What was lent for the output is too short.
    Room = 13,
    /// One of a model's sums passes 4,000,000,000.
    Sum = 17,
    /// A run of a fleet cannot be counted.
    Class = 18,
    /// The first day of a price term follows its last, or an earlier line has its signing number.
    Term = 23,
    /// A day is not in the calendar or range.
    Date = 24,
}

impl Reason {
    /// All of them, in the order of their numbers.
    pub const ALL: [Reason; 17] = [
        Reason::Line,
        Reason::Limit,
        Reason::Place,
        Reason::Name,
        Reason::Kind,
        Reason::Override,
        Reason::Slot,
        Reason::Member,
        Reason::Type,
        Reason::Effect,
        Reason::Change,
        Reason::Reserved,
        Reason::Room,
        Reason::Sum,
        Reason::Class,
        Reason::Term,
        Reason::Date,
    ];

    /// Returns its number in documents 01 and 02.
    pub const fn number(self) -> u32 {
        self as u32
    }

    /// Returns the reason that has a number, or nothing where none has it.
    pub fn from_number(number: u32) -> Option<Reason> {
        Reason::ALL.into_iter().find(|reason| reason.number() == number)
    }

    /// Returns its word, as `effect`.
    pub fn word(self) -> &'static str {
        word(self.number())
    }

    /// Returns what it means, in a sentence.
    pub fn sentence(self) -> &'static str {
        sentence(self.number())
    }
}

/// A refusal: why, and the line, which is 0 where none is to blame. In a fleet the line is the place of a run or of a
/// counted line, from 1; of price terms it is the line of their text.
#[derive(Clone, Copy, Debug, PartialEq, Eq)]
pub struct Refusal {
    pub reason: Reason,
    pub line: u64,
}

impl Refusal {
    pub const fn new(reason: Reason, line: u64) -> Refusal {
        Refusal { reason, line }
    }

    /// Returns the number of its reason.
    pub const fn number(self) -> u32 {
        self.reason.number()
    }
}

/// The number and the line.
impl From<Refusal> for (u32, u64) {
    fn from(refusal: Refusal) -> (u32, u64) {
        (refusal.number(), refusal.line)
    }
}

impl fmt::Display for Refusal {
    fn fmt(&self, f: &mut fmt::Formatter) -> fmt::Result {
        write!(f, "number {}, line {}: {}", self.number(), self.line, self.reason.sentence())
    }
}

impl std::error::Error for Refusal {}

#[cfg(test)]
mod tests {
    use super::{Reason, Refusal};
    use crate::{explanations, Stop};

    #[test]
    fn every_number_of_the_page_is_a_reason_or_a_stop() {
        for found in explanations() {
            let reason = Reason::from_number(found.number);
            let stop = Stop::from_number(found.number);
            assert_eq!((reason.is_some(), stop.is_some()), (stop.is_none(), reason.is_none()), "{found:?}");
            // The word in the page is the name here, all but its capital.
            let name = reason.map_or_else(|| format!("{:?}", stop.unwrap()), |reason| format!("{reason:?}"));
            assert_eq!(name.to_lowercase(), found.word);
        }
        assert_eq!(explanations().count(), Reason::ALL.len() + Stop::ALL.len());
    }

    #[test]
    fn numbers_lead_back_to_their_reasons() {
        for reason in Reason::ALL {
            assert_eq!(Reason::from_number(reason.number()), Some(reason));
        }
        for number in [0, 14, 15, 16, 19, 20, 21, 22, 25, 1_000, u32::MAX] {
            assert_eq!(Reason::from_number(number), None);
        }
        assert!(Reason::ALL.is_sorted());
    }

    #[test]
    fn a_refusal_prints_as_a_sentence() {
        let refusal = Refusal::new(Reason::Room, 0);
        let sentence = "The buffer lent for the result is too short; nothing was written.";
        assert_eq!(refusal.to_string(), format!("number 13, line 0: {sentence}"));
        assert_eq!(<(u32, u64)>::from(Refusal::new(Reason::Date, 7)), (24, 7));
    }
}
