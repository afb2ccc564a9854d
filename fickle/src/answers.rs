//! What the proved services return, as types, and how the numbers that cross from C are read. The functions that unpack
//! are those of crates/packing/specs/Unpacked.antt, and crates/packing/proofs/Faithful.antt proves that every answer is
//! read back as it was given.

use crate::explanations::{sentence, word};
use crate::{Reason, Refusal};

/// A value. Objects count from 1 in the order in which they were made.
#[derive(Clone, Copy, Debug, PartialEq, Eq)]
pub enum Value {
    Null,
    Truth(bool),
    Object(u32),
}

/// An exception that ends a run.
#[derive(Clone, Copy, Debug, PartialEq, Eq, PartialOrd, Ord, Hash)]
pub enum Exception {
    /// Null where an object is needed.
    NullObject = 1,
    /// An object of another class than its cast asks for.
    WrongClass = 2,
}

impl Exception {
    /// All of them, in the order of their numbers.
    pub const ALL: [Exception; 2] = [Exception::NullObject, Exception::WrongClass];

    /// Returns its number in document 01.
    pub const fn number(self) -> u32 {
        self as u32
    }

    /// Returns the exception that has a number, or nothing where none has it.
    pub fn from_number(number: u32) -> Option<Exception> {
        Exception::ALL.into_iter().find(|exception| exception.number() == number)
    }
}

/// What stops a run before it ends in a value or an exception.
#[derive(Clone, Copy, Debug, PartialEq, Eq, PartialOrd, Ord, Hash)]
pub enum Stop {
    /// There is no fuel left to enter a node.
    Spent = 14,
    /// A call where 64 calls are active.
    Deep = 15,
    /// An object is to be made, and the store is used up.
    Full = 16,
}

impl Stop {
    /// All of them, in the order of their numbers.
    pub const ALL: [Stop; 3] = [Stop::Spent, Stop::Deep, Stop::Full];

    /// Returns its number in document 01.
    pub const fn number(self) -> u32 {
        self as u32
    }

    /// Returns the stop that has a number, or nothing where none has it.
    pub fn from_number(number: u32) -> Option<Stop> {
        Stop::ALL.into_iter().find(|stop| stop.number() == number)
    }

    /// Returns its word, as `spent`.
    pub fn word(self) -> &'static str {
        word(self.number())
    }

    /// Returns what it means, in a sentence.
    pub fn sentence(self) -> &'static str {
        sentence(self.number())
    }
}

/// How a run ended.
#[derive(Clone, Copy, Debug, PartialEq, Eq)]
pub enum Outcome {
    Value(Value),
    Exception(Exception),
    Stop(Stop),
}

/// The answer of a run: the outcome, nodes entered, objects made and changes of class.
#[derive(Clone, Copy, Debug, PartialEq, Eq)]
pub struct Run {
    pub outcome: Outcome,
    pub steps: u32,
    pub objects: u32,
    pub changes: u32,
}

impl Run {
    /// Returns how many objects the plain program makes where it ends alike: an Identity and an implementor for each
    /// object, and one more implementor for each change of class.
    pub const fn plain_objects(&self) -> u64 {
        2 * self.objects as u64 + self.changes as u64
    }
}

/// The number of an answer that has a result, or of a run that ended in a value.
const NO_REFUSAL: u32 = 0;
/// The number of a run's answer where it ended in an exception, which is then in the place of a line.
const EXCEPTION: u32 = 1_000;
/// The kinds of values.
const NULL: u32 = 0;
const BOOL: u32 = 1;
const OBJECT: u32 = 2;

/// The two words of an answer: its number, and its line or result.
fn two_words(answer: u64) -> (u32, u32) {
    ((answer >> u32::BITS) as u32, answer as u32)
}

/// A result, or a refusal.
pub(crate) fn unpack(answer: u64) -> Result<u32, Refusal> {
    match two_words(answer) {
        (NO_REFUSAL, result) => Ok(result),
        (number, line) => Err(refusal(number, u64::from(line))),
    }
}

/// How a run ended, or its refusal.
pub(crate) fn unpack_run(answer: u64, kind: u32, content: u32) -> Result<Outcome, Refusal> {
    match two_words(answer) {
        (NO_REFUSAL, _) => Ok(Outcome::Value(unpack_value(kind, content))),
        (EXCEPTION, exception) => Ok(Outcome::Exception(unpack_exception(exception))),
        (number, line) => match Stop::from_number(number) {
            Some(stop) => Ok(Outcome::Stop(stop)),
            None => Err(refusal(number, u64::from(line))),
        },
    }
}

fn refusal(number: u32, line: u64) -> Refusal {
    match Reason::from_number(number) {
        Some(reason) => Refusal { reason, line },
        None => unreachable!("no service refuses with number {number}"),
    }
}

fn unpack_value(kind: u32, content: u32) -> Value {
    match kind {
        NULL => Value::Null,
        BOOL => Value::Truth(content == 1),
        OBJECT => Value::Object(content),
        _ => unreachable!("no value has kind {kind}"),
    }
}

fn unpack_exception(number: u32) -> Exception {
    match Exception::from_number(number) {
        Some(exception) => exception,
        None => unreachable!("no run ends in exception {number}"),
    }
}

/// How many bytes of a report over fleets were written, or a refusal with its line.
pub(crate) fn unpack_report(number: u32, told: u64) -> Result<usize, Refusal> {
    match number {
        NO_REFUSAL => Ok(told as usize),
        _ => Err(refusal(number, told)),
    }
}

#[cfg(test)]
mod tests {
    use super::{unpack, unpack_report, unpack_run};
    use super::{Exception, Outcome, Stop, Value, BOOL, EXCEPTION, NULL, OBJECT};
    use crate::header::defined;
    use crate::{Reason, Refusal};

    #[test]
    fn names_numbers_as_the_header_does() {
        assert_eq!(defined::<u32>("FICKLE_NULL"), NULL);
        assert_eq!(defined::<u32>("FICKLE_BOOL"), BOOL);
        assert_eq!(defined::<u32>("FICKLE_OBJECT"), OBJECT);
        assert_eq!(defined::<u32>("FICKLE_EXCEPTION"), EXCEPTION);
        assert_eq!(defined::<u32>("FICKLE_SPENT"), Stop::Spent.number());
        assert_eq!(defined::<u32>("FICKLE_DEEP"), Stop::Deep.number());
        assert_eq!(defined::<u32>("FICKLE_FULL"), Stop::Full.number());
        assert_eq!(defined::<u32>("FICKLE_NULL_OBJECT"), Exception::NullObject.number());
        assert_eq!(defined::<u32>("FICKLE_WRONG_CLASS"), Exception::WrongClass.number());
    }

    /// An answer of these two words.
    fn words(number: u32, line: u32) -> u64 {
        u64::from(number) << 32 | u64::from(line)
    }

    #[test]
    fn reads_every_refusal() {
        for reason in Reason::ALL {
            let refused = Refusal::new(reason, 15);
            assert_eq!(unpack(words(reason.number(), 15)), Err(refused));
            assert_eq!(unpack_run(words(reason.number(), 15), NULL, 0), Err(refused));
            assert_eq!(unpack_report(reason.number(), 1 << 40), Err(Refusal::new(reason, 1 << 40)));
        }
    }

    #[test]
    fn reads_every_end_of_a_run() {
        let value = |value| Ok(Outcome::Value(value));
        assert_eq!(unpack_run(0, NULL, 0), value(Value::Null));
        assert_eq!(unpack_run(0, BOOL, 0), value(Value::Truth(false)));
        assert_eq!(unpack_run(0, BOOL, 1), value(Value::Truth(true)));
        assert_eq!(unpack_run(0, OBJECT, 1), value(Value::Object(1)));
        // Kind and content say nothing where the run did not end in a value.
        for (kind, content) in [(NULL, 0), (OBJECT, 7)] {
            let ended = |number, line| unpack_run(words(number, line), kind, content);
            assert_eq!(ended(EXCEPTION, 1), Ok(Outcome::Exception(Exception::NullObject)));
            assert_eq!(ended(EXCEPTION, 2), Ok(Outcome::Exception(Exception::WrongClass)));
            for stop in Stop::ALL {
                assert_eq!(ended(stop.number(), 0), Ok(Outcome::Stop(stop)));
            }
            assert_eq!(ended(3, 15), Err(Refusal::new(Reason::Place, 15)));
        }
    }
}
