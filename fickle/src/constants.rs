//! Sizes and limits of documents 01 and 02, for callers who lend buffers or choose fuel and room.

/// Numbers in a row: the letter's code, and three more.
pub const ROW_WIDTH: usize = 4;
/// Numbers in an object of a store: its class, then its fields, of which there are at most 17.
pub const OBJECT_WIDTH: usize = 18;
/// Numbers in a run of a fleet: model, count of rows, count of objects made, printed class, spoiled class, cents.
pub const RUN_WIDTH: usize = 6;
/// Numbers in a counted line: model, printed, spoiled, cents.
pub const COUNTED_WIDTH: usize = 4;

/// The most rows of a program, and the most lines of its text.
pub const MOST_ROWS: usize = 60_000;
/// The most rows of a program that is translated.
pub const MOST_TRANSLATED_ROWS: usize = 680;
/// The most objects that a store holds, however long it is.
pub const MOST_OBJECTS: usize = 65_535;
/// The most fuel of a run.
pub const MOST_FUEL: u64 = 100_000_000;

/// The most fuel of a source run for which the run of its translation is promised to end alike: on
/// `PLAIN_STEPS_A_STEP` times as much fuel, and with room for `Run::plain_objects` objects.
pub const MOST_SOURCE_FUEL: u64 = 1_000_000;
/// The most steps of a plain program for one step of its source.
pub const PLAIN_STEPS_A_STEP: u64 = 84;

// So the plain run of any such source is within the limit of fuel.
const _: () = assert!(PLAIN_STEPS_A_STEP * MOST_SOURCE_FUEL <= MOST_FUEL);

/// The largest number on a line of rules or of price terms. It is the last day, and the last model that a term can name.
pub const LARGEST_NUMBER: u32 = 65_535;
/// The most bytes of a line of rules: a letter, two numbers of five digits, each after a tab, and a line feed.
pub const MOST_LINE_BYTES: usize = 14;
/// The most bytes of a price term: five numbers of five digits, each with a tab or the line feed after it.
pub const MOST_TERM_BYTES: usize = 30;
/// The most bytes of a line in a report over a fleet: four numbers of ten digits, each with a tab or the line feed after it.
pub const MOST_MODEL_BYTES: usize = 44;
/// The most bytes of a price report: a line of three numbers of five digits for each of 31 days.
pub const MOST_PRICE_REPORT_BYTES: usize = 558;

#[cfg(test)]
mod tests {
    use super::*;
    use second::{fleet, rows};

    #[test]
    fn the_second_implementation_has_the_same() {
        assert_eq!((ROW_WIDTH, OBJECT_WIDTH), (rows::ROW_WIDTH, rows::OBJECT_WIDTH));
        assert_eq!((RUN_WIDTH, COUNTED_WIDTH), (fleet::RUN_WIDTH, fleet::LINE_WIDTH));
        assert_eq!((MOST_ROWS, MOST_TRANSLATED_ROWS), (rows::CHECKED.rows, rows::TRANSLATED.rows));
        assert_eq!((MOST_OBJECTS, MOST_FUEL), (rows::OBJECTS_MOST, rows::FUEL_MOST));
        assert_eq!(LARGEST_NUMBER, rows::NUMBER_MOST);
    }
}
