//! Rows: the table of letters, the limits and the refusals (document 01, "Lines and rows").

/// Numbers in a row: the letter's code and three numbers.
pub const ROW_WIDTH: usize = 4;
/// The largest number a line can hold.
pub const NUMBER_MOST: u32 = 65_535;
/// The most digits a number has.
pub const DIGITS_MOST: usize = 5;

/// Type number of bool.
pub const BOOL: u32 = 255;
/// Type and class number of Object.
pub const OBJECT: u32 = 0;

/// Kinds of classes.
pub const PLAIN: u32 = 0;
pub const ROOT: u32 = 1;
pub const STATE: u32 = 2;

/// The most of everything that one program may have.
#[derive(Clone, Copy, Debug, PartialEq, Eq)]
pub struct Limits {
    pub rows: usize,
    pub classes: usize,
    pub fields: usize,
    pub parameters: usize,
    pub slots: usize,
    pub nesting: usize,
    pub name: u32,
}

/// Limits of a checked program.
pub const CHECKED: Limits =
    Limits { rows: 60_000, classes: 64, fields: 17, parameters: 8, slots: 256, nesting: 128, name: 255 };

/// Limits of the translator's input.
pub const TRANSLATED: Limits =
    Limits { rows: 680, classes: 62, fields: 16, parameters: 8, slots: 32, nesting: 24, name: 255 };

/// The most fuel that a run may be given.
pub const FUEL_MOST: u64 = 100_000_000;
/// Calls that may be active at once.
pub const CALLS_MOST: usize = 64;
/// Numbers in a stored object: the class and its fields.
pub const OBJECT_WIDTH: usize = 18;
/// The most objects that a store can hold.
pub const OBJECTS_MOST: usize = 65_535;

/// Field `imp` of Identity in a plain program.
pub const IMP: u32 = 255;
/// Field `id` of FickleObject in a plain program.
pub const ID: u32 = 254;

/// The letters' codes.
pub mod letter {
    pub const CLASS: u32 = b'C' as u32;
    pub const FIELD: u32 = b'F' as u32;
    pub const METHOD: u32 = b'M' as u32;
    pub const PARAMETER: u32 = b'P' as u32;
    pub const EFFECT: u32 = b'X' as u32;
    pub const START: u32 = b'S' as u32;
    pub const BLOCK: u32 = b'B' as u32;
    pub const LOCAL: u32 = b'V' as u32;
    pub const TRUE: u32 = b'T' as u32;
    pub const FALSE: u32 = b'L' as u32;
    pub const NULL: u32 = b'N' as u32;
    pub const SLOT: u32 = b'I' as u32;
    pub const IS_NULL: u32 = b'Z' as u32;
    pub const GET: u32 = b'G' as u32;
    pub const CAST: u32 = b'K' as u32;
    pub const NEW: u32 = b'W' as u32;
    pub const CHANGE: u32 = b'R' as u32;
    pub const ASSIGN: u32 = b'A' as u32;
    pub const SET: u32 = b'U' as u32;
    pub const CALL: u32 = b'Q' as u32;
    pub const IF: u32 = b'J' as u32;

    /// All letters in the order of the table.
    pub const ALL: [u32; 21] = [
        CLASS, FIELD, METHOD, PARAMETER, EFFECT, START, BLOCK, LOCAL, TRUE, FALSE, NULL, SLOT, IS_NULL, GET,
        CAST, NEW, CHANGE, ASSIGN, SET, CALL, IF,
    ];

    /// How many numbers follow a letter; none for any other code.
    pub fn numbers(code: u32) -> Option<usize> {
        match code {
            CLASS | FIELD | METHOD | BLOCK | CHANGE | CALL => Some(2),
            PARAMETER | EFFECT | LOCAL | SLOT | GET | CAST | NEW | ASSIGN | SET => Some(1),
            START | TRUE | FALSE | NULL | IS_NULL | IF => Some(0),
            _ => None,
        }
    }

    /// Whether a letter opens an expression.
    pub fn is_expression(code: u32) -> bool {
        matches!(
            code,
            BLOCK
                | TRUE
                | FALSE
                | NULL
                | SLOT
                | IS_NULL
                | GET
                | CAST
                | NEW
                | CHANGE
                | ASSIGN
                | SET
                | CALL
                | IF
        )
    }
}

/// Numbers of the refusals and stops.
pub mod number {
    pub const LINE: u32 = 1;
    pub const LIMIT: u32 = 2;
    pub const PLACE: u32 = 3;
    pub const NAME: u32 = 4;
    pub const KIND: u32 = 5;
    pub const OVERRIDE: u32 = 6;
    pub const SLOT: u32 = 7;
    pub const MEMBER: u32 = 8;
    pub const TYPE: u32 = 9;
    pub const EFFECT: u32 = 10;
    pub const CHANGE: u32 = 11;
    pub const RESERVED: u32 = 12;
    pub const ROOM: u32 = 13;
    pub const SPENT: u32 = 14;
    pub const DEEP: u32 = 15;
    pub const FULL: u32 = 16;
    pub const SUM: u32 = 17;
    pub const CLASS: u32 = 18;
    pub const TERM: u32 = 23;
    pub const DATE: u32 = 24;
}

/// A refusal: its number and the line, or the place of a run, counted from 1; line 0 where no line is at fault.
#[derive(Clone, Copy, Debug, PartialEq, Eq)]
pub struct Refusal {
    pub number: u32,
    pub line: u64,
}

impl Refusal {
    pub fn new(number: u32, line: u32) -> Refusal {
        Refusal { number, line: u64::from(line) }
    }
}

/// The number and the line.
impl From<Refusal> for (u32, u64) {
    fn from(refusal: Refusal) -> (u32, u64) {
        (refusal.number, refusal.line)
    }
}

/// The refusal of a call, as an answer.
pub fn refuse<T>(number: u32, line: u32) -> Result<T, Refusal> {
    Err(Refusal::new(number, line))
}

/// Whether a row is a letter of the table with its numbers and zeros.
pub fn is_well_formed(row: &[u32; ROW_WIDTH]) -> bool {
    match letter::numbers(row[0]) {
        None => false,
        Some(count) => {
            row[1..=count].iter().all(|number| *number <= NUMBER_MOST)
                && row[count + 1..].iter().all(|rest| *rest == 0)
        }
    }
}

/// Row `index` (from 0) of a buffer.
pub fn row_at(rows: &[u32], index: usize) -> [u32; ROW_WIDTH] {
    let at = index * ROW_WIDTH;
    [rows[at], rows[at + 1], rows[at + 2], rows[at + 3]]
}

/// The name on a row, for the letters that have one.
pub fn name_of(row: &[u32; ROW_WIDTH]) -> Option<u32> {
    match row[0] {
        letter::FIELD | letter::METHOD => Some(row[2]),
        letter::GET | letter::SET | letter::CALL => Some(row[1]),
        _ => None,
    }
}

/// Refuses row buffers whose length is not a multiple of four: 1, line 0.
pub fn whole_rows(rows: &[u32]) -> Result<usize, Refusal> {
    if rows.len().is_multiple_of(ROW_WIDTH) {
        Ok(rows.len() / ROW_WIDTH)
    } else {
        refuse(number::LINE, 0)
    }
}
