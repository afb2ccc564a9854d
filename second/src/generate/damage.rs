//! Damaged programs: well-typed ones with one to three faults, each aimed at a refusal or at random.

use super::program::program;
use crate::random::Random;
use crate::rows::{letter, ROW_WIDTH};

mod aims;

/// The refusals that a program's rows alone can bring about.
pub const REFUSALS: [u32; 12] = [1, 2, 3, 4, 5, 6, 7, 8, 9, 10, 11, 12];

/// A damaged program; now and then a fault leaves it whole.
pub fn damaged(random: &mut Random) -> Vec<u32> {
    let mut rows = Damaged { rows: program(random) };
    for _ in 0..random.pick(&[1, 1, 1, 2, 2, 3]) {
        if random.chance(25) {
            rows.anything(random);
        } else {
            rows.aimed(random.pick(&REFUSALS), random);
        }
    }
    rows.rows
}

/// A program with one fault aimed at a refusal.
pub fn damaged_for(number: u32, random: &mut Random) -> Vec<u32> {
    let mut rows = Damaged { rows: program(random) };
    rows.aimed(number, random);
    rows.rows
}

struct Damaged {
    rows: Vec<u32>,
}

impl Damaged {
    fn count(&self) -> usize {
        self.rows.len() / ROW_WIDTH
    }

    fn letter(&self, row: usize) -> u32 {
        self.rows[row * ROW_WIDTH]
    }

    fn number(&self, row: usize, place: usize) -> u32 {
        self.rows[row * ROW_WIDTH + place]
    }

    fn put(&mut self, row: usize, place: usize, number: u32) {
        self.rows[row * ROW_WIDTH + place] = number;
    }

    fn insert(&mut self, row: usize, numbers: [u32; ROW_WIDTH]) {
        self.rows.splice(row * ROW_WIDTH..row * ROW_WIDTH, numbers);
    }

    fn remove(&mut self, from: usize, to: usize) {
        self.rows.drain(from * ROW_WIDTH..to * ROW_WIDTH);
    }

    /// A row with one of the letters.
    fn any_of(&self, letters: &[u32], random: &mut Random) -> Option<usize> {
        let found: Vec<usize> =
            (0..self.count()).filter(|row| letters.contains(&self.letter(*row))).collect();
        if found.is_empty() {
            None
        } else {
            Some(random.pick(&found))
        }
    }

    fn any_row(&self, random: &mut Random) -> Option<usize> {
        if self.count() == 0 {
            None
        } else {
            Some(random.below(self.count()))
        }
    }

    /// A row that opens an expression other than a method's or the start's outer block.
    fn any_expression(&self, random: &mut Random) -> Option<usize> {
        let inner = |row: &usize| {
            letter::is_expression(self.letter(*row))
                && *row > 0
                && ![letter::START, letter::METHOD, letter::PARAMETER, letter::EFFECT]
                    .contains(&self.letter(*row - 1))
        };
        let found: Vec<usize> = (0..self.count()).filter(inner).collect();
        if found.is_empty() {
            None
        } else {
            Some(random.pick(&found))
        }
    }

    /// The row after an expression, as far as the rows go.
    fn end_of(&self, row: usize) -> usize {
        let (mut at, mut pending) = (row, 1);
        while pending > 0 && at < self.count() {
            pending += match self.letter(at) {
                letter::LOCAL => 0,
                letter::BLOCK => self.number(at, 2) as usize,
                letter::IS_NULL | letter::GET | letter::CAST | letter::ASSIGN => 1,
                letter::SET => 2,
                letter::CALL => 1 + self.number(at, 2) as usize,
                letter::IF => 3,
                _ => 0,
            };
            pending -= usize::from(self.letter(at) != letter::LOCAL);
            at += 1;
        }
        at
    }

    /// The rows of the C lines, in order.
    fn classes(&self) -> Vec<usize> {
        (0..self.count()).filter(|row| self.letter(*row) == letter::CLASS).collect()
    }

    /// A class of one of the kinds.
    fn class_of(&self, kinds: &[u32], random: &mut Random) -> Option<u32> {
        let classes = self.classes();
        let found: Vec<u32> = (1..)
            .zip(&classes)
            .filter(|(_, row)| kinds.contains(&self.number(**row, 1)))
            .map(|(c, _)| c)
            .collect();
        if found.is_empty() {
            None
        } else {
            Some(random.pick(&found))
        }
    }

    fn start(&self) -> usize {
        (0..self.count()).find(|row| self.letter(*row) == letter::START).unwrap_or(self.count())
    }

    /// A fault without an aim: a number, a row or an expression changed, moved, doubled or taken away.
    fn anything(&mut self, random: &mut Random) -> Option<()> {
        let row = self.any_row(random)?;
        match random.below(8) {
            0 => self.put(row, random.between(0, 3), random.below(260) as u32),
            1 | 2 => {
                let count = letter::numbers(self.letter(row))?;
                if count > 0 {
                    let small = random.below(12) as u32;
                    self.put(row, random.between(1, count), small);
                }
            }
            3 => self.remove(row, row + 1),
            4 => {
                let same: Vec<u32> = self.rows[row * ROW_WIDTH..(row + 1) * ROW_WIDTH].to_vec();
                let to = self.any_row(random)?;
                self.insert(to, [same[0], same[1], same[2], same[3]]);
            }
            5 => {
                let other = self.any_row(random)?;
                for place in 0..ROW_WIDTH {
                    self.rows.swap(row * ROW_WIDTH + place, other * ROW_WIDTH + place);
                }
            }
            _ => {
                let (from, to) = (self.any_expression(random)?, self.any_expression(random)?);
                let copy = self.rows[from * ROW_WIDTH..self.end_of(from) * ROW_WIDTH].to_vec();
                let end = self.end_of(to);
                self.rows.splice(to * ROW_WIDTH..end * ROW_WIDTH, copy);
            }
        }
        Some(())
    }

    /// A fault that is likely to bring about a refusal.
    fn aimed(&mut self, number: u32, random: &mut Random) -> Option<()> {
        match number {
            1 => self.for_line(random),
            2 => self.for_limit(random),
            3 => self.for_place(random),
            4 => self.for_name(random),
            5 => self.for_kind(random),
            6 => self.for_override(random),
            7 => self.for_slot(random),
            8 => self.for_member(random),
            9 => self.for_type(random),
            10 => self.for_effect(random),
            11 => self.for_change(random),
            _ => self.for_reserved(random),
        }
    }
}
