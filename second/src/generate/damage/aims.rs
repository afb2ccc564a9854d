//! Faults aimed at one refusal each.

use super::Damaged;
use crate::random::Random;
use crate::rows::{letter, BOOL, NUMBER_MOST, OBJECT, PLAIN, ROOT, ROW_WIDTH, STATE};

impl Damaged {
    pub(super) fn for_line(&mut self, random: &mut Random) -> Option<()> {
        let row = self.any_row(random)?;
        let count = letter::numbers(self.letter(row)).unwrap_or(0);
        match random.below(5) {
            0 => self.put(row, 0, random.pick(&[0, 68, 72, 90 + 7, 84 + 256, u32::MAX])),
            1 if count > 0 => {
                let large = random.pick(&[NUMBER_MOST + 1, 1 << 31, u32::MAX]);
                self.put(row, random.between(1, count), large);
            }
            2 => {
                let length = self.rows.len() - random.between(1, 3);
                self.rows.truncate(length);
            }
            _ => self.put(row, random.between(count + 1, 3), random.pick(&[1, 7, u32::MAX])),
        }
        Some(())
    }

    pub(super) fn for_limit(&mut self, random: &mut Random) -> Option<()> {
        match random.below(6) {
            0 => {
                let row = self.any_of(&[letter::FIELD, letter::METHOD], random)?;
                self.put(row, 2, random.pick(&[256, 257, NUMBER_MOST]));
            }
            1 => {
                let row = self.any_of(&[letter::GET, letter::SET, letter::CALL], random)?;
                self.put(row, 1, random.pick(&[256, 257, NUMBER_MOST]));
            }
            2 => {
                let row = self.any_of(&[letter::METHOD], random)?;
                for _ in 0..random.between(6, 9) {
                    self.insert(row + 1, [letter::PARAMETER, BOOL, 0, 0]);
                }
            }
            3 => {
                let row = self.any_of(&[letter::BLOCK], random)?;
                let more = random.pick(&[20, 31, 32, 240, 255, 256, 300]);
                let v = self.number(row, 1);
                self.put(row, 1, v.saturating_add(more));
                for _ in 0..more {
                    self.insert(row + 1, [letter::LOCAL, BOOL, 0, 0]);
                }
            }
            4 => {
                let row = self.any_expression(random)?;
                for _ in 0..random.pick(&[18, 20, 22, 24, 110, 125, 128]) {
                    self.insert(row, [letter::BLOCK, 0, 1, 0]);
                }
            }
            _ => {
                let row = self.any_of(&[letter::CLASS], random)?;
                for name in 100..100 + random.between(13, 18) as u32 {
                    self.insert(row + 1, [letter::FIELD, BOOL, name, 0]);
                }
            }
        }
        Some(())
    }

    pub(super) fn for_place(&mut self, random: &mut Random) -> Option<()> {
        let row = self.any_row(random)?;
        match random.below(6) {
            0 => self.rows.truncate(row * ROW_WIDTH),
            1 => self.remove(row, row + 1),
            2 => {
                let block = self.any_of(&[letter::BLOCK], random)?;
                self.put(block, random.between(1, 2), random.below(5) as u32);
            }
            3 => {
                let block = self.any_of(&[letter::BLOCK], random)?;
                self.put(block, 2, 0);
            }
            4 => self.rows.extend([random.pick(&[letter::TRUE, letter::START, letter::NULL]), 0, 0, 0]),
            _ => {
                let stray = random.pick(&[
                    [letter::FIELD, BOOL, 3, 0],
                    [letter::PARAMETER, BOOL, 0, 0],
                    [letter::EFFECT, 1, 0, 0],
                    [letter::LOCAL, BOOL, 0, 0],
                    [letter::START, 0, 0, 0],
                    [letter::CLASS, 0, 0, 0],
                    [letter::METHOD, BOOL, 9, 0],
                    [letter::TRUE, 0, 0, 0],
                ]);
                self.insert(row, stray);
            }
        }
        Some(())
    }

    pub(super) fn for_name(&mut self, random: &mut Random) -> Option<()> {
        let count = self.classes().len() as u32;
        let undeclared = random.pick(&[count + 1, count + 1, 65, 254, 256, NUMBER_MOST]);
        match random.below(6) {
            0 => {
                let row =
                    self.any_of(&[letter::FIELD, letter::METHOD, letter::PARAMETER, letter::EFFECT], random)?;
                self.put(row, 1, undeclared);
            }
            1 => {
                let row = self.any_of(&[letter::LOCAL, letter::CAST, letter::NEW], random)?;
                self.put(row, 1, random.pick(&[undeclared, undeclared, BOOL]));
            }
            2 => {
                let row = self.any_of(&[letter::CHANGE, letter::CLASS], random)?;
                self.put(row, 2, undeclared);
            }
            3 => {
                let row = self.any_of(&[letter::CLASS], random)?;
                self.put(row, 2, random.between(1, count as usize) as u32);
            }
            4 => {
                let row = self.any_of(&[letter::FIELD], random)?;
                let (of_type, name) = (self.number(row, 1), self.number(row, 2));
                self.insert(row + 1, [letter::FIELD, of_type, name, 0]);
            }
            _ => {
                let row = self.any_of(&[letter::METHOD], random)?;
                let name = self.number(row, 2);
                self.insert(row, [letter::TRUE, 0, 0, 0]);
                self.insert(row, [letter::BLOCK, 0, 1, 0]);
                self.insert(row, [letter::METHOD, BOOL, name, 0]);
            }
        }
        Some(())
    }

    pub(super) fn for_kind(&mut self, random: &mut Random) -> Option<()> {
        match random.below(5) {
            0 => {
                let row = self.any_of(&[letter::CLASS], random)?;
                self.put(row, 1, random.pick(&[0, 1, 2, 3, NUMBER_MOST]));
            }
            1 => {
                let row = self.any_of(&[letter::FIELD], random)?;
                let state = self.class_of(&[STATE], random)?;
                self.put(row, 1, state);
            }
            2 => {
                let row = self.any_of(&[letter::EFFECT], random)?;
                let class = self.number(row, 1);
                self.insert(row, [letter::EFFECT, class, 0, 0]);
            }
            3 => {
                let row = self.any_of(&[letter::EFFECT], random)?;
                self.put(row, 1, random.below(self.classes().len() + 1) as u32);
            }
            _ => {
                let row = self.any_of(&[letter::METHOD], random)?;
                let parameters =
                    (row + 1..self.count()).take_while(|at| self.letter(*at) == letter::PARAMETER);
                let at = row + 1 + parameters.count();
                let class = self.class_of(&[PLAIN, STATE, ROOT], random)?;
                self.insert(at, [letter::EFFECT, class, 0, 0]);
            }
        }
        Some(())
    }

    /// A class below one that has a method, with that method's name and another heading.
    pub(super) fn for_override(&mut self, random: &mut Random) -> Option<()> {
        let method = self.any_of(&[letter::METHOD], random)?;
        let classes = self.classes();
        let class = classes.iter().filter(|row| **row < method).count() as u32;
        let kind = self.number(*classes.get((class as usize).checked_sub(1)?)?, 1);
        let kind = if kind == PLAIN { PLAIN } else { STATE };
        let (mut result, name) = (self.number(method, 1), self.number(method, 2));
        let headed = |letter: u32| {
            let lines = (method + 1..self.count())
                .take_while(|row| [letter::PARAMETER, letter::EFFECT].contains(&self.letter(*row)));
            lines
                .filter(|row| self.letter(*row) == letter)
                .map(|row| self.number(row, 1))
                .collect::<Vec<u32>>()
        };
        let (mut parameters, mut effect) = (headed(letter::PARAMETER), headed(letter::EFFECT));
        match random.below(5) {
            0 => {
                let other = random.between(1, classes.len()) as u32;
                let changed = random.pick(&[BOOL, OBJECT, other, other]);
                result = if changed == result { OBJECT } else { changed };
            }
            1 => parameters.push(BOOL),
            2 if !parameters.is_empty() => {
                let at = random.below(parameters.len());
                parameters[at] = random.pick(&[BOOL, OBJECT, 1, 99]);
            }
            _ => {
                effect.push(random.pick(&[0, 1, 2, 3, 64, 65, 99]));
                effect.sort_unstable();
            }
        }
        let mut added = vec![letter::CLASS, kind, class, 0, letter::METHOD, result, name, 0];
        added.extend(parameters.iter().flat_map(|of_type| [letter::PARAMETER, *of_type, 0, 0]));
        added.extend(effect.iter().flat_map(|root| [letter::EFFECT, *root, 0, 0]));
        let literal = if result == BOOL { letter::FALSE } else { letter::NULL };
        added.extend([letter::BLOCK, 0, 1, 0, literal, 0, 0, 0]);
        let at = self.start() * ROW_WIDTH;
        self.rows.splice(at..at, added);
        Some(())
    }

    pub(super) fn for_slot(&mut self, random: &mut Random) -> Option<()> {
        let row = self.any_of(&[letter::SLOT, letter::ASSIGN, letter::CHANGE], random)?;
        let slot = self.number(row, 1);
        let next = slot.saturating_add(random.between(1, 4) as u32);
        self.put(row, 1, random.pick(&[0, next, next, 255, 256, NUMBER_MOST]));
        Some(())
    }

    pub(super) fn for_member(&mut self, random: &mut Random) -> Option<()> {
        if random.chance(60) {
            let row = self.any_of(&[letter::GET, letter::SET, letter::CALL], random)?;
            self.put(row, 1, random.pick(&[0, 1, 2, 3, 4, 200]));
            return Some(());
        }
        let row = self.any_of(&[letter::CALL], random)?;
        let count = self.number(row, 2);
        if count > 0 && random.chance(30) {
            let mut last = self.end_of(row + 1);
            for _ in 1..count.min(self.count() as u32) {
                last = self.end_of(last);
            }
            let end = self.end_of(last);
            self.remove(last, end);
            self.put(row, 2, count - 1);
        } else {
            let end = self.end_of(row);
            let more = random.pick(&[1, 1, 9]);
            for _ in 0..more {
                self.insert(end, [random.pick(&[letter::TRUE, letter::NULL]), 0, 0, 0]);
            }
            self.put(row, 2, count.saturating_add(more));
        }
        Some(())
    }

    pub(super) fn for_type(&mut self, random: &mut Random) -> Option<()> {
        let row = self.any_expression(random)?;
        let end = self.end_of(row);
        let class = random.below(self.classes().len() + 1) as u32;
        let other = random.pick(&[
            [letter::TRUE, 0, 0, 0],
            [letter::NULL, 0, 0, 0],
            [letter::NEW, OBJECT, 0, 0],
            [letter::NEW, class, 0, 0],
            [letter::SLOT, 1, 0, 0],
        ]);
        self.rows.splice(row * ROW_WIDTH..end * ROW_WIDTH, other);
        Some(())
    }

    pub(super) fn for_effect(&mut self, random: &mut Random) -> Option<()> {
        let row = self.any_of(&[letter::EFFECT], random)?;
        self.remove(row, row + 1);
        Some(())
    }

    pub(super) fn for_change(&mut self, random: &mut Random) -> Option<()> {
        let row = self.any_of(&[letter::CHANGE], random)?;
        if random.chance(70) {
            self.put(row, 2, random.below(self.classes().len() + 1) as u32);
        } else {
            self.put(row, 1, random.below(4) as u32);
        }
        Some(())
    }

    pub(super) fn for_reserved(&mut self, random: &mut Random) -> Option<()> {
        let row = self.any_of(&[letter::FIELD], random)?;
        let (name, reserved) = (self.number(row, 2), random.pick(&[254, 255]));
        for at in 0..self.count() {
            match self.letter(at) {
                letter::FIELD if self.number(at, 2) == name => self.put(at, 2, reserved),
                letter::GET | letter::SET if self.number(at, 1) == name => self.put(at, 1, reserved),
                _ => (),
            }
        }
        Some(())
    }
}
