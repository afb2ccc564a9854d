//! Cases of the check.

use crate::cases::Case;
use second::generate::{self, extreme};
use second::random::Random;
use second::rows::{letter, CHECKED, ROW_WIDTH};

/// Generated rows, checked.
pub fn checking(random: &mut Random) -> Vec<Case> {
    vec![Case::Check { rows: program(random) }]
}

/// A program, well typed or nearly so, damaged, at a limit, or any rows at all; now and then a number is missing.
pub fn program(random: &mut Random) -> Vec<u32> {
    let mut rows = match random.below(16) {
        0..=4 => generate::near_missed(random),
        5..=9 => generate::damaged(random),
        10..=12 => generate::damaged_for(random.pick(&generate::REFUSALS), random),
        13 => generate::row_buffer(random),
        _ => generate::extreme(random),
    };
    if random.chance(2) {
        rows.truncate(rows.len().saturating_sub(random.between(1, 3)));
    }
    rows
}

/// Each limit of the check on both sides, and lengths that are not a multiple of 4.
pub fn limits() -> Vec<Case> {
    let mut random = Random::new(7);
    let mut programs = Vec::new();
    for past in 0..3 {
        let near = |limit: usize| limit - 1 + past;
        programs.push(extreme::parameters(near(CHECKED.parameters)));
        programs.push(extreme::classes(near(CHECKED.classes), &mut random));
        programs.push(extreme::names(near(CHECKED.name as usize) as u32));
        programs.push(extreme::rows(near(CHECKED.rows)));
        for _ in 0..20 {
            programs.push(extreme::nesting(near(CHECKED.nesting), &mut random));
            programs.push(extreme::slots(near(CHECKED.slots), &mut random));
            programs.push(extreme::fields(near(CHECKED.fields), &mut random));
        }
    }
    let mut after_the_end = extreme::rows(CHECKED.rows);
    after_the_end.extend([letter::TRUE, 0, 0, 0]);
    let mut malformed = after_the_end.clone();
    malformed[CHECKED.rows * ROW_WIDTH + 3] = 1;
    let mut early = extreme::rows(CHECKED.rows + 1);
    early.truncate(CHECKED.rows * ROW_WIDTH);
    programs.extend([after_the_end, malformed, early, extreme::long_program(CHECKED.rows - 10), Vec::new()]);
    programs.extend([1, 2, 3, 5, 239_999, 240_001, 240_004].map(|length| vec![letter::TRUE; length]));
    programs.into_iter().map(|rows| Case::Check { rows }).collect()
}
