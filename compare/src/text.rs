//! Cases of the reader and the writer.

use crate::cases::Case;
use second::generate;
use second::random::Random;

/// A generated text, read into a buffer.
pub fn reading(random: &mut Random) -> Vec<Case> {
    let text = generate::text(random);
    let lines = text.iter().filter(|byte| **byte == b'\n').count();
    let rows = junk(random, lines * 4, |bits| bits as u32);
    vec![Case::Read { text, rows }]
}

/// A generated row buffer, written as text.
pub fn writing(random: &mut Random) -> Vec<Case> {
    let rows = generate::row_buffer(random);
    let text = junk(random, rows.len() * 2, |bits| bits as u8);
    vec![Case::Write { rows, text }]
}

/// A buffer full of junk: about as long as needed, at times too short, at times longer.
pub fn junk<T>(random: &mut Random, about: usize, number: fn(u64) -> T) -> Vec<T> {
    let length = match random.below(8) {
        0 => random.below(about + 1),
        1 => about.saturating_sub(1),
        2 => about,
        _ => about + random.below(16),
    };
    (0..length).map(|_| number(random.bits())).collect()
}
