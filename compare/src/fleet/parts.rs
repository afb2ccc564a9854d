//! What generated fleets are made of: programs for the sake of their classes, objects, and pairs of classes.

use crate::check::program;
use second::generate;
use second::random::Random;
use second::rows::{letter, CHECKED, OBJECT_WIDTH, PLAIN, ROOT, ROW_WIDTH, STATE};

/// Classes that no small program has, at the edges of tables and of numbers.
pub const ODD_CLASSES: [u32; 6] = [0, 63, 64, 65, 255, u32::MAX];

/// The superclass of each class of a program, from class 1 on.
pub fn superclasses(rows: &[u32]) -> Vec<u32> {
    let classes = rows.chunks_exact(ROW_WIDTH).filter(|row| row[0] == letter::CLASS);
    classes.map(|row| row[2]).collect()
}

/// A program for the sake of its classes.
pub fn rows_for_labels(random: &mut Random) -> Vec<u32> {
    match random.below(40) {
        0 => program(random),
        1 => generate::program(random),
        2 => tree(CHECKED.classes, random),
        3 => chain(random.between(1, CHECKED.classes + 1) as u32),
        _ => tree(random.between(2, 9), random),
    }
}

/// So many classes, each below Object or an earlier one.
pub fn tree(classes: usize, random: &mut Random) -> Vec<u32> {
    let mut rows = generate::extreme::Writer::default();
    let mut kinds = vec![PLAIN];
    for class in 1..=classes {
        let superclass = if class == 1 || random.chance(25) { 0 } else { random.between(1, class - 1) };
        let kind = if kinds[superclass] == PLAIN { random.pick(&[PLAIN, ROOT]) } else { STATE };
        kinds.push(kind);
        rows.row(letter::CLASS, kind, superclass as u32);
    }
    rows.row(letter::START, 0, 0).row(letter::BLOCK, 0, 1).row(letter::TRUE, 0, 0);
    rows.rows
}

/// So many plain classes, each below the one before.
pub fn chain(classes: u32) -> Vec<u32> {
    let mut rows = generate::extreme::Writer::default();
    for class in 0..classes {
        rows.row(letter::CLASS, PLAIN, class);
    }
    rows.row(letter::START, 0, 0).row(letter::BLOCK, 0, 1).row(letter::TRUE, 0, 0);
    rows.rows
}

/// Puts another last row in place of the present one: as good, or refused.
pub fn with_other_literal(rows: &mut [u32], random: &mut Random) {
    let last = rows.len().saturating_sub(ROW_WIDTH);
    if let Some(row) = rows.get_mut(last..).filter(|row| row.len() == ROW_WIDTH) {
        let good = random.chance(92);
        row[0] = if good { random.pick(&[letter::TRUE, letter::FALSE, letter::NULL]) } else { letter::SLOT };
        row[1] = u32::from(!good);
    }
}

/// Classes of a few objects, Object among them.
pub fn objects(superclasses: &[u32], random: &mut Random) -> Vec<u32> {
    (0..random.below(7)).map(|_| random.below(superclasses.len() + 1) as u32).collect()
}

pub fn objects_of(classes: &[u32]) -> Vec<u32> {
    classes.iter().flat_map(|class| object(*class, 9)).collect()
}

/// A printed class and a class below it, where a class drawn at random has one above it.
pub fn related_pair(superclasses: &[u32], random: &mut Random) -> (u32, u32) {
    let above = |class: u32| superclasses.get((class as usize).wrapping_sub(1)).copied().unwrap_or(0);
    let mut spoiled = 0;
    for _ in 0..8 {
        spoiled = random.between(1, superclasses.len().max(1)) as u32;
        if above(spoiled) != 0 {
            break;
        }
    }
    let mut printed = above(spoiled);
    // Superclasses of refused programs may go round in a ring.
    for _ in 0..random.below(4) {
        if above(printed) != 0 {
            printed = above(printed);
        }
    }
    (printed, spoiled)
}

/// Two classes that are seldom related.
pub fn odd_pair(random: &mut Random) -> (u32, u32) {
    let class = |random: &mut Random| {
        if random.chance(30) {
            random.pick(&ODD_CLASSES)
        } else {
            random.below(10) as u32
        }
    };
    (class(random), class(random))
}

/// An object of a class, with a number in its first field.
pub fn object(class: u32, field: u32) -> [u32; OBJECT_WIDTH] {
    let mut object = [9; OBJECT_WIDTH];
    (object[0], object[1]) = (class, field);
    object
}
