//! Cost per label across a fleet (document 02, §1): the labels of a run, sums by model in a hash map, and their report,
//! sorted.

use crate::check::accept;
use crate::headings::World;
use crate::rows::{number, Refusal, OBJECT, OBJECT_WIDTH, ROW_WIDTH};
use crate::text::write_number;
use std::cmp::Ordering;
use std::collections::HashMap;

/// Numbers of a run: model, count of rows, count of objects made, printed class, spoiled class, cents.
pub const RUN_WIDTH: usize = 6;
/// Numbers of a counted line: model, printed, spoiled, cents.
pub const LINE_WIDTH: usize = 4;
/// The largest sum.
pub const SUM_MOST: u64 = 4_000_000_000;

/// Class Identity of every plain program, and by how much a class's number is larger there.
const IDENTITY: u32 = 1;
const ADDED_CLASSES: u32 = 2;
/// The stored number of the first object.
const FIRST_OBJECT: u32 = 3;

/// Labels printed, and those of them that were spoiled.
#[derive(Clone, Copy, Debug, Default, PartialEq, Eq)]
pub struct Labels {
    pub printed: u32,
    pub spoiled: u32,
}

/// The labels of a run that made so many objects and left this store; 18 where program, classes or store do not serve.
pub fn count_run(
    rows: &[u32],
    store: &[u32],
    objects: u32,
    printed: u32,
    spoiled: u32,
) -> Result<Labels, Refusal> {
    let classes = objects_in(store, objects).map(|objects| objects.map(|object| object[0]));
    classes.and_then(|classes| labels(world(rows).as_ref()?, classes, printed, spoiled)).ok_or(one_run())
}

/// The same from the store that a run of the plain program left; the rows are the source's.
pub fn count_plain_run(
    rows: &[u32],
    store: &[u32],
    objects: u32,
    printed: u32,
    spoiled: u32,
) -> Result<Labels, Refusal> {
    let classes = source_classes(store, objects);
    classes
        .and_then(|classes| labels(world(rows).as_ref()?, classes.into_iter(), printed, spoiled))
        .ok_or(one_run())
}

/// The refusal of a run by itself, which is the first of its fleet.
fn one_run() -> Refusal {
    Refusal::new(number::CLASS, 1)
}

/// The classes of a program, where it is accepted.
fn world(rows: &[u32]) -> Option<World> {
    accept(rows).ok().map(|accepted| accepted.world)
}

/// The first objects of a store, where it holds so many.
fn objects_in(store: &[u32], objects: u32) -> Option<std::slice::ChunksExact<'_, u32>> {
    let count = objects as usize;
    (count <= store.len() / OBJECT_WIDTH).then(|| store[..count * OBJECT_WIDTH].chunks_exact(OBJECT_WIDTH))
}

/// For each Identity of a plain store, in order, the source's class of the implementor in its first field.
fn source_classes(store: &[u32], objects: u32) -> Option<Vec<u32>> {
    let all: Vec<&[u32]> = objects_in(store, objects)?.collect();
    let identities = all.iter().filter(|object| object[0] == IDENTITY);
    identities
        .map(|identity| {
            let implementor = all.get(identity[1].checked_sub(FIRST_OBJECT)? as usize)?;
            implementor[0].checked_sub(ADDED_CLASSES)
        })
        .collect()
}

/// The labels among objects that ended in these classes. None where the program does not declare both classes and relate
/// them so, or lacks a class other than Object.
fn labels(world: &World, classes: impl Iterator<Item = u32>, printed: u32, spoiled: u32) -> Option<Labels> {
    let declares = |class| class != OBJECT && world.is_class(class);
    let relates = declares(printed) && declares(spoiled) && spoiled != printed;
    if !relates || !world.is_subclass(spoiled, printed) {
        return None;
    }
    let mut labels = Labels::default();
    for class in classes {
        if !world.is_class(class) {
            return None;
        }
        labels.printed += u32::from(world.is_subclass(class, printed));
        labels.spoiled += u32::from(world.is_subclass(class, spoiled));
    }
    Some(labels)
}

/// A model's sums.
#[derive(Clone, Copy, Debug, Default)]
struct Sum {
    printed: u64,
    spoiled: u64,
    cents: u64,
}

impl Sum {
    fn good(&self) -> u64 {
        self.printed - self.spoiled
    }
}

/// The sums of all models so far.
#[derive(Default)]
struct Sums(HashMap<u32, Sum>);

impl Sums {
    /// Adds the line at a place; 17 where it takes one of the model's sums past the largest.
    fn add(&mut self, model: u32, labels: Labels, cents: u32, place: u64) -> Result<(), Refusal> {
        let sum = self.0.entry(model).or_default();
        sum.printed += u64::from(labels.printed);
        sum.spoiled += u64::from(labels.spoiled);
        sum.cents += u64::from(cents);
        if sum.printed > SUM_MOST || sum.spoiled > SUM_MOST || sum.cents > SUM_MOST {
            return Err(Refusal { number: number::SUM, line: place });
        }
        Ok(())
    }

    /// The lines of all models in order.
    fn report(self) -> Vec<u8> {
        let mut sums: Vec<(u32, Sum)> = self.0.into_iter().collect();
        sums.sort_unstable_by(by_cost);
        let mut text = Vec::new();
        for (model, Sum { printed, spoiled, cents }) in sums {
            for (number, after) in
                [(u64::from(model), b'\t'), (printed, b'\t'), (spoiled, b'\t'), (cents, b'\n')]
            {
                write_number(number, &mut text);
                text.push(after);
            }
        }
        text
    }
}

/// Models with good labels by cents per good label, as products of whole numbers, then by number; those without come last.
fn by_cost((model, one): &(u32, Sum), (other_model, other): &(u32, Sum)) -> Ordering {
    let without = |sum: &Sum| sum.good() == 0;
    let cost = (one.cents * other.good()).cmp(&(other.cents * one.good()));
    let cost = if without(one) { Ordering::Equal } else { cost };
    without(one).cmp(&without(other)).then(cost).then(model.cmp(other_model))
}

/// The report over counted lines: 1 where more labels are spoiled than printed, 17, then 13.
pub fn rank_models(counts: &[u32], report: &mut [u8]) -> Result<usize, Refusal> {
    whole(counts, LINE_WIDTH)?;
    let mut sums = Sums::default();
    for (line, place) in counts.chunks_exact(LINE_WIDTH).zip(1..) {
        let labels = Labels { printed: line[1], spoiled: line[2] };
        if labels.spoiled > labels.printed {
            return Err(Refusal { number: number::LINE, line: place });
        }
        sums.add(line[0], labels, line[3], place)?;
    }
    written(&sums.report(), report)
}

/// The report over a fleet: on each run 18 before 17, then 13. What the slices hold beyond the runs is ignored.
pub fn report_fleet(
    runs: &[u32],
    programs: &[u32],
    stores: &[u32],
    report: &mut [u8],
) -> Result<usize, Refusal> {
    whole(runs, RUN_WIDTH)?;
    let mut slices = Slices { programs, stores, before: None };
    let mut sums = Sums::default();
    for (run, place) in runs.chunks_exact(RUN_WIDTH).zip(1..) {
        let labels = slices.next(run).ok_or(Refusal { number: number::CLASS, line: place })?;
        sums.add(run[0], labels, run[5], place)?;
    }
    written(&sums.report(), report)
}

/// What the programs and stores of a fleet hold from the next run on, and the rows of the run before with their classes.
struct Slices<'a> {
    programs: &'a [u32],
    stores: &'a [u32],
    before: Option<(&'a [u32], World)>,
}

impl<'a> Slices<'a> {
    /// The labels of the next run; none where it does not serve. Rows that equal those before have the same classes.
    fn next(&mut self, run: &[u32]) -> Option<Labels> {
        let (rows, programs) = cut(self.programs, run[1], ROW_WIDTH)?;
        let (store, stores) = cut(self.stores, run[2], OBJECT_WIDTH)?;
        (self.programs, self.stores) = (programs, stores);
        if self.before.as_ref().is_none_or(|(before, _)| *before != rows) {
            self.before = Some((rows, world(rows)?));
        }
        let (_, world) = self.before.as_ref()?;
        labels(world, store.chunks_exact(OBJECT_WIDTH).map(|object| object[0]), run[3], run[4])
    }
}

/// Cuts so many rows or objects off a slice; none where it is shorter.
fn cut(slice: &[u32], count: u32, width: usize) -> Option<(&[u32], &[u32])> {
    let count = count as usize;
    (count <= slice.len() / width).then(|| slice.split_at(count * width))
}

/// Refuses lists whose length is not a multiple of a width: 1, line 0.
fn whole(list: &[u32], width: usize) -> Result<(), Refusal> {
    if list.len().is_multiple_of(width) {
        Ok(())
    } else {
        Err(Refusal::new(number::LINE, 0))
    }
}

/// Copies a report into what is lent for it; 13 where it is too short.
fn written(text: &[u8], report: &mut [u8]) -> Result<usize, Refusal> {
    let lent = report.get_mut(..text.len()).ok_or(Refusal::new(number::ROOM, 0))?;
    lent.copy_from_slice(text);
    Ok(text.len())
}
