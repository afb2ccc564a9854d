//! Cases of counting, ranking and the report over a fleet.

mod parts;

use crate::cases::Case;
use crate::check::program;
use crate::text::junk;
use fickle::MOST_MODEL_BYTES;
use parts::{
    chain, object, objects, objects_of, odd_pair, related_pair, rows_for_labels, superclasses,
    with_other_literal, ODD_CLASSES,
};
use second::fleet::{rank_models, report_fleet, LINE_WIDTH, RUN_WIDTH};
use second::generate;
use second::machine::run_rows;
use second::plain::translation;
use second::random::Random;
use second::rows::{letter, OBJECT_WIDTH, ROW_WIDTH};
use second::services::{Ended, Fleet};

/// Counts of rows and objects that are past every slice; four or eighteen times some of them wraps in 32 bits.
const ODD_COUNTS: [u32; 6] = [1 << 30, (1 << 30) + 5, 238_609_295, 1 << 31, 60_001, u32::MAX];
/// Numbers around the largest sum, and parts of it.
const LARGE: [u32; 8] =
    [1, 294_967_297, 1_000_000_000, 2_000_000_000, 3_999_999_999, 4_000_000_000, 4_000_000_001, u32::MAX];
/// What a lent report holds before.
const JUNK: u8 = 7;
/// Fuel of the runs that are counted.
const FUEL: u64 = 1_000;

/// A generated run, counted.
pub fn counting(random: &mut Random) -> Vec<Case> {
    let mut ended = ended(random);
    spoil_slices(&mut ended, random);
    vec![Case::Count(ended)]
}

/// A generated plain run, counted through its Identities.
pub fn counting_plain(random: &mut Random) -> Vec<Case> {
    let mut ended = if random.chance(15) { plain_run(random) } else { plain_objects(random) };
    spoil_slices(&mut ended, random);
    vec![Case::CountPlain(ended)]
}

/// Generated counted lines, ranked.
pub fn ranking(random: &mut Random) -> Vec<Case> {
    let lines = match random.below(10_000) {
        0 => random.between(5_000, 20_000),
        1..=99 => random.between(30, 400),
        _ => random.below(12),
    };
    let mut counts = counted_lines(lines, random);
    if random.chance(4) {
        counts.truncate(counts.len().saturating_sub(random.between(1, LINE_WIDTH - 1)));
    }
    vec![ranked(counts, |about| junk(random, about, |bits| bits as u8))]
}

/// A generated fleet, reported.
pub fn reporting(random: &mut Random) -> Vec<Case> {
    let runs = if random.chance(1) { random.between(20, 200) } else { random.below(9) };
    let fleet = fleet(runs, random);
    vec![reported(fleet, |about| junk(random, about, |bits| bits as u8))]
}

/// More models than a service holds at once: with costs that fall, rise and are equal, without good labels, and with sums
/// that pass the limit late.
pub fn many_models() -> Vec<Case> {
    let exactly = |about: usize| vec![JUNK; about];
    let mut cases = Vec::new();
    for models in [255, 256, 257, 9_999, 10_000, 10_001, 20_000, 40_000] {
        let costs: [fn(u32, u32) -> [u32; 3]; 4] = [
            |model, models| [1, 0, models - model],
            |model, _| [2, 1, model / 3],
            |model, _| [model % 5 + 1, 0, (model % 5 + 1) * 7],
            |model, _| [model % 3, model % 3, model % 7],
        ];
        for cost in costs {
            let line = |model: u32| [&[model.wrapping_mul(2_654_435_761)][..], &cost(model, models)].concat();
            cases.push(ranked((0..models).flat_map(line).collect(), exactly));
        }
        let short: Vec<u32> = (0..models).flat_map(|model| [model, 1, 0, model % 10]).collect();
        cases.push(ranked(short, |about| vec![JUNK; about - 1]));
    }
    let mut late: Vec<u32> = (0..40_000).flat_map(|place| [place % 20_000, 1, 0, 2_000_000_000]).collect();
    cases.push(ranked(late.clone(), exactly));
    late.extend([19_999, 0, 0, 1]);
    cases.push(ranked(late, exactly));
    for (models, runs) in [(20_000, 20_000), (5_000, 30_000)] {
        let mut fleet = Fleet::default();
        for place in 0..runs {
            let model = place * 7 % models;
            let run = Run { model, printed: 1, spoiled: 2, cents: place % 13 };
            run.add_to(&mut fleet, &chain(2 + place / 50 % 3), &[place % 2 + 1]);
        }
        cases.push(reported(fleet, exactly));
    }
    cases
}

/// Counted lines, to be ranked into a buffer that is chosen by the length of their report.
fn ranked(counts: Vec<u32>, lent: impl FnOnce(usize) -> Vec<u8>) -> Case {
    let length =
        rank_models(&counts, &mut vec![0; counts.len() / LINE_WIDTH * MOST_MODEL_BYTES]).unwrap_or(9);
    Case::Rank { counts, report: lent(length) }
}

/// A fleet, to be reported into a buffer that is chosen by the length of its report.
fn reported(fleet: Fleet, lent: impl FnOnce(usize) -> Vec<u8>) -> Case {
    let mut room = vec![0; fleet.runs.len() / RUN_WIDTH * MOST_MODEL_BYTES];
    let length = report_fleet(&fleet.runs, &fleet.programs, &fleet.stores, &mut room).unwrap_or(9);
    Case::Report { fleet, report: lent(length) }
}

/// How the numbers of a fleet lie: models few or any, costs small, equal or near the largest sum.
struct Manner {
    models: usize,
    large: bool,
    equal: bool,
}

impl Manner {
    fn new(random: &mut Random) -> Manner {
        Manner { models: random.pick(&[1, 2, 5, 20, 0]), large: random.chance(20), equal: random.chance(20) }
    }

    fn model(&self, random: &mut Random) -> u32 {
        match self.models {
            0 => random.bits() as u32,
            few => random.pick(&[7, 9, 10, 99, 100]) + random.below(few) as u32,
        }
    }

    /// Cents for so many good labels.
    fn cents(&self, good: u32, random: &mut Random) -> u32 {
        if self.large && random.chance(60) {
            random.pick(&LARGE)
        } else if self.equal {
            good.saturating_mul(5)
        } else {
            random.below(40) as u32
        }
    }

    fn labels(&self, random: &mut Random) -> u32 {
        if self.large && random.chance(30) {
            random.pick(&LARGE)
        } else {
            random.below(6) as u32
        }
    }
}

/// So many counted lines.
fn counted_lines(lines: usize, random: &mut Random) -> Vec<u32> {
    let manner = Manner::new(random);
    let mut counts = Vec::with_capacity(lines * LINE_WIDTH);
    for _ in 0..lines {
        let printed = manner.labels(random);
        let spoiled = match random.below(100) {
            0 => printed.saturating_add(1),
            1..=20 => printed,
            _ => random.below(printed as usize + 1) as u32,
        };
        let cents = manner.cents(printed.saturating_sub(spoiled), random);
        counts.extend([manner.model(random), printed, spoiled, cents]);
    }
    counts
}

/// A run but for its slices.
struct Run {
    model: u32,
    printed: u32,
    spoiled: u32,
    cents: u32,
}

impl Run {
    /// Adds the run with its rows and with objects of these classes.
    fn add_to(&self, fleet: &mut Fleet, rows: &[u32], classes: &[u32]) {
        let (count, objects) = ((rows.len() / ROW_WIDTH) as u32, classes.len() as u32);
        fleet.runs.extend([self.model, count, objects, self.printed, self.spoiled, self.cents]);
        fleet.programs.extend(rows);
        fleet.stores.extend(classes.iter().flat_map(|class| object(*class, 9)));
    }
}

/// A fleet of so many runs. Runs often have the rows of the run before, or rows of the same length.
fn fleet(runs: usize, random: &mut Random) -> Fleet {
    let (mut fleet, manner) = (Fleet::default(), Manner::new(random));
    let faults = if random.chance(60) { 0 } else { 10 };
    let mut rows = rows_for_labels(random);
    for _ in 0..runs {
        match random.below(4) {
            0 => rows = rows_for_labels(random),
            1 => with_other_literal(&mut rows, random),
            _ => (),
        }
        let superclasses = superclasses(&rows);
        let faulty = random.chance(faults);
        let (printed, spoiled) = if faulty { odd_pair(random) } else { related_pair(&superclasses, random) };
        let mut classes: Vec<u32> = objects(&superclasses, random);
        if random.chance(faults) {
            classes.push(random.pick(&ODD_CLASSES));
        }
        let cents = manner.cents(classes.len() as u32, random);
        Run { model: manner.model(random), printed, spoiled, cents }.add_to(&mut fleet, &rows, &classes);
    }
    if faults > 0 {
        spoil_fleet(&mut fleet, random);
    }
    fleet
}

/// Makes a number of a run wrong, or slices shorter or longer than the runs take, or the list of runs uneven.
fn spoil_fleet(fleet: &mut Fleet, random: &mut Random) {
    let last = fleet.runs.len().saturating_sub(RUN_WIDTH);
    match random.below(10) {
        0 => fleet.runs.truncate(fleet.runs.len().saturating_sub(random.between(1, 5))),
        1 => fleet.programs.truncate(fleet.programs.len().saturating_sub(random.between(1, 5))),
        2 => fleet.stores.truncate(fleet.stores.len().saturating_sub(random.between(1, 19))),
        3 => fleet.programs.extend((0..random.between(1, 9)).map(|_| letter::TRUE)),
        4 => fleet.stores.extend((0..random.between(1, 40)).map(|place| place as u32)),
        5 if !fleet.runs.is_empty() => fleet.runs[last + 1] = random.pick(&ODD_COUNTS),
        6 if !fleet.runs.is_empty() => fleet.runs[last + 2] = random.pick(&ODD_COUNTS),
        7 if !fleet.runs.is_empty() => {
            let place = random.below(fleet.runs.len());
            fleet.runs[place] ^= 1;
        }
        8 => fleet.runs.extend(fleet.runs.clone()),
        _ => (),
    }
}

/// An ended run: mostly a few classes and objects at will, at times any program, or one that was run.
fn ended(random: &mut Random) -> Ended {
    let (rows, store) = match random.below(10) {
        0 => (program(random), objects_of(&[1, 2, 0])),
        1 => after_run(generate::program(random)),
        _ => {
            let rows = rows_for_labels(random);
            let store = objects_of(&objects(&superclasses(&rows), random));
            (rows, store)
        }
    };
    of_store(rows, store, random)
}

/// A run with its store, all of it made, and two classes.
fn of_store(rows: Vec<u32>, mut store: Vec<u32>, random: &mut Random) -> Ended {
    let (printed, spoiled) =
        if random.chance(10) { odd_pair(random) } else { related_pair(&superclasses(&rows), random) };
    let objects = (store.len() / OBJECT_WIDTH) as u32;
    if random.chance(5) && objects > 0 {
        let place = random.below(objects as usize) * OBJECT_WIDTH;
        store[place] = random.pick(&ODD_CLASSES);
    }
    Ended { rows, store, objects, printed, spoiled }
}

/// Makes the store a little shorter or longer, or the count of objects another one, or leaves out a number of the rows.
fn spoil_slices(ended: &mut Ended, random: &mut Random) {
    match random.below(24) {
        0 => ended.store.truncate(ended.store.len().saturating_sub(random.between(1, 19))),
        1 => ended.store.extend((0..random.between(1, 40)).map(|place| place as u32)),
        2 => ended.objects += 1,
        3 => ended.objects = ended.objects.saturating_sub(1),
        4 => ended.objects = random.pick(&ODD_COUNTS),
        5 => ended.rows.truncate(ended.rows.len().saturating_sub(random.between(1, 5))),
        _ => (),
    }
}

/// A program with the objects that its run left.
fn after_run(rows: Vec<u32>) -> (Vec<u32>, Vec<u32>) {
    let mut store = vec![0; 60 * OBJECT_WIDTH];
    let made = run_rows(&rows, FUEL, &mut store).map_or(0, |run| run.objects as usize);
    store.truncate(made * OBJECT_WIDTH);
    (rows, store)
}

/// A program with the store that its plain program left.
fn plain_run(random: &mut Random) -> Ended {
    let rows = generate::program(random);
    let (_, store) = translation(&rows).map_or_else(|_| (Vec::new(), Vec::new()), after_run);
    of_store(rows, store, random)
}

/// A few classes, and a plain store with Identities, present and replaced implementors in any order. At times an Identity
/// holds something else.
fn plain_objects(random: &mut Random) -> Ended {
    let rows = rows_for_labels(random);
    let classes = objects(&superclasses(&rows), random);
    let mut places: Vec<usize> = (0..classes.len() * 2).collect();
    for place in 1..places.len() {
        places.swap(place, random.below(place + 1));
    }
    let mut store = vec![[0; OBJECT_WIDTH]; places.len()];
    for (class, pair) in classes.iter().zip(places.chunks(2)) {
        let implementor = match random.below(60) {
            0 => random.pick(&[0, 1, 2, u32::MAX]),
            1 => pair[0] as u32 + 3,
            2 => places.len() as u32 + random.between(2, 4) as u32,
            _ => pair[1] as u32 + 3,
        };
        store[pair[0]] = object(1, implementor);
        store[pair[1]] = object(class.saturating_add(2), pair[0] as u32 + 3);
    }
    for _ in 0..random.below(3) {
        store.push(object(random.between(2, 9) as u32, 3));
    }
    of_store(rows, store.concat(), random)
}
