//! Cases of the runner.

use crate::cases::Case;
use crate::check::program;
use second::generate::{self, extreme};
use second::notation;
use second::random::Random;
use second::rows::{CALLS_MOST, FUEL_MOST, OBJECTS_MOST, OBJECT_WIDTH};

/// Generated rows, run over a store full of junk.
pub fn running(random: &mut Random) -> Vec<Case> {
    let rows = if random.chance(70) { generate::program(random) } else { program(random) };
    let fuel = match random.below(20) {
        0 => FUEL_MOST + 1 + random.below(2) as u64 * (u64::MAX - FUEL_MOST - 1),
        1..=6 => random.below(60) as u64,
        _ => 5_000,
    };
    let length = match random.below(4) {
        0 => random.below(200),
        _ => 1_800 + random.below(OBJECT_WIDTH),
    };
    vec![over_junk(rows, fuel, length, random)]
}

/// A program on every fuel up to what it takes.
pub fn every_fuel(random: &mut Random) -> Vec<Case> {
    let rows = generate::program(random);
    let most = second::machine::run_rows(&rows, 300, &mut [0; 1_800]).map_or(0, |run| run.steps);
    (0..=most).map(|fuel| over_junk(rows.clone(), fuel, 1_800, random)).collect()
}

/// Rows, to be run over a store of so many numbers.
fn over_junk(rows: Vec<u32>, fuel: u64, length: usize, random: &mut Random) -> Case {
    let store = (0..length).map(|_| random.bits() as u32).collect();
    Case::Run { rows, fuel, store }
}

/// The deepest runs: 64 calls and nesting 128, through each letter that can nest; chains of calls around 64, also with few
/// and with many slots, in programs of at most 1,024 rows and of more; a store of 65,535 objects; the fuel limit.
pub fn limits() -> Vec<Case> {
    let mut random = Random::new(7);
    let deep = extreme::DEEPENING.map(|through| (extreme::deep_calls(128, &[through]), 1_000_000, 36));
    let chains = [CALLS_MOST - 1, CALLS_MOST, CALLS_MOST + 1]
        .map(|length| (extreme::chain(length), 10_000, (length + 1) * OBJECT_WIDTH));
    let slots = [2, 9, 60, 118, 119, 120, 240].into_iter().flat_map(|locals| {
        [(CALLS_MOST, 0), (CALLS_MOST + 1, 0), (CALLS_MOST, 600)].map(|(length, nulls)| {
            (extreme::turning_chain(length, locals, nulls), 10_000, (length + 10) * OBJECT_WIDTH)
        })
    });
    let stores = [0, OBJECT_WIDTH - 1]
        .into_iter()
        .chain([1, OBJECTS_MOST - 1, OBJECTS_MOST, OBJECTS_MOST + 1].map(|objects| objects * OBJECT_WIDTH))
        .map(|length| (many_objects(), 1_000_000, length));
    let fuels = [FUEL_MOST, FUEL_MOST + 1, u64::MAX, 1 << 32].map(|fuel| (extreme::names(7), fuel, 180));
    let cases = deep.into_iter().chain(chains).chain(slots).chain(stores).chain(fuels);
    cases.map(|(rows, fuel, length)| over_junk(rows, fuel, length, &mut random)).collect()
}

/// 65,536 objects wanted.
fn many_objects() -> Vec<u32> {
    notation::rows(
        "C 0 0, M 0 0, B 0 16, 16*W 0, M 0 1, B 0 16, 16*(Q 0 0; I 0), M 0 2, B 0 16, 16*(Q 1 0; I 0), \
         M 0 3, B 0 16, 16*(Q 2 0; I 0), S, B 0 1, Q 3 0, W 1",
    )
}
