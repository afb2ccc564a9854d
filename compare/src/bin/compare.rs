//! Holds the proved services and programs against the second implementation.
//! Arguments: the count of seeds for each service, then, if wanted, the first seed.
//! A line of progress comes now and then where more seeds are asked for than the gate tries.

use compare::cases::{Case, Reached};
use compare::proved::Proved;
use compare::series::{halves, Series, SEEDS};
use second::machine::on_large_stack;
use second::random::Random;
use second::rows::letter;
use second::services::Second;

fn main() {
    let numbers: Vec<u64> = std::env::args().skip(1).filter_map(|given| given.parse().ok()).collect();
    let seeds = numbers.first().copied().unwrap_or(SEEDS);
    let first = numbers.get(1).copied().unwrap_or(0);
    println!("{seeds} seeds for each service, from {first} on");
    let failed: u64 = std::thread::scope(|threads| {
        let halves = halves().map(|half| {
            threads.spawn(move || {
                on_large_stack(|| half.iter().map(|series| compare(series, seeds, first)).sum())
            })
        });
        halves.into_iter().map(|half| half.join().unwrap_or(1)).sum()
    });
    if failed > 0 {
        std::process::exit(1);
    }
}

/// Tries the fixed cases of a series, then those of its seeds. Returns how many differ, and one more for each answer or
/// letter that should have come and did not.
fn compare(series: &Series, seeds: u64, first: u64) -> u64 {
    let name = series.name;
    let (mut reached, mut failed) = (Reached::default(), 0);
    let fixed = (series.fixed)();
    for case in &fixed {
        failed += differs(name, "fixed", case, &mut reached);
    }
    if !fixed.is_empty() {
        println!("{name}: {} fixed cases, {failed} differences; {reached}", fixed.len());
    }
    let (mut reached, mut cases, tried) = (Reached::default(), 0, seeds / series.sparse);
    for seed in first..first + tried {
        for case in (series.generated)(&mut Random::new(seed)) {
            failed += differs(name, &format!("seed {seed}"), &case, &mut reached);
            cases += 1;
        }
        if tried > SEEDS && (seed - first + 1).is_multiple_of(SEEDS) {
            println!("{name}: {} seeds, {failed} differences so far", seed - first + 1);
        }
    }
    if tried > 0 {
        println!("{name}: {cases} generated cases, {failed} differences; {reached}");
    }
    failed + if seeds >= SEEDS { missing(series, &reached) } else { 0 }
}

/// Whether the two replies differ, as a count of differences; counts the answer where they do not.
fn differs(name: &str, which: &str, case: &Case, reached: &mut Reached) -> u64 {
    let (proved, second) = (case.reply(&Proved), case.reply(&Second));
    if proved == second {
        reached.count(case, &proved);
        return 0;
    }
    println!(
        "{name}, {which}: {}\n    proved {}\n    second {}",
        shown(case),
        shown(&proved),
        shown(&second)
    );
    1
}

/// How many answers should have come and did not, and how many letters of accepted programs.
fn missing(series: &Series, reached: &Reached) -> u64 {
    let mut missing = 0;
    for answer in series.wanted.iter().filter(|answer| !reached.answers.contains_key(answer)) {
        println!("{}: answer {answer} was never reached", series.name);
        missing += 1;
    }
    let letters = letter::ALL.iter().map(|code| char::from(*code as u8));
    for letter in
        letters.filter(|letter| !reached.letters.is_empty() && !reached.letters.contains_key(letter))
    {
        println!("{}: letter {letter} was never reached", series.name);
        missing += 1;
    }
    missing
}

/// The beginning of what is to be shown.
fn shown(what: &impl std::fmt::Debug) -> String {
    format!("{what:?}").chars().take(400).collect()
}
