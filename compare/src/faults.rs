//! How many of the gate's cases notice a fault: each case is put to the second implementation and to faulty copies of
//! it, and a fault is noticed where the replies differ or the copy panics.

use crate::cases::{Case, Reply};
use crate::series::{halves, Series};
use second::generate;
use second::machine::on_large_stack;
use second::random::Random;
use second::services::{Programs, Second};
use std::cell::Cell;
use std::panic::{catch_unwind, set_hook, take_hook, AssertUnwindSafe};
use std::sync::atomic::{AtomicBool, Ordering};

thread_local! {
    /// Whether a copy is at work on this thread, whose panics are expected and not told.
    static COPY_RUNS: Cell<bool> = const { Cell::new(false) };
}

/// A copy of the second implementation with a fault in it.
pub struct Faulty {
    pub name: &'static str,
    pub services: &'static dyn Programs,
    /// Tries the promise on translated programs on some rows, with the copy's own translator and runner.
    pub promise: fn(&[u32], u64) -> Result<(), String>,
}

/// Makes the list entry for a copy, by the name of its crate.
#[macro_export]
macro_rules! faulty {
    ($name:ident) => {{
        second::services_of!(Copy, $name);
        fn promise(rows: &[u32], seed: u64) -> Result<(), String> {
            $name::agree::agree(rows, 2_000, 60, &mut $name::random::Random::new(seed)).map(|_| ())
        }
        $crate::faults::Faulty { name: stringify!($name), services: &Copy, promise }
    }};
}

/// One seed in so many is tried on the promise: its trial takes several runs.
const PROMISE_SPARSE: u64 = 50;

/// How many seeds are tried in a row before the next series has its turn.
const ROUND: u64 = 1_000;

/// The word by which a fault is tried only until a case notices it.
pub const ONCE: &str = "once";

/// How many cases noticed each fault, by series.
type Noticed = Vec<(&'static str, Vec<u64>)>;

/// The copies that are tried, and which of them need no further case.
struct Trial<'a> {
    faults: &'a [Faulty],
    /// Whether the first case that notices a fault is enough.
    once: bool,
    /// For each fault whether it is done with. Series on other threads read this too.
    settled: Vec<AtomicBool>,
}

impl<'a> Trial<'a> {
    fn new(faults: &'a [Faulty], once: bool) -> Trial<'a> {
        Trial { faults, once, settled: faults.iter().map(|_| AtomicBool::new(false)).collect() }
    }

    /// Counts one case for each fault that still needs cases and is noticed by it.
    fn count(&self, counts: &mut [u64], notices: impl Fn(&Faulty) -> bool) {
        for ((count, fault), settled) in counts.iter_mut().zip(self.faults).zip(&self.settled) {
            if !settled.load(Ordering::Relaxed) && notices(fault) {
                *count += 1;
                settled.store(self.once, Ordering::Relaxed);
            }
        }
    }

    fn is_over(&self) -> bool {
        self.settled.iter().all(|settled| settled.load(Ordering::Relaxed))
    }
}

/// Tries all series on all copies, prints how many cases noticed each fault, and exits with 1 where one was noticed by
/// none. Arguments: the count of seeds for each service and the first seed; with `once` after them, a fault is tried
/// only until a case notices it.
pub fn judge(faults: &[Faulty]) {
    let given: Vec<String> = std::env::args().skip(1).collect();
    let numbers: Vec<u64> = given.iter().filter_map(|given| given.parse().ok()).collect();
    let [seeds, first] = numbers[..] else { panic!("arguments: SEEDS FIRST-SEED [once]") };
    let trial = Trial::new(faults, given.iter().any(|word| word == ONCE));
    let trial = &trial;
    let told = take_hook();
    set_hook(Box::new(move |panic| {
        if !COPY_RUNS.get() {
            told(panic)
        }
    }));
    let noticed: Noticed = std::thread::scope(|threads| {
        let halves =
            halves().map(|half| threads.spawn(move || on_large_stack(|| tried(&half, seeds, first, trial))));
        let promise = ("promise", on_large_stack(|| promised(seeds / PROMISE_SPARSE, first, trial)));
        let halves = halves.into_iter().flat_map(|half| half.join().expect("a half that ends"));
        halves.chain([promise]).collect()
    });
    let missed = (0..faults.len()).filter(|place| !report(*place, &noticed, trial)).count();
    println!("{} faults, {missed} noticed by none", faults.len());
    if missed > 0 {
        std::process::exit(1);
    }
}

/// Prints which series noticed a fault, and by how many cases where all were tried. Returns whether there was one.
fn report(place: usize, noticed: &Noticed, trial: &Trial) -> bool {
    let name = trial.faults[place].name;
    let by_series = noticed.iter().map(|(series, counts)| (series, counts[place]));
    let by_series = by_series.filter(|(_, count)| *count > 0);
    let all: u64 = by_series.clone().map(|(_, count)| count).sum();
    let shown: Vec<String> = if trial.once {
        by_series.map(|(series, _)| series.to_string()).collect()
    } else {
        by_series.map(|(series, count)| format!("{series} {count}")).collect()
    };
    match (all, trial.once) {
        (0, _) => println!("{name}: noticed by none"),
        (_, true) => println!("{name}: noticed first by {}", shown.join(", ")),
        (_, false) => println!("{name}: noticed by {all}: {}", shown.join(", ")),
    }
    all > 0
}

/// How many cases of some series notice each fault. Seeds go by rounds, in which every series has its turn, so that no
/// fault waits long for the series that notices it.
fn tried(half: &[Series], seeds: u64, first: u64, trial: &Trial) -> Noticed {
    let mut noticed: Noticed = half.iter().map(|series| (series.name, vec![0; trial.faults.len()])).collect();
    for (series, (_, counts)) in half.iter().zip(&mut noticed) {
        (series.fixed)().iter().for_each(|case| try_case(case, counts, trial));
    }
    for begin in (0..seeds).step_by(ROUND as usize) {
        for (series, (_, counts)) in half.iter().zip(&mut noticed) {
            let end = (begin + ROUND).min(seeds);
            for seed in begin / series.sparse..end / series.sparse {
                if trial.is_over() {
                    return noticed;
                }
                let cases = (series.generated)(&mut Random::new(first + seed));
                cases.iter().for_each(|case| try_case(case, counts, trial));
            }
        }
    }
    noticed
}

/// Puts a case to the second implementation and to the copies that still need cases.
fn try_case(case: &Case, counts: &mut [u64], trial: &Trial) {
    let expected = case.reply(&Second);
    trial.count(counts, |fault| is_noticed(case, &expected, fault.services));
}

/// Whether a copy's reply is another one; a copy that panics is noticed too.
fn is_noticed(case: &Case, expected: &Reply, services: &dyn Programs) -> bool {
    without_panic(|| case.reply(services)).is_none_or(|reply| reply != *expected)
}

/// What a copy gives; nothing where it panics.
fn without_panic<T>(copy: impl FnOnce() -> T) -> Option<T> {
    COPY_RUNS.set(true);
    let given = catch_unwind(AssertUnwindSafe(copy));
    COPY_RUNS.set(false);
    given.ok()
}

/// On how many generated programs the promise does not hold of each copy's translator and runner.
fn promised(seeds: u64, first: u64, trial: &Trial) -> Vec<u64> {
    let mut counts = vec![0; trial.faults.len()];
    for seed in first..first + seeds {
        if trial.is_over() {
            break;
        }
        let rows = generate::program(&mut Random::new(seed));
        trial.count(&mut counts, |fault| without_panic(|| (fault.promise)(&rows, seed)) != Some(Ok(())));
    }
    counts
}
