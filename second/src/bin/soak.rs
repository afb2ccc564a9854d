//! Tries the promise on translated programs on as many generated programs as asked for.
//! Arguments: the count of cases, then, if wanted, the first seed.

use second::agree::{agree, Agreement};
use second::generate;
use second::machine::on_large_stack;
use second::random::Random;

const FUEL: u64 = 5_000;
const CAPACITY: usize = 80;
const CASES_A_LINE: u64 = 10_000;

fn main() {
    let numbers: Vec<u64> = std::env::args().skip(1).filter_map(|given| given.parse().ok()).collect();
    let cases = numbers.first().copied().unwrap_or(CASES_A_LINE);
    let first = numbers.get(1).copied().unwrap_or(0);
    let failures = on_large_stack(|| soak(first, cases));
    println!("{cases} cases, {failures} failed");
    if failures > 0 {
        std::process::exit(1);
    }
}

/// Tries the cases from a seed on; prints a line of progress now and then and a line for each failure.
fn soak(first: u64, cases: u64) -> u64 {
    let (mut ended, mut changed, mut cut, mut refused, mut failures) = (0, 0, 0, 0, 0);
    for case in 0..cases {
        let seed = first + case;
        let mut random = Random::new(seed);
        let rows =
            if random.chance(3) { generate::extreme(&mut random) } else { generate::program(&mut random) };
        match agree(&rows, FUEL, CAPACITY, &mut random) {
            Ok(Agreement::Ended(run)) => {
                ended += 1;
                changed += u64::from(run.changes > 0);
            }
            Ok(Agreement::Cut) => cut += 1,
            Ok(Agreement::Refused) => refused += 1,
            Err(what) => {
                failures += 1;
                println!("seed {seed}: {what}");
            }
        }
        if (case + 1) % CASES_A_LINE == 0 {
            let done = case + 1;
            println!("{done} cases: {ended} ended, {changed} of them with a change of class");
            println!("    {cut} cut, {refused} refused, {failures} failed");
        }
    }
    failures
}
