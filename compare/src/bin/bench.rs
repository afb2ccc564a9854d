//! Benchmark: how fast the proved services are, and their ratio to the second implementation, measured in one run.
//! The tables go to docs/PERFORMANCE.md; tools/twin.py prints the same ones with more columns.
//! Arguments: names of tables, where not all of them are wanted.

use compare::measure::{PROVED, SECOND, TABLES};
use second::machine::on_large_stack;

fn main() {
    let wanted: Vec<String> = std::env::args().skip(1).collect();
    if let Some(unknown) = wanted.iter().find(|wanted| TABLES.iter().all(|(name, _)| name != wanted)) {
        let names: Vec<String> = TABLES.iter().map(|(name, _)| format!("'{name}'")).collect();
        eprintln!("bench: there is no table '{unknown}'; there are {}", names.join(", "));
        std::process::exit(2);
    }
    let is_wanted = |name: &str| wanted.is_empty() || wanted.iter().any(|wanted| wanted == name);
    on_large_stack(|| {
        for (_, measure) in TABLES.into_iter().filter(|(name, _)| is_wanted(name)) {
            measure(&[PROVED, SECOND]);
        }
    });
}
