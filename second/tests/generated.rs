//! What the generated programs reach: every refusal, stop, exception and letter.

use second::check::check_rows;
use second::generate;
use second::machine::{on_large_stack, run_rows, Outcome};
use second::plain::translate_rows;
use second::programs;
use second::random::Random;
use second::rows::letter;
use std::collections::BTreeMap;

const PLAIN_ROOM: usize = 60_000 * 4;

fn ending(outcome: Outcome) -> String {
    match outcome {
        Outcome::Value(_) => "value".to_string(),
        Outcome::Exception(exception) => format!("exception {exception}"),
        Outcome::Stop(stop) => format!("stop {stop}"),
    }
}

#[test]
fn well_typed_programs() {
    on_large_stack(|| {
        let cases = 5_000;
        let (mut accepted, mut translated, mut changed, mut beyond) = (0, 0, 0, 0);
        let (mut outcomes, mut letters) = (BTreeMap::new(), BTreeMap::new());
        let (mut steps, mut changes, mut objects) = (0, 0, 0);
        let mut plain = vec![0; PLAIN_ROOM];
        for seed in 0..cases {
            let mut random = Random::new(seed);
            let rows = generate::program(&mut random);
            for row in rows.chunks(4) {
                *letters.entry(row[0] as u8 as char).or_insert(0) += 1;
            }
            if check_rows(&rows).is_err() {
                continue;
            }
            accepted += 1;
            match translate_rows(&rows, &mut plain) {
                Ok(_) => translated += 1,
                Err(refusal) => beyond += usize::from(refusal.number == 2),
            }
            let fuel = if random.chance(10) { random.below(100) as u64 } else { 5_000 };
            let run = run_rows(&rows, fuel, &mut [0; 1_800]).expect("an accepted program");
            *outcomes.entry(ending(run.outcome)).or_insert(0) += 1;
            changed += usize::from(run.changes > 0 && matches!(run.outcome, Outcome::Value(_)));
            steps += run.steps;
            changes += run.changes;
            objects += u64::from(run.objects);
        }
        println!("5,000 runs: {steps} steps, {objects} objects, {changes} changes of class");
        println!(
            "{cases} well-typed: {accepted} accepted, {translated} translated, {beyond} beyond the limits"
        );
        println!("{changed} end in a value after a change of class; {outcomes:?}");
        println!("letters {letters:?}");
        assert_eq!(accepted, cases);
        assert!(translated > cases / 2 && beyond > 50 && changed > 1_250);
        assert_eq!(letters.len(), letter::ALL.len());
        for end in ["value", "exception 1", "exception 2", "stop 14", "stop 15", "stop 16"] {
            assert!(outcomes[end] >= 20, "{end}");
        }
    });
}

#[test]
fn damaged_programs_reach_every_refusal() {
    let mut plain = vec![0; PLAIN_ROOM];
    for aim in generate::REFUSALS {
        let mut counts = BTreeMap::new();
        for seed in 0..500 {
            let rows = generate::damaged_for(aim, &mut Random::new(seed));
            let number = translate_rows(&rows, &mut plain).map_or_else(|refusal| refusal.number, |_| 0);
            *counts.entry(number).or_insert(0) += 1;
        }
        println!("aimed at {aim}: {counts:?} (0: accepted)");
        assert!(counts[&aim] >= 30, "{aim}");
    }
}

#[test]
fn the_form_pass_goes_by_lines() {
    let mut refused = 0;
    for seed in 0..4_000 {
        let mut random = Random::new(seed);
        let rows =
            if random.chance(70) { generate::damaged(&mut random) } else { generate::extreme(&mut random) };
        let Err(refusal) = check_rows(&rows) else { continue };
        if refusal.number > 3 || refusal.line == 0 || refusal.line as usize > rows.len() / 4 {
            continue;
        }
        let upto = check_rows(&rows[..refusal.line as usize * 4]);
        // The limit of fields belongs to the headings, which are read after a form that is right.
        let is_field_limit = refusal.number == 2 && rows[refusal.line as usize * 4 - 4] == letter::FIELD;
        if !is_field_limit {
            assert_eq!(upto, Err(refusal), "seed {seed}");
            refused += 1;
        }
    }
    println!("{refused} refusals of the form pass depend on the lines up to them alone");
    assert!(refused > 500);
}

#[test]
fn the_two_programs() {
    on_large_stack(|| {
        let mut heads = BTreeMap::new();
        for seed in 0..3_000 {
            let text = generate::program_text(&mut Random::new(seed));
            let (translated, ran) = (programs::translate(&text), programs::run(&text));
            // Both refuse alike, except that only the translating program has to hold the plain text.
            if ran.starts_with(b"!") && ran.iter().filter(|byte| **byte == b'\n').count() == 1 {
                assert_eq!(translated, ran);
            } else if translated.starts_with(b"!") {
                assert_eq!(translated, b"!\t13\t0\n");
            } else {
                assert_eq!(ran.iter().filter(|byte| **byte == b'\n').count(), 2);
            }
            *heads.entry(ran[0] as char).or_insert(0) += 1;
        }
        println!("the running program's first lines: {heads:?}");
        assert_eq!(heads.len(), 6);
    });
}

#[test]
fn all_kinds_together() {
    on_large_stack(|| {
        let mut refusals = BTreeMap::new();
        let mut ends = BTreeMap::new();
        for seed in 0..20_000 {
            let mut random = Random::new(seed);
            let rows = match seed % 4 {
                0 => generate::program(&mut random),
                1 | 2 => generate::damaged(&mut random),
                _ if random.chance(30) => generate::row_buffer(&mut random),
                _ => generate::extreme(&mut random),
            };
            let room = if random.chance(10) { random.below(400) } else { PLAIN_ROOM };
            let mut plain = vec![7; room];
            match translate_rows(&rows, &mut plain) {
                Ok(count) => {
                    assert_eq!(check_rows(&rows), Ok(()));
                    assert_eq!(check_rows(&plain[..count * 4]), Ok(()));
                    assert!(plain[count * 4..].iter().all(|number| *number == 7));
                    *refusals.entry(0).or_insert(0) += 1;
                }
                Err(refusal) => {
                    assert!(plain.iter().all(|number| *number == 7));
                    let line_known = refusal.line as usize <= rows.len() / 4 + 1;
                    assert!(line_known && (refusal.line > 0 || [1, 13].contains(&refusal.number)));
                    *refusals.entry(refusal.number).or_insert(0) += 1;
                }
            }
            let mut store = vec![7; random.below(1_000)];
            match run_rows(&rows, random.below(3_000) as u64, &mut store) {
                Ok(run) => *ends.entry(ending(run.outcome)).or_insert(0) += 1,
                Err(refusal) => {
                    assert_eq!(check_rows(&rows), Err(refusal));
                    assert!(store.iter().all(|number| *number == 7));
                }
            }
        }
        println!("translator: {refusals:?} (0: translated)");
        println!("runs: {ends:?}");
        for number in 0..=13 {
            assert!(refusals[&number] >= 50, "{number}");
        }
        for end in ["value", "exception 1", "exception 2", "stop 14", "stop 15", "stop 16"] {
            assert!(ends[end] >= 50, "{end}");
        }
    });
}

#[test]
fn near_misses() {
    let cases = 5_000;
    let (mut bodies, mut refusals) = (0, BTreeMap::new());
    for seed in 0..cases {
        let rows = generate::near_missed(&mut Random::new(seed));
        bodies += rows.chunks(4).filter(|row| [letter::METHOD, letter::START].contains(&row[0])).count();
        if let Err(refusal) = check_rows(&rows) {
            let code = rows[(refusal.line as usize - 1) * 4] as u8 as char;
            *refusals.entry((refusal.number, code)).or_insert(0) += 1;
        }
    }
    let refused: usize = refusals.values().sum();
    println!("{cases} programs of {bodies} bodies: {refused} refused, by number and letter {refusals:?}");
    let kept = |number: u32, letter: char| refusals.get(&(number, letter)).copied().unwrap_or(0);
    assert!(refused * 100 > bodies * 2, "near misses in too few bodies");
    for (number, letter) in [(8, 'Q'), (8, 'U'), (9, 'A'), (9, 'J'), (9, 'Q'), (9, 'U')] {
        assert!(kept(number, letter) >= 5, "{number} on {letter}");
    }
}
