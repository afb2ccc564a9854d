//! The report over fleets (document 02, §1): counts of a run, sums, order, refusals; counts through the plain store.

use second::fleet::{count_plain_run, count_run, rank_models, report_fleet, Labels};
use second::generate;
use second::machine::{on_large_stack, run_rows, Outcome};
use second::notation::rows;
use second::plain::translate_rows;
use second::random::Random;
use second::rows::{Refusal, OBJECT_WIDTH};

/// Classes 1 plain, 2 root, 3 and 4 states of 2, 5 state below 3.
const TREE: &str = "C 0 0, C 1 0, C 2 2, C 2 2, C 2 3, S, B 0 1, T";

/// Objects of these classes, their other numbers junk.
fn store(classes: &[u32]) -> Vec<u32> {
    classes.iter().flat_map(|class| [&[*class][..], &[9; OBJECT_WIDTH - 1]].concat()).collect()
}

fn count(classes: &[u32], printed: u32, spoiled: u32) -> Result<Labels, Refusal> {
    count_run(&rows(TREE), &store(classes), classes.len() as u32, printed, spoiled)
}

fn labels(printed: u32, spoiled: u32) -> Result<Labels, Refusal> {
    Ok(Labels { printed, spoiled })
}

/// The report of counted lines, or the refusal's number and line.
fn ranked(counts: &[u32]) -> Result<String, (u32, u64)> {
    let mut report = vec![b'?'; counts.len() * 11];
    let length = rank_models(counts, &mut report).map_err(|no| (no.number, no.line))?;
    assert!(report[length..].iter().all(|byte| *byte == b'?'));
    Ok(String::from_utf8(report[..length].to_vec()).expect("a text"))
}

#[test]
fn labels_count_in_their_class_or_below() {
    assert_eq!(count(&[2, 3, 5, 4, 1, 0], 2, 3), labels(4, 2));
    assert_eq!(count(&[2, 3, 5, 4, 1, 0], 3, 5), labels(2, 1));
    assert_eq!(count(&[], 2, 5), labels(0, 0));
    for (printed, spoiled) in [(0, 2), (2, 0), (2, 2), (3, 2), (3, 4), (2, 1), (2, 6), (6, 2), (2, u32::MAX)]
    {
        assert_eq!(count(&[2], printed, spoiled), Err(Refusal::new(18, 1)), "{printed} {spoiled}");
    }
    for class in [6, 64, 65, u32::MAX] {
        assert_eq!(count(&[2, class], 2, 3), Err(Refusal::new(18, 1)), "{class}");
    }
}

#[test]
fn programs_and_stores_that_do_not_serve() {
    let (tree, objects) = (rows(TREE), store(&[2, 6]));
    // What the store holds beyond the objects is not looked at.
    assert_eq!(count_run(&tree, &objects, 1, 2, 3), labels(1, 0));
    assert_eq!(count_run(&tree, &objects[..35], 1, 2, 3), labels(1, 0));
    for (rows, store, made) in [
        (&tree[..], &objects[..35], 2),
        (&tree, &objects, 238_609_295),
        (&tree, &objects, u32::MAX),
        (&tree[..31], &objects, 1),
        (&[], &objects, 1),
    ] {
        assert_eq!(count_run(rows, store, made, 2, 3), Err(Refusal::new(18, 1)));
    }
}

#[test]
fn a_plain_store_is_counted_through_its_identities() {
    let object = |class: u32, field: u32| [&[class, field][..], &[0; OBJECT_WIDTH - 2]].concat();
    // Two Identities; the second one's first implementor was replaced.
    let objects = [object(1, 4), object(4, 3), object(1, 7), object(5, 5), object(7, 5)].concat();
    let through = |objects: &[u32], made| count_plain_run(&rows(TREE), objects, made, 2, 3);
    assert_eq!(through(&objects, 5), labels(2, 1));
    assert_eq!(through(&objects, 2), labels(1, 0));
    // The implementor of the second Identity is not among the objects made.
    assert_eq!(through(&objects, 4), Err(Refusal::new(18, 1)));
    assert_eq!(through(&objects, 6), Err(Refusal::new(18, 1)));
    for (class, value) in [(4, 0), (4, 2), (1, 4), (0, 4), (8, 4), (4, u32::MAX), (u32::MAX, 4)] {
        let objects = [object(1, value), object(class, 3)].concat();
        assert_eq!(through(&objects, 2), Err(Refusal::new(18, 1)), "{class} {value}");
    }
    // FickleObject itself stands for Object.
    assert_eq!(through(&[object(1, 4), object(2, 3)].concat(), 2), labels(0, 0));
}

#[test]
fn sums_and_refusals_of_counted_lines() {
    assert_eq!(ranked(&[]), Ok(String::new()));
    assert_eq!(ranked(&[1, 2, 3]), Err((1, 0)));
    assert_eq!(ranked(&[1, 2, 1, 5, 1, 2, 3, u32::MAX]), Err((1, 2)));
    assert_eq!(ranked(&[7, 4_000_000_000, 0, 0, 8, 5, 0, 0, 7, 1, 0, 0, 7, 0, 1, 0]), Err((17, 3)));
    assert_eq!(ranked(&[7, 4_000_000_000, 4_000_000_000, 0, 7, 1, 1, 0]), Err((17, 2)));
    assert_eq!(ranked(&[7, 0, 0, u32::MAX]), Err((17, 1)));
    let most = "7\t4000000000\t3999999999\t4000000000\n";
    assert_eq!(
        ranked(&[7, 2_000_000_000, 1_999_999_999, 0, 7, 2_000_000_000, 2_000_000_000, 4_000_000_000]),
        Ok(most.to_string())
    );
    let mut report = [b'?'; 34];
    assert_eq!(rank_models(&[7, 1, 0, 3], &mut report[..7]), Err(Refusal::new(13, 0)));
    assert_eq!(report, [b'?'; 34]);
    assert_eq!(rank_models(&[7, 1, 0, 3], &mut report[..8]), Ok(8));
}

/// The order as the document has it, one pair at a time.
fn is_before(one: &[u64], other: &[u64]) -> bool {
    let good = |line: &[u64]| line[1] - line[2];
    match (good(one), good(other)) {
        (0, 0) => one[0] < other[0],
        (0, _) => false,
        (_, 0) => true,
        (of_one, of_other) => {
            let (left, right) = (one[3] * of_other, other[3] * of_one);
            left < right || left == right && one[0] < other[0]
        }
    }
}

#[test]
fn every_line_of_a_report_is_before_the_next() {
    let mut random = Random::new(1);
    for _ in 0..2_000 {
        let mut counts = Vec::new();
        for _ in 0..random.below(30) {
            let printed = random.below(5);
            counts.extend(
                [random.below(20), printed, random.below(printed + 1), random.below(9)].map(|one| one as u32),
            );
        }
        let report = ranked(&counts).expect("no large sum");
        let lines: Vec<Vec<u64>> = report
            .lines()
            .map(|line| line.split('\t').map(|digits| digits.parse().expect("a number")).collect())
            .collect();
        assert!(lines.windows(2).all(|pair| is_before(&pair[0], &pair[1])), "{report}");
        for line in &lines {
            let of_model = counts.chunks(4).filter(|counted| u64::from(counted[0]) == line[0]);
            let sums = of_model
                .fold([0; 3], |sums, counted| [0, 1, 2].map(|at| sums[at] + u64::from(counted[at + 1])));
            assert_eq!(sums[..], line[1..]);
        }
        // A report's lines are counted lines: parts are ranked, and their reports ranked together.
        let half = counts.len() / 8 * 4;
        let parts =
            [&counts[..half], &counts[half..]].map(|part| ranked(part).expect("no large sum")).concat();
        let lines: Vec<u32> = parts.split_whitespace().map(|digits| digits.parse().expect("a u32")).collect();
        assert_eq!(ranked(&lines), Ok(report));
    }
}

#[test]
fn a_fleet_of_equal_and_other_rows() {
    let (tree, other) = (rows(TREE), rows("C 1 0, C 2 1, S, B 0 1, T"));
    let runs = [7, 8, 2, 2, 3, 10, 7, 8, 1, 2, 4, 5, 8, 5, 1, 1, 2, 1];
    let programs = [&tree[..], &tree, &other].concat();
    let mut report = [b'?'; 40];
    assert_eq!(report_fleet(&runs, &programs, &store(&[3, 2, 4, 1]), &mut report), Ok(17));
    assert_eq!(&report[..18], b"8\t1\t0\t1\n7\t3\t2\t15\n?".first_chunk::<18>().expect("18 bytes"));
    // Rows that equal refused ones are refused.
    let refused = rows("C 1 0, C 2 1, S, B 0 1, I 1");
    let programs = [&other[..], &refused, &refused].concat();
    let runs = [7, 5, 0, 1, 2, 10, 7, 5, 0, 1, 2, 10, 7, 5, 0, 1, 2, 10];
    assert_eq!(report_fleet(&runs, &programs, &[], &mut report), Err(Refusal::new(18, 2)));
}

#[test]
fn a_plain_run_has_the_labels_of_its_source() {
    on_large_stack(|| {
        let (mut compared, mut with_labels) = (0, 0);
        for seed in 0..5_000 {
            let mut random = Random::new(seed);
            let source = generate::program(&mut random);
            let mut plain = vec![0; 240_000];
            let Ok(length) = translate_rows(&source, &mut plain) else { continue };
            let (mut store, mut plain_store) = (vec![0; 18 * 100], vec![0; 18 * 5_000]);
            let ran = run_rows(&source, 2_000, &mut store).expect("accepted");
            let plain_ran = run_rows(&plain[..length * 4], 84 * 2_000, &mut plain_store).expect("accepted");
            if matches!(ran.outcome, Outcome::Stop(14 | 16)) {
                continue;
            }
            let classes = source.chunks(4).filter(|row| row[0] == u32::from(b'C')).count() as u32;
            for printed in 0..=classes {
                let spoiled = random.below(classes as usize + 1) as u32;
                let counted = count_run(&source, &store, ran.objects, printed, spoiled);
                let through = count_plain_run(&source, &plain_store, plain_ran.objects, printed, spoiled);
                assert_eq!(counted, through, "seed {seed}");
                with_labels += usize::from(counted.is_ok_and(|labels| labels.printed > 0));
            }
            compared += 1;
        }
        println!("{compared} runs, {with_labels} counts with labels");
        assert!(compared > 2_000 && with_labels > 500);
    });
}
