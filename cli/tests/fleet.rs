//! Fleets as they are typed: what their lines may be, which runs count, and the table that people read.

mod sites;
mod typed;

use fickle::{plain_rows, run_in_own_store, OBJECT_WIDTH};
use second::notation::rows;
use sites::{fleet, printed, said, site, EXCEPTION, LABELS, NO_LABEL};
use typed::{call, file, folder, piped};

/// A 65th call.
const DEEP: &str = "C 1 0, M 255 0, B 0 1, Q 0 0, I 0, C 2 1, S, B 0 1, Q 0 0, W 1";
/// No slot 1: refused with 7 on line 5.
const NO_SLOT: &str = "C 1 0, C 2 1, S, B 0 1, I 1";

fn example(name: &str) -> String {
    format!("{}/../examples/{name}", env!("CARGO_MANIFEST_DIR"))
}

#[test]
fn the_shipped_example() {
    let (fleet, names) = (example("fleet.tsv"), example("names.tsv"));
    printed(
        &call(&["report", &fleet]),
        "model  cents per good label\n   13                 12.00\n   12                 14.00\n   11                 16.00\n",
    );
    printed(
        &call(&["report", "--full", "--names", &names, &fleet]),
        "    model  cents per good label  printed  spoiled  cents\n \
          Cedar XL                 12.00        6        0     72\n  \
           Birch 7                 14.00        8        2     84\n\
         Alder 200                 16.00       10        5     80\n",
    );
    let report = "13\t6\t0\t72\n12\t8\t2\t84\n11\t10\t5\t80\n";
    printed(&call(&["report", "--tsv", &fleet]), report);
    printed(&piped(&["rank"], call(&["count", &fleet]).printed.as_bytes()), report);
}

/// The text of the example says so.
#[test]
fn a_lost_change_of_class_turns_the_example_round() {
    let folder = folder().join("lost");
    std::fs::create_dir_all(&folder).unwrap();
    for name in ["fleet.tsv", "labels.rules", "steady.rules"] {
        let text = std::fs::read_to_string(example(name)).unwrap();
        std::fs::write(folder.join(name), text.replace("R\t0\t4", "R\t0\t3")).unwrap();
    }
    let left = call(&["report", "--tsv", folder.join("fleet.tsv").to_str().unwrap()]);
    printed(&left, "11\t10\t0\t80\n12\t8\t0\t84\n13\t6\t0\t72\n");
}

#[test]
fn what_a_fleet_may_look_like() {
    let site = site("looks", &[("a.rules", LABELS)]);
    let path = format!("{site}/fleet.tsv");
    let text =
        "\u{feff}# runs\r\n7\ta.rules\t1\t2\t30\r\n\r\n\t \n7\ta.rules\t1\t2\t31\t\r\n8\ta.rules\t1\t2\t3";
    std::fs::write(&path, text).unwrap();
    printed(&call(&["count", &path]), "7\t2\t1\t30\n7\t2\t1\t31\n8\t2\t1\t3\n");
    printed(
        &call(&["report", &path]),
        "model  cents per good label\n    8                  3.00\n    7                 30.50\n",
    );
    // Paths of standard input are taken from the folder that the command runs in.
    let line = format!("7\t{site}/a.rules\t1\t2\t30\n");
    printed(&piped(&["report", "--tsv", "-"], line.as_bytes()), "7\t2\t1\t30\n");
    for text in ["", "# nothing\n\n"] {
        let left = piped(&["report", "-"], text.as_bytes());
        said(&left, "<standard input>: there are no runs, so there is no table\n", 0);
        printed(&piped(&["count", "-"], text.as_bytes()), "");
    }
}

#[test]
fn lines_that_are_no_runs() {
    let cases: [(&[u8], &str); 8] = [
        (b"7\ta.rules\t1\t2\n", "1: the line has 4 fields; it needs model, rules file, printed class,"),
        (b"# a\n7\ta\t1\t2\t3\ts\tx\n", "2: the line has 7 fields"),
        (b"7 a.rules 1 2 3\n", "1: the line has one field"),
        (
            b"X7\ta.rules\t1\t2\t3\n",
            "1: model 'X7' is not a whole number up to 4294967295; names go in a file for --names",
        ),
        (b"7\ta.rules\t+1\t2\t3\n", "1: printed class '+1' is not a whole number"),
        (b"7\ta.rules\t1\t2\t4294967296\n", "1: cents '4294967296' is not a whole number"),
        (b"7\t\t1\t2\t3\n", "1: the rules file has no name"),
        (b"\n7\t\xff\t1\t2\t3\n", "2: the line is not UTF-8"),
    ];
    for (text, sentence) in cases {
        for command in ["report", "count"] {
            said(&piped(&[command, "-"], text), &format!("<standard input>:{sentence}"), 1);
        }
    }
}

#[test]
fn refused_runs_are_told_by_line() {
    let site = site("refused", &[("a.rules", LABELS), ("b.rules", NO_SLOT)]);
    let note = |lines: &[&str], line: usize, note: &str| {
        let path = fleet(&site, "fleet.tsv", lines);
        for command in ["report", "count"] {
            let left = call(&[command, &path]);
            said(&left, &format!("{path}:{line}: refused (18, class): The run cannot be counted: "), 1);
            let second = left.said.lines().nth(1).unwrap_or_default();
            assert!(
                second.starts_with(&format!("{path}:{line}: note: ")) && second.contains(note),
                "{left:?}"
            );
        }
    };
    note(&["7 a.rules 1 2 0", "# x", "7 b.rules 1 2 0"], 3, "its rules are refused: ");
    note(&["7 b.rules 1 2 0"], 1, "b.rules:5: refused (7, slot): ");
    note(&["7 a.rules 1 3 0"], 1, "a.rules declares classes 1 to 2, so 3 cannot be the spoiled class");
    note(&["7 a.rules 0 2 0"], 1, "so 0 cannot be the printed class");
    note(
        &["7 a.rules 2 1 0"],
        1,
        "class 1 is not strictly below class 2; the printed class comes first on the line",
    );
    note(&["7 a.rules 1 1 0"], 1, "class 1 is not strictly below class 1");
    // A sum comes before a later run that cannot be counted.
    let path = fleet(&site, "sum.tsv", &["7 a.rules 1 2 4000000000", "7 a.rules 1 2 1", "7 b.rules 1 2 0"]);
    said(&call(&["report", &path]), &format!("{path}:2: refused (17, sum): "), 1);
    let path = fleet(&site, "missing.tsv", &["7 none.rules 1 2 0"]);
    said(
        &call(&["report", &path]),
        &format!("sigvolar: {path}:1: cannot read {site}/none.rules: No such file"),
        2,
    );
    said(
        &call(&["report", &format!("{site}/none.tsv")]),
        &format!("sigvolar: cannot read {site}/none.tsv: "),
        2,
    );
}

#[test]
fn runs_that_were_cut() {
    let site = site("cut", &[("a.rules", LABELS), ("b.rules", NO_SLOT)]);
    let path = fleet(&site, "fleet.tsv", &["7 a.rules 1 2 9"]);
    for command in ["report", "count"] {
        let left = call(&[command, "--fuel", "5", &path]);
        said(&left, &format!("{path}:1: the run stopped (14, spent) after 2 labels; raise --fuel\n"), 1);
        let left = call(&[command, "--objects=1", &path]);
        said(&left, &format!("{path}:1: the run stopped (16, full) after 1 label; raise --objects\n"), 1);
    }
    // A run before it that is refused is told first.
    let path = fleet(&site, "both.tsv", &["7 b.rules 1 2 9", "7 a.rules 1 2 9"]);
    said(&call(&["report", "--fuel", "5", &path]), &format!("{path}:1: refused (18, class): "), 1);
    let trouble = call(&["report", "--fuel", "100000001", &path]);
    said(&trouble, "sigvolar: a run may have at most 100000000 fuel. See `sigvolar report --help`.", 2);
    said(&call(&["count", "--objects", "65536", &path]), "sigvolar: a store holds at most 65535 objects.", 2);
}

#[test]
fn runs_that_end_without_a_value_count_and_are_named() {
    let site = site("unusual", &[("a.rules", LABELS), ("e.rules", EXCEPTION), ("d.rules", DEEP)]);
    let path = fleet(&site, "fleet.tsv", &["7 e.rules 1 2 9", "8 a.rules 1 2 4", "9 d.rules 1 2 5"]);
    let named = format!(
        "{path}:1: the run ended in exception 1; its labels count as they were then\n\
         {path}:3: the run stopped (15, deep); its labels count as they were then\n"
    );
    let left = call(&["report", &path]);
    assert_eq!(left.status, Some(0));
    let table = "model  cents per good label\n    8                  4.00\n    9                  5.00\n    7                  9.00\n";
    assert_eq!(left.printed, format!("{table}\n{named}"));
    let left = call(&["report", "--tsv", &path]);
    assert_eq!(
        (left.printed.as_str(), left.said, left.status),
        ("8\t2\t1\t4\n9\t1\t0\t5\n7\t1\t0\t9\n", named, Some(0))
    );
}

#[test]
fn figures_are_rounded_and_the_order_is_exact() {
    let site = site("figures", &[("a.rules", LABELS), ("none.rules", NO_LABEL)]);
    let runs = |model: u32, good: usize, cents: u32| {
        let mut lines = vec![format!("{model} a.rules 1 2 0"); good - 1];
        lines.push(format!("{model} a.rules 1 2 {cents}"));
        lines
    };
    // 1/3, 2/3 and 1/8 of a cent; 1000/3 and 667/2 are 333.33 and 333.50; 9 and 8 cost the same.
    let all = [
        runs(1, 3, 1),
        runs(2, 3, 2),
        runs(3, 8, 1),
        runs(4, 3, 1_000),
        runs(5, 2, 667),
        runs(9, 1, 0),
        runs(8, 2, 0),
    ];
    let mut lines = all.concat();
    lines.extend(["7 none.rules 1 2 3", "6 none.rules 1 2 0"].map(str::to_string));
    let lines: Vec<&str> = lines.iter().map(|line| line.as_str()).collect();
    let path = fleet(&site, "fleet.tsv", &lines);
    let figures =
        ["8  0.00", "9  0.00", "3  0.13", "1  0.33", "2  0.67", "4  333.33", "5  333.50", "6  –", "7  –"];
    let mut table = "model  cents per good label\n".to_string();
    for figure in figures {
        let (model, cost) = figure.split_once("  ").unwrap();
        table += &format!("{model:>5}  {cost:>20}\n");
    }
    printed(&call(&["report", &path]), &table);
    // Figures that round alike: 100001/100 of a cent more than 1000 is dearer, whatever the number of the model.
    let path = fleet(
        &site,
        "alike.tsv",
        &["5 a.rules 1 2 400001", "5 a.rules 1 2 400000", "5 a.rules 1 2 400000", "9 a.rules 1 2 400000"],
    );
    printed(
        &call(&["report", &path]),
        "model  cents per good label\n    9             400000.00\n    5             400000.33\n",
    );
}

/// The objects of a run as lines of a store file.
fn store_lines(rows: &[u32]) -> String {
    let (_, objects) = run_in_own_store(rows, 1_000).unwrap();
    let line = |object: &[u32]| object.iter().map(u32::to_string).collect::<Vec<_>>().join("\t") + "\n";
    objects.chunks(OBJECT_WIDTH).map(line).collect()
}

#[test]
fn stores_of_runs_that_ended_elsewhere() {
    let site = site("stores", &[("a.rules", LABELS)]);
    let (rows, plain) = (rows(LABELS), plain_rows(&rows(LABELS)).unwrap());
    let store = format!("{site}/a.store");
    assert_eq!(call(&["run", "--store", &store, &format!("{site}/a.rules")]).status, Some(0));
    assert_eq!(std::fs::read_to_string(&store).unwrap(), store_lines(&rows));
    file("stores/a.plain", store_lines(&plain).as_bytes());
    file("stores/bad.store", b"1\t2\n");
    file("stores/odd.store", format!("9{}\n", "\t0".repeat(17)).as_bytes());
    let path = fleet(
        &site,
        "fleet.tsv",
        &["7 a.rules 1 2 5 a.store", "8 a.rules 1 2 6 plain:a.plain", "9 a.rules 1 2 7"],
    );
    printed(&call(&["count", &path]), "7\t2\t1\t5\n8\t2\t1\t6\n9\t2\t1\t7\n");
    printed(&call(&["report", "--tsv", &path]), "7\t2\t1\t5\n8\t2\t1\t6\n9\t2\t1\t7\n");
    let notes = [
        ("7 a.rules 1 2 5 odd.store", "the store holds an object of class 9, which "),
        ("7 a.rules 1 2 5 a.plain", "the store holds an object of class "),
        ("7 a.rules 1 2 5 plain:a.store", "an Identity has no implementor among the objects"),
    ];
    for (line, note) in notes {
        let path = fleet(&site, "odd.tsv", &[line]);
        for command in ["report", "count"] {
            let left = call(&[command, &path]);
            said(&left, &format!("{path}:1: refused (18, class): "), 1);
            assert!(left.said.contains(note), "{left:?}");
        }
    }
    let path = fleet(&site, "bad.tsv", &["7 a.rules 1 2 5 bad.store"]);
    said(
        &call(&["report", &path]),
        &format!("{path}:1: {site}/bad.store:1: the line is not an object: 18 numbers"),
        1,
    );
    let path = fleet(&site, "no.tsv", &["7 a.rules 1 2 5 plain:no.store"]);
    said(&call(&["report", &path]), &format!("sigvolar: {path}:1: cannot read {site}/no.store: "), 2);
}
