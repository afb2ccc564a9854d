//! Price terms as they are typed: prices on a day, prices of a month, and runs that cost by date.

mod sites;
mod typed;

use sites::{fleet, printed, said, site, EXCEPTION, LABELS, NO_LABEL};
use typed::{call, file, piped};

/// No slot 1: refused with 7 on line 5.
const NO_SLOT: &str = "C 1 0, C 2 1, S, B 0 1, I 1";

fn example(name: &str) -> String {
    format!("{}/../examples/{name}", env!("CARGO_MANIFEST_DIR"))
}

/// A file of terms, with spaces for tabs and commas for line feeds.
fn terms(name: &str, lines: &str) -> String {
    file(name, lines.replace(' ', "\t").replace(',', "\n").as_bytes())
}

#[test]
fn the_shipped_example() {
    let (terms, fleet, names) = (example("terms.tsv"), example("fleet-priced.tsv"), example("names.tsv"));
    printed(&call(&["price", &terms, "11", "2026-02-16"]), "8\n");
    printed(&call(&["price", &terms, "11", "2026-03-16"]), "7\n");
    printed(&call(&["price", &terms, "12", "2026-04-15"]), "none\n");
    let prices = "2026-03-01\t2026-03-09\t8\n2026-03-10\t2026-03-24\t7\n2026-03-25\t2026-03-31\t8\n";
    printed(&call(&["prices", &terms, "11", "2026-03"]), prices);
    printed(
        &call(&["count", "--prices", &terms, &fleet]),
        "11\t2\t1\t16\n11\t2\t1\t14\n11\t2\t1\t14\n11\t2\t1\t16\n11\t2\t1\t18\n\
         12\t2\t1\t22\n12\t2\t0\t22\n12\t2\t1\t20\n12\t2\t0\t20\n\
         13\t2\t0\t24\n13\t2\t0\t24\n13\t2\t0\t24\n",
    );
    let report = "13\t6\t0\t72\n12\t8\t2\t84\n11\t10\t5\t78\n";
    printed(&call(&["report", "--tsv", "--prices", &terms, &fleet]), report);
    let counted = call(&["count", &format!("--prices={terms}"), &fleet]);
    printed(&piped(&["rank"], counted.printed.as_bytes()), report);
    printed(
        &call(&["report", "--prices", &terms, "--names", &names, &fleet]),
        "    model  cents per good label\n Cedar XL                 12.00\n  Birch 7                 14.00\n\
         Alder 200                 15.60\n",
    );
}

#[test]
fn a_price_and_why() {
    let path = terms("why.tsv", "7 0 65535 150 1,7 59 60 0 2,8 0 0 1 65535,");
    for (model, date, cents) in [
        ("7", "2000-01-01", "150"),
        ("7", "0", "150"),
        ("7", "65535", "150"),
        ("7", "2179-06-06", "150"),
        ("7", "2000-02-29", "0"),
        ("7", "00060", "0"),
        ("8", "1", "none"),
        ("0", "1", "none"),
        ("65536", "1", "none"),
        ("4294967295", "1", "none"),
    ] {
        printed(&call(&["price", &path, model, date]), &format!("{cents}\n"));
    }
    let why = |model: &str, date: &str| call(&["price", "--why", &path, model, date]);
    printed(
        &why("7", "60"),
        &format!(
            "0\n{path}:2: model 7, 0 cents, from 2000-02-29 (day 59) to 2000-03-01 (day 60), signing number 2\n"
        ),
    );
    printed(
        &why("7", "2000-03-02"),
        &format!(
            "150\n{path}:1: model 7, 150 cents, from 2000-01-01 (day 0) to 2179-06-06 (day 65535), signing number 1\n"
        ),
    );
    printed(&why("9", "366"), &format!("none\n{path}: no term of model 9 holds on 2001-01-01 (day 366)\n"));
    let left = piped(&["price", "--why", "-", "7", "0"], b"7\t0\t0\t5\t1\n");
    printed(
        &left,
        "5\n<standard input>:1: model 7, 5 cents, from 2000-01-01 (day 0) to 2000-01-01 (day 0), signing number 1\n",
    );
    printed(&piped(&["price", "-", "7", "0"], b""), "none\n");
}

#[test]
fn the_prices_of_a_month() {
    let path = terms("month.tsv", "7 0 30 150 1,7 10 12 0 2,8 59 60 9 3,7 14 14 150 4,7 65500 65535 1 5,");
    let month = |model: &str, month: &str| call(&["prices", &path, model, month]);
    printed(
        &month("7", "2000-01"),
        "2000-01-01\t2000-01-10\t150\n2000-01-11\t2000-01-13\t0\n2000-01-14\t2000-01-31\t150\n",
    );
    printed(&month("8", "2000-02"), "2000-02-29\t2000-02-29\t9\n");
    printed(&month("7", "2179-05"), "2179-05-02\t2179-05-31\t1\n");
    printed(&call(&["prices", "--tsv", &path, "7", "2000-01"]), "0\t9\t150\n10\t12\t0\n13\t30\t150\n");
    for options in [&["prices"][..], &["prices", "--tsv"]] {
        let left = call(&[options, &[&path, "7", "2000-02"]].concat());
        said(&left, &format!("{path}: model 7 has no price in 2000-02\n"), 0);
        let left = call(&[options, &[&path, "4294967295", "2000-02"]].concat());
        said(&left, &format!("{path}: model 4294967295 has no price in 2000-02\n"), 0);
    }
    printed(&piped(&["prices", "-", "7", "2000-01"], b"7\t0\t0\t5\t1\n"), "2000-01-01\t2000-01-01\t5\n");
}

#[test]
fn refused_terms_and_dates() {
    let good = terms("dates.tsv", "7 0 65535 150 1,");
    for date in ["2100-02-29", "2179-06-07", "1999-12-31", "2000-00-01", "2000-13-01", "0000-01-01"] {
        said(&call(&["price", &good, "7", date]), &format!("{date}: refused (24, date): The day, "), 1);
    }
    for day in ["65536", "99999"] {
        said(&call(&["price", &good, "7", day]), &format!("day {day}: refused (24, date): "), 1);
    }
    for month in ["2179-06", "1999-12", "2000-00", "2000-13"] {
        said(&call(&["prices", &good, "7", month]), &format!("{month}: refused (24, date): "), 1);
    }
    let cases: [(&[u8], &str, &str); 12] = [
        (b"7\t9\t8\t1\t1\n", "1: refused (23, term): The term's first day", ""),
        (b"7\t0\t8\t1\t1\n8\t0\t8\t1\t1\n", "2: refused (23, term): ", ""),
        (
            b"7\t0\t8\t1\n",
            "1: refused (1, line): ",
            "the line has 4 fields; a term has five: model, first day,",
        ),
        (b"seven\n", "1: refused (1, line): ", "the line has one field"),
        (b"7\t0\t8\t1\t1\n# b\n", "2: refused (1, line): ", "the line begins with #; every line is a term"),
        (b"\n", "1: refused (1, line): ", "the line is empty"),
        (b"7 0 8 1 1\n", "1: refused (1, line): ", "the line has a space; one tab"),
        (b"7\t0\t8\t1\t1\r\n", "1: refused (1, line): ", "carriage return"),
        (b"\xef\xbb\xbf7\t0\t8\t1\t1\n", "1: refused (1, line): ", "byte-order mark"),
        (b"7\t0\t8\t1\t1", "1: refused (1, line): ", "does not end in a line feed"),
        (
            b"7\t2026-01-01\t9861\t1\t1\n",
            "1: refused (1, line): ",
            "the line has a date; a term has the numbers of its days, and 2026-01-01 is day 9497",
        ),
        (
            b"7\t0\t2026-02-30\t1\t1\n",
            "1: refused (1, line): ",
            "the line has a date; a term has the numbers of its days\n",
        ),
    ];
    for (text, refusal, note) in cases {
        // The terms' refusals come before that of the date.
        for arguments in [["price", "-", "7", "65536"], ["prices", "-", "7", "2000-13"]] {
            let left = piped(&arguments, text);
            said(&left, &format!("<standard input>:{refusal}"), 1);
            assert!(left.said.contains(note), "{left:?}");
        }
    }
    // Nothing is guessed of a line whose bytes tell nothing.
    assert_eq!(piped(&["price", "-", "7", "0"], b"7\t0\t8\t1\t01\n").said.lines().count(), 1);
    // As much as decides is read, and no more.
    said(&call(&["price", "/dev/zero", "7", "0"]), "/dev/zero:1: refused (1, line): ", 1);
    let all: String = (0..65_536).map(|number| format!("7\t{number}\t{number}\t3\t{number}\n")).collect();
    printed(&piped(&["price", "-", "7", "65535"], all.as_bytes()), "3\n");
    for (last, number) in [("8\t0\t0\t1\t0\n", "23, term"), ("8\n", "1, line")] {
        let left = piped(&["price", "-", "7", "0"], (all.clone() + last).as_bytes());
        said(&left, &format!("<standard input>:65537: refused ({number}): "), 1);
    }
}

#[test]
fn wrong_calls() {
    let calls: [(&[&str], &str); 16] = [
        (&["price"], "the terms' file, a model and a date are needed."),
        (&["price", "x", "7"], "the terms' file, a model and a date are needed."),
        (&["price", "x", "7", "0", "0"], "the terms' file, a model and a date are needed."),
        (&["price", "x", "7", "--why=yes", "0"], "there is no option --why."),
        (&["price", "--tsv", "x", "7", "0"], "there is no option --tsv."),
        (&["price", "x", "seven", "0"], "a model is a whole number up to 4294967295, not 'seven'."),
        (&["price", "x", "4294967296", "0"], "a model is a whole number up to 4294967295"),
        (
            &["price", "x", "7", "123456"],
            "a date is YYYY-MM-DD, or a day's number of one to five digits, not ",
        ),
        (&["price", "x", "7", ""], "a date is YYYY-MM-DD"),
        (&["price", "x", "7", "2026-1-1"], "a date is YYYY-MM-DD"),
        (&["price", "x", "7", "2026-01"], "a date is YYYY-MM-DD"),
        (&["price", "x", "7", "2026-01-01-01"], "a date is YYYY-MM-DD"),
        (&["price", "x", "7", "+026-01-01"], "a date is YYYY-MM-DD"),
        (&["prices", "x", "7", "2026-01-01"], "a month is YYYY-MM, not '2026-01-01'."),
        (&["prices", "x", "7", "202601"], "a month is YYYY-MM"),
        (&["prices", "x"], "the terms' file, a model and a month are needed."),
    ];
    for (arguments, sentence) in calls {
        said(&call(arguments), &format!("sigvolar: {sentence}"), 2);
    }
    for arguments in [["price", "no/terms.tsv", "7", "0"], ["prices", "no/terms.tsv", "7", "2000-01"]] {
        said(&call(&arguments), "sigvolar: cannot read no/terms.tsv: No such file or directory.\n", 2);
    }
    // Bytes that are no text, and days and months that look like one.
    for odd in ["\u{661}", "12\u{663}", "2026\u{2010}01", "\u{fe0f}", "２０２６-01", "-1"] {
        for command in ["price", "prices"] {
            assert_eq!(call(&[command, "--", "x", "7", odd]).status, Some(2), "{odd}");
        }
    }
}

#[test]
fn runs_that_cost_by_date() {
    let site = site("dated", &[("a.rules", LABELS), ("none.rules", NO_LABEL), ("e.rules", EXCEPTION)]);
    let path = terms("dated/terms.tsv", "7 0 30 150 1,7 10 12 40 2,8 0 65535 0 3,9 5 5 65535 4,");
    let lines =
        ["7 a.rules 1 2 @0", "7 a.rules 1 2 @2000-01-11", "8 a.rules 1 2 @65535", "7 none.rules 1 2 @30"];
    let runs =
        fleet(&site, "fleet.tsv", &[&lines[..], &["9 e.rules 1 2 @00005", "9 a.rules 1 2 7"]].concat());
    let counted = "7\t2\t1\t300\n7\t2\t1\t80\n8\t2\t1\t0\n7\t0\t0\t0\n9\t1\t0\t65535\n9\t2\t1\t7\n";
    printed(&call(&["count", &runs, "--prices", &path]), counted);
    let left = call(&["report", "--tsv", "--prices", &path, &runs]);
    assert_eq!((left.printed.as_str(), left.status), ("8\t2\t1\t0\n7\t4\t2\t380\n9\t3\t1\t65542\n", Some(0)));
    // Terms that no run needs are read all the same.
    let given = fleet(&site, "given.tsv", &["7 a.rules 1 2 9"]);
    printed(&call(&["count", "--prices", &path, &given]), "7\t2\t1\t9\n");
    let bad = terms("dated/bad.tsv", "7 0 30 150 1,7 9 8 1 2,");
    for command in ["report", "count"] {
        for runs in [&given, &runs] {
            said(&call(&[command, "--prices", &bad, runs]), &format!("{bad}:2: refused (23, term): "), 1);
        }
        let missing = call(&[command, "--prices", "no/terms.tsv", &given]);
        said(&missing, "sigvolar: cannot read no/terms.tsv: No such file", 2);
        let both = call(&[command, "--prices", "-", "-"]);
        said(&both, "sigvolar: the fleet and the prices cannot both be standard input.", 2);
    }
    let text = std::fs::read(&path).unwrap();
    printed(&piped(&["count", "--prices=-", &runs], &text), counted);
    let left = call(&["report", "--html", &path, "--prices", &path, &runs]);
    said(&left, &format!("sigvolar: the page would overwrite {path}."), 2);
    assert_eq!(std::fs::read(&path).unwrap(), text);
}

#[test]
fn runs_that_have_no_price() {
    let site = site("unpriced", &[("a.rules", LABELS), ("b.rules", NO_SLOT)]);
    let path = terms("unpriced/terms.tsv", "7 0 30 150 1,");
    let refused = |lines: &[&str], options: &[&str], line: usize, sentence: &str| {
        let runs = fleet(&site, "fleet.tsv", lines);
        for command in ["report", "count"] {
            let left = call(&[&[command, &runs], options].concat());
            said(&left, &format!("{runs}:{line}: {sentence}"), 1);
        }
    };
    let prices = ["--prices", &path];
    let no_price = format!(
        "model 7 has no price on 2000-02-01 (day 31); add a term that holds then to {path}, or put the cents on the line\n"
    );
    refused(&["7 a.rules 1 2 @30", "7 a.rules 1 2 @31"], &prices, 2, &no_price);
    refused(
        &["8 a.rules 1 2 @2000-01-01"],
        &prices,
        1,
        "model 8 has no price on 2000-01-01 (day 0); add a term",
    );
    refused(
        &["65536 a.rules 1 2 @0"],
        &prices,
        1,
        "model 65536 has no price on any date, since terms name models up to 65535; put the cents on the line\n",
    );
    refused(
        &["7 a.rules 1 2 5", "7 a.rules 1 2 @0"],
        &[],
        2,
        "the cents are a date, and no prices are given; give their file by --prices\n",
    );
    refused(&["7 a.rules 1 2 @2100-02-29"], &prices, 1, "2100-02-29 is refused (24, date): The day, ");
    refused(&["7 a.rules 1 2 @65536"], &prices, 1, "day 65536 is refused (24, date): ");
    for date in ["@", "@x", "@2026-1-1", "@123456", "@@0", "@-1", "@ 0"] {
        let line = format!("7\ta.rules\t1\t2\t{date}\n");
        let left = piped(&["count", "--prices", &path, "-"], line.as_bytes());
        said(
            &left,
            &format!("<standard input>:1: '{date}' is not @ and a date; a date is YYYY-MM-DD, or "),
            1,
        );
    }
    let left = piped(&["count", "-"], b"7\ta.rules\t1\t2\tx\n");
    said(
        &left,
        "<standard input>:1: cents 'x' is not a whole number up to 4294967295, nor @ and a date\n",
        1,
    );
    // The first run that is wrong is told: one that cannot be counted before it, and after it.
    let first = ["7 b.rules 1 2 @0", "7 a.rules 1 2 @31"];
    refused(&first, &prices, 1, "refused (18, class): ");
    refused(&["7 a.rules 1 2 @31", "7 b.rules 1 2 @0"], &prices, 1, "model 7 has no price on 2000-02-01");
    // On one run, what cannot be counted comes before what has no price.
    refused(&["7 b.rules 1 2 @31"], &prices, 1, "refused (18, class): ");
}

/// 65,535 labels at 65,535 cents are 4,294,836,225 cents, past the largest sum.
#[test]
fn costs_past_the_largest_sum() {
    let site = site("large", &[("a.rules", LABELS)]);
    let store = format!("1{}\n", "\t0".repeat(17)).repeat(65_535);
    file("large/many.store", store.as_bytes());
    let path = terms("large/terms.tsv", "7 0 0 65535 1,7 1 1 61037 2,7 2 2 61036 3,");
    let many = |day: u32| format!("7 a.rules 1 2 @{day} many.store");
    let report = |lines: &[&str]| {
        let runs = fleet(&site, "fleet.tsv", lines);
        (call(&["report", "--tsv", "--prices", &path, &runs]), runs)
    };
    for day in [0, 1] {
        let (left, runs) = report(&["7 a.rules 1 2 5", &many(day), "7 a.rules 1 3 1"]);
        said(&left, &format!("{runs}:2: refused (17, sum): "), 1);
    }
    let (left, _) = report(&[&many(2)]);
    printed(&left, "7\t65535\t0\t3999994260\n");
    // The counts are ranked to the same refusal.
    let runs = fleet(&site, "ranked.tsv", &[&many(0)]);
    let counted = call(&["count", "--prices", &path, &runs]);
    printed(&counted, "7\t65535\t0\t4294836225\n");
    said(&piped(&["rank"], counted.printed.as_bytes()), "<standard input>:1: refused (17, sum): ", 1);
}
