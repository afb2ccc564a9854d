//! Names, pages and rankings as they are typed.

mod sites;
mod typed;

use sites::{fleet, printed, said, site, EXCEPTION, LABELS, NO_LABEL};
use std::path::Path;
use std::process::Command;
use typed::{call, file, piped, sigvolar, Left};

#[test]
fn names_of_models() {
    let site = site("names", &[("a.rules", LABELS)]);
    let path = fleet(&site, "fleet.tsv", &["7 a.rules 1 2 5", "8 a.rules 1 2 6"]);
    let names = file("names.tsv", "\u{feff}# names\r\n7\tGröße – 血液 \r\n99\tanother\r\n".as_bytes());
    printed(
        &call(&["report", "--names", &names, &path]),
        "     model  cents per good label\nGröße – 血液                  5.00\n         8                  6.00\n",
    );
    let cases = [
        ("7\n", "the line is not a model's number, one tab and its name"),
        ("x\ty\n", "the line is not a model's number"),
        ("7\t \n", "the line is not a model's number"),
        ("7\ta\tb\n", "the name of model 7 has a tab or another control character; leave it out"),
        ("7\ta\u{1b}[2J\n", "the name of model 7 has a tab or another control character"),
        ("7\ta\n7\tb\n", "model 7 has a name already, on line 1"),
    ];
    for (text, sentence) in cases {
        let names = file("bad_names.tsv", text.as_bytes());
        let line = text.lines().count();
        said(&call(&["report", "--names", &names, &path]), &format!("{names}:{line}: {sentence}"), 1);
    }
    said(&call(&["report", "--names", "none.tsv", &path]), "sigvolar: cannot read none.tsv: No such file", 2);
    let left = call(&["report", "--tsv", "--names", &names, &path]);
    said(&left, "sigvolar: --tsv prints the report as it is; --full and --names are for the table.", 2);
}

/// Parts of pages that were left in a folder.
fn parts_left(site: &str) -> Vec<String> {
    let names =
        std::fs::read_dir(site).unwrap().map(|entry| entry.unwrap().file_name().into_string().unwrap());
    names.filter(|name| name.ends_with(".part")).collect()
}

#[test]
fn the_page() {
    let lines = ["7 a.rules 1 2 5", "8 a.rules 1 2 10", "9 none.rules 1 2 1", "6 e.rules 1 2 1"];
    let names = file("page_names.tsv", b"7\t<b>\"A\" & 'B'</b>\n");
    let pages: Vec<String> = ["page one", "page two"]
        .map(|name| {
            let files = [("a.rules", LABELS), ("none.rules", NO_LABEL), ("e.rules", EXCEPTION)];
            let site = site(name, &files);
            let (path, page) = (fleet(&site, "fleet.tsv", &lines), format!("{site}/page.html"));
            let left = call(&["report", "--names", &names, "--html", &page, &path]);
            assert!(left.printed.starts_with("           model  cents per good label\n"), "{left:?}");
            assert_eq!((left.said.as_str(), left.status), ("", Some(0)));
            assert!(parts_left(&site).is_empty());
            std::fs::read_to_string(page).unwrap()
        })
        .into();
    assert_eq!(pages[0], pages[1]);
    for part in [
        "<!DOCTYPE html>\n<html lang=\"en\">\n",
        "<meta charset=\"utf-8\">",
        "<meta name=\"viewport\"",
        "<caption>",
        "<th scope=\"col\">cents per good label</th>",
        "<th scope=\"row\">&lt;b&gt;&quot;A&quot; &amp; &#39;B&#39;&lt;/b&gt;</th><td>5.00</td><td class=\"bar\"><span style=\"width: 50.00%\">",
        "<th scope=\"row\">8</th><td>10.00</td><td class=\"bar\"><span style=\"width: 100.00%\">",
        "<th scope=\"row\">9</th><td>no good label</td><td class=\"bar\"></td></tr>",
        "<p>Line 4: the run ended in exception 1; its labels count as they were then.</p>",
        "@media print",
    ] {
        assert!(pages[0].contains(part), "{part}: {}", pages[0]);
    }
    for part in ["<script", "http", "page one", "fleet.tsv"] {
        assert!(!pages[0].contains(part), "{part}");
    }
}

#[test]
fn pages_that_are_not_written() {
    let site = site("kept", &[("a.rules", LABELS)]);
    let path = fleet(&site, "fleet.tsv", &["7 a.rules 1 2 5"]);
    let rules_file = format!("{site}/a.rules");
    for kept in [&path, &rules_file] {
        let before = std::fs::read(kept).unwrap();
        said(&call(&["report", "--html", kept, &path]), "sigvolar: the page would overwrite ", 2);
        assert_eq!(std::fs::read(kept).unwrap(), before);
    }
    let nowhere = format!("{site}/no/page.html");
    said(
        &call(&["report", "--html", &nowhere, &path]),
        &format!("sigvolar: cannot write {nowhere}: No such file"),
        2,
    );
    // A folder stands in the page's place: the part that was written is taken away.
    let taken = format!("{site}/taken");
    std::fs::create_dir_all(&taken).unwrap();
    said(&call(&["report", "--html", &taken, &path]), &format!("sigvolar: cannot write {taken}: "), 2);
    assert!(parts_left(&site).is_empty());
    said(&call(&["report", "--html=", &path]), "sigvolar: --html needs the name of a file.", 2);
    // Nothing is written where there is no table.
    let (page, bad) = (format!("{site}/none.html"), fleet(&site, "bad.tsv", &["7 a.rules 2 1 5"]));
    assert_eq!(call(&["report", "--html", &page, &bad]).status, Some(1));
    assert!(!Path::new(&page).exists());
    let empty = fleet(&site, "empty.tsv", &[]);
    said(&call(&["report", "--html", &page, &empty]), &format!("{empty}: there are no runs"), 0);
    assert!(std::fs::read_to_string(&page).unwrap().contains("<p>The fleet has no runs.</p>"));
}

#[test]
fn counted_lines_and_reports_are_ranked() {
    let one = file("one.counted", b"\xef\xbb\xbf# May\r\n7\t2\t1\t5\r\n\r\n8\t1\t0\t6");
    let other = file("other.report", b"7\t3\t0\t7\n");
    printed(&call(&["rank", &one, &other]), "7\t5\t1\t12\n8\t1\t0\t6\n");
    printed(&piped(&["rank", &one, "-"], b"9\t0\t0\t0\n"), "7\t2\t1\t5\n8\t1\t0\t6\n9\t0\t0\t0\n");
    said(&piped(&["rank"], b""), "there are no counted lines, so there is no report\n", 0);
    let cases: [(&[u8], &str); 6] = [
        (b"7\t2\t1\n", "1: the line is not model, printed, spoiled and cents: four whole numbers"),
        (b"7\t2\t1\t5\t6\n", "1: the line is not model, printed, spoiled and cents"),
        (b"\n7\t2\t-1\t5\n", "2: the line is not model, printed, spoiled and cents"),
        (b"7\t2\t1\t4294967296\n", "1: the line is not model, printed, spoiled and cents"),
        (b"7\t2\t1\t5\n#\n7\t1\t2\t5\n", "3: the line has more labels spoiled than printed"),
        (
            b"9\t2\t1\t4000000000\n9\t0\t0\t1\n",
            "2: refused (17, sum): the line takes one of its model's sums past",
        ),
    ];
    for (text, sentence) in cases {
        said(&piped(&["rank", &one, "-"], text), &format!("<standard input>:{sentence}"), 1);
    }
    said(&call(&["rank", "none"]), "sigvolar: cannot read none: No such file", 2);
    said(&call(&["rank", "--tsv"]), "sigvolar: there is no option --tsv.", 2);
    for command in ["report", "count"] {
        said(&call(&[command]), "sigvolar: one fleet is needed, or - for standard input.", 2);
        said(&call(&[command, "a", "b"]), "sigvolar: one fleet is needed", 2);
    }
}

/// A fleet in eight parts, counted side by side and ranked, has the report of the whole.
#[test]
fn a_fleet_in_eight_parts() {
    let tidy = "C 1 0, C 2 1, S, B 0 1, W 1";
    let site = site("eight", &[("a.rules", LABELS), ("b.rules", tidy)]);
    let line = |run: usize| {
        let rules = if run.is_multiple_of(3) { "a" } else { "b" };
        format!("{} {rules}.rules 1 2 {}", run * 7 % 41, run % 17 + 3)
    };
    let lines: Vec<String> = (0..800).map(line).collect();
    let whole = fleet(&site, "fleet.tsv", &lines.iter().map(|line| line.as_str()).collect::<Vec<_>>());
    let steps = "cd \"$1\" && split -n r/8 fleet.tsv part. &&
        ls part.a? | xargs -P 8 -I{} sh -c '\"$0\" count - < {} > {}.counted' \"$0\" && \"$0\" rank part.*.counted";
    let tool = env!("CARGO_BIN_EXE_sigvolar");
    let ranked: Left = Command::new("sh").args(["-c", steps, tool, &site]).output().unwrap().into();
    assert_eq!(ranked.printed.lines().count(), 41);
    printed(&ranked, &call(&["report", "--tsv", &whole]).printed);
    // Two reports are joined to one.
    let parts: Vec<String> = lines.chunks(500).map(|part| part.join("\n").replace(' ', "\t")).collect();
    let reports = parts.iter().map(|part| {
        let mut child = sigvolar();
        let path = format!("{site}/half.tsv");
        std::fs::write(&path, part).unwrap();
        String::from_utf8(child.args(["report", "--tsv", &path]).output().unwrap().stdout).unwrap()
    });
    printed(&piped(&["rank", "-"], reports.collect::<String>().as_bytes()), &ranked.printed);
}
