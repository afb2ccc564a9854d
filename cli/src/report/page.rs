//! The table as a page: self-contained, without a script, and the same bytes for the same fleet.

use super::table::{Row, Table};

const TITLE: &str = "Cost per good label";

/// Bars are borders, since browsers leave backgrounds out when they print.
const STYLE: &str = "\
body { font: 1rem/1.4 system-ui, sans-serif; color: #000; background: #fff; margin: 2rem auto; max-width: 60rem; padding: 0 1rem; }
table { border-collapse: collapse; width: 100%; }
caption { text-align: left; font-size: 1.4rem; font-weight: bold; padding-bottom: 0.6rem; }
th, td { padding: 0.35rem 0.6rem; border-bottom: 1px solid #999; text-align: right; vertical-align: middle; }
thead th { border-bottom: 2px solid #000; vertical-align: bottom; }
th:first-child, .bar { text-align: left; }
tbody th { font-weight: normal; }
td { font-variant-numeric: tabular-nums; }
.bar { width: 45%; }
.bar span { display: block; height: 0; border-top: 0.9rem solid #000; }
@media print { body { margin: 0; max-width: none; } thead { display: table-header-group; } tr { break-inside: avoid; } }
";

/// The page of a table, with notes on runs below it.
pub fn page(table: &Table, notes: &[String]) -> String {
    let head = format!(
        "<!DOCTYPE html>\n<html lang=\"en\">\n<head>\n<meta charset=\"utf-8\">\n\
         <meta name=\"viewport\" content=\"width=device-width, initial-scale=1\">\n\
         <title>{TITLE}</title>\n<style>\n{STYLE}</style>\n</head>\n<body>\n"
    );
    let columns = table.columns();
    let (cost, sums) = columns.split_first().unwrap_or((&"", &[]));
    let heading = |name: &str| format!("<th scope=\"col\">{name}</th>");
    let sums: String = sums.iter().map(|name| heading(name)).collect();
    let bar = "<th scope=\"col\" class=\"bar\">compared with the dearest</th>";
    let headings = format!("{}{}{bar}{sums}", heading("model"), heading(cost));
    let dearest = table.rows.iter().rfind(|row| row.good() > 0);
    let rows: String = table.rows.iter().map(|row| line(table, row, dearest)).collect();
    let empty = if table.rows.is_empty() { "<p>The fleet has no runs.</p>\n" } else { "" };
    let notes: String = notes.iter().map(|note| format!("<p>{}</p>\n", escaped(note))).collect();
    format!(
        "{head}<table>\n<caption>{TITLE}, by printer model, lowest first</caption>\n<thead>\n<tr>{headings}</tr>\n</thead>\n\
         <tbody>\n{rows}</tbody>\n</table>\n{empty}{notes}</body>\n</html>\n"
    )
}

/// A row: name, cost, bar, sums.
fn line(table: &Table, row: &Row, dearest: Option<&Row>) -> String {
    let (cost, bar) = match (row.cost(), dearest) {
        (Some(cost), Some(dearest)) => {
            (cost, format!("<span style=\"width: {}%\"></span>", percent(row, dearest)))
        }
        _ => ("no good label".to_string(), String::new()),
    };
    let sums: String = table.sums(row).iter().map(|sum| format!("<td>{sum}</td>")).collect();
    let name = escaped(&row.name);
    format!("<tr><th scope=\"row\">{name}</th><td>{cost}</td><td class=\"bar\">{bar}</td>{sums}</tr>\n")
}

/// A row's cost in hundredths of a percent of the dearest one's, with a decimal point; 0 where all cost nothing.
fn percent(row: &Row, dearest: &Row) -> String {
    let (part, whole) =
        (row.cents as u128 * dearest.good() as u128, dearest.cents as u128 * row.good() as u128);
    let share = (20_000 * part + whole).checked_div(2 * whole).unwrap_or(0);
    format!("{}.{:02}", share / 100, share % 100)
}

/// A text as a page has it.
fn escaped(text: &str) -> String {
    let mut page = String::new();
    for letter in text.chars() {
        match letter {
            '&' => page += "&amp;",
            '<' => page += "&lt;",
            '>' => page += "&gt;",
            '"' => page += "&quot;",
            '\'' => page += "&#39;",
            _ => page.push(letter),
        }
    }
    page
}
