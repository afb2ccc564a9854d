//! The table that people read, from the bytes of a report.

use crate::names::Names;

/// What stands where there is no good label, and the column of costs.
const NONE: &str = "–";
const COST: &str = "cents per good label";

/// The lines of a report with the names of their models.
pub struct Table {
    pub rows: Vec<Row>,
    pub full: bool,
}

/// A model with its sums.
pub struct Row {
    pub name: String,
    pub printed: u64,
    pub spoiled: u64,
    pub cents: u64,
}

impl Row {
    /// Labels printed less those spoiled.
    pub fn good(&self) -> u64 {
        self.printed.saturating_sub(self.spoiled)
    }

    /// Cents per good label with two decimals, rounded half up; none without good labels.
    pub fn cost(&self) -> Option<String> {
        let good = self.good();
        let hundredths = (200 * self.cents + good).checked_div(2 * good)?;
        Some(format!("{}.{:02}", hundredths / 100, hundredths % 100))
    }
}

impl Table {
    pub fn of(report: &[u8], names: &Names, full: bool) -> Table {
        let text = String::from_utf8_lossy(report);
        let row = |line: &str| {
            let mut numbers = line.split('\t').map(|digits| digits.parse::<u64>().unwrap_or(0));
            let mut next = || numbers.next().unwrap_or(0);
            let name = names.of(next() as u32);
            Row { name, printed: next(), spoiled: next(), cents: next() }
        };
        Table { rows: text.lines().map(row).collect(), full }
    }

    /// The names of the columns after the model's.
    pub fn columns(&self) -> Vec<&'static str> {
        if self.full {
            vec![COST, "printed", "spoiled", "cents"]
        } else {
            vec![COST]
        }
    }

    /// What a row has in the columns after the cost.
    pub fn sums(&self, row: &Row) -> Vec<String> {
        let sums = [row.printed, row.spoiled, row.cents].map(|sum| sum.to_string());
        if self.full {
            sums.to_vec()
        } else {
            Vec::new()
        }
    }

    /// The table: right-aligned, two spaces between columns.
    pub fn text(&self) -> String {
        let mut lines = vec![vec!["model".to_string()]];
        lines[0].extend(self.columns().into_iter().map(str::to_string));
        for row in &self.rows {
            let cost = row.cost().unwrap_or_else(|| NONE.to_string());
            lines.push([vec![row.name.clone(), cost], self.sums(row)].concat());
        }
        let width = |column: usize| lines.iter().map(|line| line[column].chars().count()).max().unwrap_or(0);
        let widths: Vec<usize> = (0..lines[0].len()).map(width).collect();
        let aligned = |line: &Vec<String>| {
            let cells: Vec<String> =
                line.iter().zip(&widths).map(|(cell, width)| format!("{cell:>width$}")).collect();
            cells.join("  ") + "\n"
        };
        lines.iter().map(aligned).collect()
    }
}
