//! The table: a text line for each file, its notes below it, and a last one with the sums.

use super::listing::Beside;
use super::{DIFFERENT, SAME, UNREAD};

const HEAD: [&str; 7] = [
    "file",
    "form",
    "pairs",
    "rows",
    "equal",
    "different",
    "refused",
];

pub struct Line {
    cells: [String; 7],
    notes: Vec<String>,
    outcome: Outcome,
}

#[derive(Clone, Copy, PartialEq)]
enum Outcome {
    Equal,
    Different,
    Refused,
    Unread,
}

impl Line {
    pub fn listed(name: String, form: &str, beside: Beside) -> Line {
        let outcome = match () {
            _ if beside.different > 0 => Outcome::Different,
            _ if beside.refused.is_some() => Outcome::Refused,
            _ => Outcome::Equal,
        };
        let sums = [beside.pairs, beside.rows as u64, beside.equal as u64];
        let [pairs, rows, equal] = match beside.refused {
            Some(_) => [0; 3].map(|_: u64| "-".to_string()),
            None => sums.map(|sum| sum.to_string()),
        };
        let different = match outcome {
            Outcome::Refused => "-".to_string(),
            _ => beside.different.to_string(),
        };
        let refused = beside.refused.unwrap_or_else(|| "-".to_string());
        Line {
            cells: [
                name,
                form.to_string(),
                pairs,
                rows,
                equal,
                different,
                refused,
            ],
            notes: beside.notes,
            outcome,
        }
    }

    pub fn unread(name: String, why: String) -> Line {
        let mut cells = [(); 7].map(|()| "-".to_string());
        cells[0] = name;
        cells[6] = format!("not read: {why}");
        Line {
            cells,
            notes: Vec::new(),
            outcome: Outcome::Unread,
        }
    }
}

#[derive(Default)]
pub struct Table {
    lines: Vec<Line>,
}

impl Table {
    pub fn push(&mut self, line: Line) {
        self.lines.push(line);
    }

    fn count(&self, outcome: Outcome) -> usize {
        let such = |line: &&Line| line.outcome == outcome;
        self.lines.iter().filter(such).count()
    }

    pub fn status(&self) -> u8 {
        match () {
            _ if self.count(Outcome::Different) > 0 => DIFFERENT,
            _ if self.count(Outcome::Unread) > 0 => UNREAD,
            _ => SAME,
        }
    }

    pub fn printed(&self) -> String {
        let head = HEAD.map(str::to_string);
        let all = || self.lines.iter().map(|line| &line.cells).chain([&head]);
        let widths: Vec<usize> = (0..7)
            .map(|at| {
                all()
                    .map(|cells| cells[at].chars().count())
                    .max()
                    .unwrap_or(0)
            })
            .collect();
        let mut printed = row(&head, &widths);
        for line in &self.lines {
            printed += &row(&line.cells, &widths);
            for note in &line.notes {
                printed += &format!("    {note}\n");
            }
        }
        let [equal, different, refused, unread] = [
            Outcome::Equal,
            Outcome::Different,
            Outcome::Refused,
            Outcome::Unread,
        ]
        .map(|outcome| self.count(outcome));
        let files = self.lines.len();
        printed
            + &format!(
                "files {files}: equal {equal}, different {different}, refused {refused}, not read {unread}\n"
            )
    }
}

/// Names to the left, numbers to the right, and the last cell as it is.
fn row(cells: &[String; 7], widths: &[usize]) -> String {
    let [name, form, numbers @ .., refused] = cells;
    let mut row = format!("{name:0$}  {form:1$}", widths[0], widths[1]);
    for (cell, width) in numbers.iter().zip(&widths[2..]) {
        row += &format!("  {cell:>width$}");
    }
    row + &format!("  {refused}\n")
}
