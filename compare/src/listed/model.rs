//! The program that lists, as in the words of request 12: what is printed for an input. Its first line comes first, then the packed
//! form of the rest; the listing's model says which rows there are, and what else is refused.

use crate::form::Sheet;
use crate::listings::layout::Drawn;
use crate::listings::model::{Listed, Listing, Row, Rows};
use crate::numbers::hex;
use crate::packed::model as packed;

pub const MOST_ROWS: usize = 512;
const EPSILON: f64 = 1.0 / 1024.0;
/// The first line of an input.
pub const LINE: &[u8] = b"packed\n";
const MISSING: u64 = 16;
const BROKEN: u64 = 18;
/// By their numbers: 0 makes no row.
pub const CLASSES: [&str; 6] = ["none", "tangent", "one", "two", "lines", "arcs"];

pub enum Answer {
    /// The input does not begin with the line.
    Missing,
    /// What follows the line is no layout's packed form.
    Broken,
    /// A listing, which may have faults of its own.
    Made(Listing),
}

/// The answer to an input.
pub fn answer(input: &[u8]) -> Answer {
    let Some(file) = input.strip_prefix(LINE) else {
        return Answer::Missing;
    };
    match packed::sheet(file) {
        Ok(sheet) => of_sheet(&sheet),
        Err(_) => Answer::Broken,
    }
}

/// The answer to a layout.
pub fn of_sheet(sheet: &Sheet) -> Answer {
    let [first, second] = paths(sheet);
    let listed = Listed::Mutual(first.path(), second.path());
    Answer::Made(Listing::new(listed, EPSILON))
}

/// The input that has this layout.
pub fn input(sheet: &Sheet) -> Vec<u8> {
    behind_line(&packed::packed(sheet))
}

pub fn behind_line(file: &[u8]) -> Vec<u8> {
    [LINE, file].concat()
}

impl Answer {
    /// The refusal's number, if the answer is one.
    pub fn refused(&self) -> Option<u64> {
        match self {
            Answer::Missing => Some(MISSING),
            Answer::Broken => Some(BROKEN),
            Answer::Made(listing) => listing.fault(MOST_ROWS).map(|fault| fault.number),
        }
    }

    /// The rows of a layout, also of one with too many.
    pub fn rows(&self) -> &[Row] {
        match self {
            Answer::Missing | Answer::Broken => &[],
            Answer::Made(listing) => &listing.rows.rows,
        }
    }

    /// The whole output.
    pub fn printed(&self) -> String {
        match (self.refused(), self) {
            (None, Answer::Made(listing)) => lines(&listing.rows),
            (number, _) => format!("refused {}\n", number.expect("refused")),
        }
    }
}

/// The count line, and a line for each row.
fn lines(Rows { rows, pairs }: &Rows) -> String {
    let lines: String = rows.iter().map(line).collect();
    format!("pairs {pairs} rows {}\n{lines}", rows.len())
}

/// Only the points that a class has.
fn line(row: &Row) -> String {
    let [i, j] = row.indices;
    let class = CLASSES[row.class as usize];
    format!("{i} {j} {class} {}\n", hex(&row.points[..row.given]))
}

/// The two paths of a layout, both open. It has no traces: they are 0.
pub fn paths(sheet: &Sheet) -> [Drawn; 2] {
    let numbers = |[x, y, bulge]: &[i64; 3]| [*x as f64, *y as f64, *bulge as f64 / 65_536.0];
    let drawn = |path: &Vec<[i64; 3]>| Drawn::of(path.iter().map(numbers), false);
    sheet.paths.each_ref().map(drawn)
}
