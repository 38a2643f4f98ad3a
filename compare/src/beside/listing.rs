//! Both listings of the same paths, and how they compare.

use super::file::Refused;
use super::words;
use crate::capi;
use crate::listings::layout::Drawn;
use crate::listings::lent::is_row;
use crate::listings::model::{Listed, Row, Rows};
use crate::listings::score::CLASSES;
use crate::listings::Ours;

/// So many differing rows of a layout are shown.
const SHOWN: usize = 3;
const NO_ROW_LEFT: u64 = 0x9_0108;

/// What came of a layout. A refusal that is expected is no difference.
#[derive(Debug, Default, PartialEq)]
pub struct Beside {
    /// What the Rust text looked at, and found; ours, if nothing differs.
    pub pairs: u64,
    pub rows: usize,
    pub equal: usize,
    pub different: usize,
    /// The number, the place and the reason.
    pub refused: Option<String>,
    /// What else is to be said, a text line each.
    pub notes: Vec<String>,
}

/// What our call answered.
struct Answered {
    word: u64,
    indices: Vec<u64>,
    points: Vec<f64>,
    counts: [u64; 2],
}

impl Answered {
    fn rows(&self) -> impl Iterator<Item = (&[u64], &[f64])> {
        let rows = self.counts[0] as usize;
        let (indices, points) = (self.indices.chunks_exact(3), self.points.chunks_exact(4));
        indices.zip(points).take(rows)
    }
}

/// Lists one path with itself, or two with one another.
pub fn listed(paths: &[Drawn], epsilon: f64, ours: Ours) -> Beside {
    let listed = of(paths);
    let fault = listed.faults(epsilon).next();
    let Some(fault) = fault else {
        let theirs = listed.rows(epsilon);
        let answered = ask(listed, epsilon, ours, theirs.rows.len(), theirs.pairs);
        return compare(&theirs, &answered, paths.len());
    };
    let expected = fault.word();
    let word = ask(listed, epsilon, ours, 0, 0).word;
    let mut beside = refused(words::refusal(expected, paths.len()), listed.rows(epsilon));
    if word != expected {
        let said = words::answer(word, paths.len());
        beside.differs(format!("ours: {said}; expected is the refusal above"));
    }
    beside
}

/// A file that is refused before anything is listed.
pub fn refused_file(file: Refused, epsilon: f64) -> Beside {
    let mut beside = match &file.paths {
        Some(paths) => refused(file.said, of(paths).rows(epsilon)),
        None => Beside {
            refused: Some(file.said),
            ..Beside::default()
        },
    };
    if let Some(wrong) = file.wrong {
        beside.differs(wrong);
    }
    beside
}

fn of(paths: &[Drawn]) -> Listed<'_> {
    match paths {
        [path] => Listed::Own(path.path()),
        [first, second] => Listed::Mutual(first.path(), second.path()),
        _ => unreachable!("a file holds one path or two"),
    }
}

/// A refusal, and what the Rust text answers without it.
fn refused(said: String, old: Rows) -> Beside {
    let (rows, pairs) = (old.rows.len(), old.pairs);
    let found = match rows {
        0 => "no crossing, ",
        _ => "",
    };
    let notes = vec![
        format!("the Rust text, which checks no number: {found}pairs {pairs} rows {rows}"),
        format!("ours: refused {said}"),
    ];
    Beside {
        refused: Some(said),
        notes,
        ..Beside::default()
    }
}

/// Asks with room for so many rows, and with more while that is too little.
fn ask(listed: Listed, epsilon: f64, ours: Ours, rows: usize, pairs: u64) -> Answered {
    let mut room = rows;
    loop {
        let mut answered = Answered {
            word: 0,
            indices: vec![0; 3 * room],
            points: vec![0.0; 4 * room],
            counts: [0; 2],
        };
        let lent = capi::Rows {
            indices: &mut answered.indices,
            points: &mut answered.points,
            counts: &mut answered.counts,
        };
        answered.word = ours(listed, epsilon, lent);
        if answered.word != NO_ROW_LEFT || room as u64 >= pairs {
            return answered;
        }
        room = (2 * room + 16).min(pairs as usize);
    }
}

fn compare(theirs: &Rows, answered: &Answered, paths: usize) -> Beside {
    let mut beside = Beside {
        pairs: theirs.pairs,
        rows: theirs.rows.len(),
        ..Beside::default()
    };
    if answered.word != 0 {
        let said = words::answer(answered.word, paths);
        beside.different = theirs.rows.len().max(1) - 1;
        beside.differs(format!("ours: {said}; the Rust text: rows {}", beside.rows));
        return beside;
    }
    if answered.counts[1] != theirs.pairs {
        let ours = answered.counts[1];
        beside.differs(format!(
            "ours looked at {ours} pairs, the Rust text at {}",
            theirs.pairs
        ));
    }
    let mut ours = answered.rows().peekable();
    for row in &theirs.rows {
        // rows that only ours has come before
        while let Some(only) = ours.next_if(|(indices, _)| indices[..2] < row.indices[..]) {
            beside.row_differs(Some(only), None);
        }
        match ours.next_if(|(indices, _)| indices[..2] == row.indices[..]) {
            Some((indices, points)) if is_row(row, indices, points) => beside.equal += 1,
            other => beside.row_differs(other, Some(row)),
        }
    }
    for only in ours {
        beside.row_differs(Some(only), None);
    }
    beside
}

impl Beside {
    fn differs(&mut self, note: String) {
        self.different += 1;
        self.notes.push(note);
    }

    fn row_differs(&mut self, ours: Option<(&[u64], &[f64])>, theirs: Option<&Row>) {
        self.different += 1;
        if self.notes.len() == SHOWN {
            self.notes.push("and more".to_string());
        }
        if self.notes.len() > SHOWN {
            return;
        }
        let of = |class: u64, points: &[f64]| {
            let class = CLASSES.get(class as usize).unwrap_or(&"no class");
            format!("{class} {points:?}")
        };
        let [i, j] = match (ours, theirs) {
            (_, Some(row)) => row.indices,
            (Some((indices, _)), None) => [indices[0], indices[1]],
            (None, None) => return,
        };
        let none = || "no row".to_string();
        let ours = ours.map_or_else(none, |(indices, points)| of(indices[2], points));
        let theirs = theirs.map_or_else(none, |row| of(row.class, &row.points));
        let note = format!("segments {i} and {j}: ours {ours}; the Rust text {theirs}");
        self.notes.push(note);
    }
}
