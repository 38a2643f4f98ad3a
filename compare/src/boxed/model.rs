//! A boxed listing as in the request's words, with plain loops: its index, which has all segments whatever their traces, the
//! pairs that it looks at, its rows, and what it refuses. The rows of the full listing, and the faults of paths and epsilon, are
//! those of the model of listings.

use super::index::{floats_needed, meet, Boxes};
use super::seen::Seen;
use crate::crossing::faults::{Fault, Item, Place};
use crate::listings::model::{no_row_left, Listed, Listing, Path, Row};
use crate::listings::traces::{would_row, Passed};
use crate::pages::model::in_order;

pub const NO_INDEX: u64 = 17;
pub const NO_ROWS: u64 = 8;

/// The fault of an index that does not fit, which has no owner.
pub fn no_index_fits() -> Fault {
    Fault::new(NO_INDEX, Place::alone(Item::Boxes))
}

/// A boxed listing for any room.
pub struct Boxed {
    /// The first two faults of the checks of numbers. With such a fault there is neither an index nor a row.
    pub faults: Vec<Fault>,
    /// How many floats the first path's part of the index has, and how many all of it has, by the paths' lengths.
    pub first_floats: usize,
    pub floats: usize,
    pub index: Vec<f64>,
    /// Rows of the pairs whose boxes meet.
    pub rows: Vec<Row>,
    /// How many rows the full listing has, and how many pairs there are, those of one trace among them.
    pub full_rows: usize,
    pub all_pairs: u64,
    /// How many of the pairs have boxes that meet and are not of one trace.
    pub looked_at: u64,
    pub seen: Seen,
    /// What traces do in the full listing.
    pub passed: Passed,
    /// Which pairs are of one trace: by the traces of the first path's segments and of the second's.
    traces: [Vec<f64>; 2],
    boxes: [Boxes; 2],
}

impl Boxed {
    pub fn new(listed: Listed, epsilon: f64) -> Boxed {
        let paths = listed.paths();
        let Listing { faults, rows: full } = Listing::new(listed, epsilon);
        let needed: Vec<usize> = paths
            .iter()
            .map(|path| floats_needed(path.segments()))
            .collect();
        let mut boxed = Boxed {
            faults,
            first_floats: needed[0],
            floats: needed.iter().sum(),
            index: Vec::new(),
            rows: Vec::new(),
            full_rows: full.rows.len(),
            all_pairs: 0,
            looked_at: 0,
            seen: Seen::default(),
            passed: Passed::default(),
            traces: Default::default(),
            boxes: Default::default(),
        };
        if boxed.faults.is_empty() {
            let last = paths.len() - 1;
            boxed.boxes = [paths[0], paths[last]].map(|path| Boxes::of(path, epsilon));
            for part in &boxed.boxes[..paths.len()] {
                boxed.index.extend(part.floats());
            }
            let of_segments = |path: Path| (0..path.segments()).map(|i| path.trace(i)).collect();
            boxed.traces = [paths[0], paths[last]].map(of_segments);
            boxed.seen = Seen::of(listed, epsilon, &boxed.boxes, &full.rows);
            boxed.passed = Passed::of(listed, &would_row(listed, epsilon, &full.rows));
            boxed.rows = full.rows;
            boxed.keep(listed);
        }
        boxed
    }

    /// Counts the pairs that are looked at, and keeps their rows.
    fn keep(&mut self, listed: Listed) {
        let (mut all, mut looked_at) = (0, 0);
        in_order(listed, |pair| {
            all += 1;
            looked_at += u64::from(self.looks_at(pair));
        });
        (self.all_pairs, self.looked_at) = (all, looked_at);
        let mut rows = std::mem::take(&mut self.rows);
        rows.retain(|row| self.looks_at(row.indices));
        self.rows = rows;
    }

    /// Whether the boxes of a pair meet, and it is not of one trace.
    pub fn looks_at(&self, pair: [u64; 2]) -> bool {
        let [a, b] = [0, 1].map(|at| self.traces[at][pair[at] as usize]);
        let of_one_trace = a > 0.0 && a == b;
        self.boxes_meet(pair) && !of_one_trace
    }

    /// Whether the boxes of a pair meet. Of one path both are its segments.
    pub fn boxes_meet(&self, [i, j]: [u64; 2]) -> bool {
        let [first, second] = &self.boxes;
        meet(&first.segments[i as usize], &second.segments[j as usize])
    }

    /// The fault that is answered if the index has room for so many floats, and so many whole rows fit.
    pub fn fault(&self, floats: usize, rows: usize) -> Option<Fault> {
        if let Some(fault) = self.faults.first() {
            Some(*fault)
        } else if floats < self.floats {
            Some(no_index_fits())
        } else if rows < self.rows.len() {
            Some(no_row_left())
        } else {
            None
        }
    }

    pub fn counts(&self) -> Vec<u64> {
        vec![self.rows.len() as u64, self.looked_at]
    }
}
