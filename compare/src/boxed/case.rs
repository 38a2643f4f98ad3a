//! A call as kinds of call see it.

use super::ask::{Asked, COUNTS};
use super::model::Boxed;
use super::seen::Seen;
use crate::listings::model::Path;
use crate::listings::traces::Passed;

/// A call as it was made. A plain copy of what is needed, so that a kind's test borrows nothing.
pub struct Case {
    /// Segments of each path, and whether it is closed.
    pub paths: Vec<(usize, bool)>,
    pub asked: Asked,
    /// Floats of the first path's index, and of all.
    pub first_floats: usize,
    pub floats: usize,
    /// The number of the first fault of the checks of numbers.
    pub fault: Option<u64>,
    /// The number of the refusal that is answered, if the counts have room.
    pub refusal: Option<u64>,
    pub rows: usize,
    pub full_rows: usize,
    pub pairs: u64,
    pub looked_at: u64,
    pub seen: Seen,
    pub passed: Passed,
}

impl Case {
    pub fn new(paths: &[Path], boxed: &Boxed, asked: &Asked) -> Case {
        let refusal = boxed.fault(asked.boxes, asked.rows());
        let form = |path: &Path| (path.segments(), path.closed);
        Case {
            paths: paths.iter().map(form).collect(),
            asked: *asked,
            first_floats: boxed.first_floats,
            floats: boxed.floats,
            fault: boxed.faults.first().map(|fault| fault.number),
            refusal: refusal.map(|fault| fault.number),
            rows: boxed.rows.len(),
            full_rows: boxed.full_rows,
            pairs: boxed.all_pairs,
            looked_at: boxed.looked_at,
            seen: boxed.seen,
            passed: boxed.passed,
        }
    }

    pub fn counts_fit(&self) -> bool {
        self.asked.room.counts >= COUNTS
    }

    pub fn is_answered(&self) -> bool {
        self.counts_fit() && self.refusal.is_none()
    }

    pub fn is_refused(&self, number: u64) -> bool {
        self.counts_fit() && self.refusal == Some(number)
    }

    /// How many floats there are beyond what the index needs.
    pub fn beyond(&self) -> isize {
        self.asked.boxes as isize - self.floats as isize
    }

    /// Whether the index does not fit, and whether the rows do not. Of paths with a fault no one knows the rows.
    pub fn wrongs(&self) -> [bool; 2] {
        let rows = self.asked.rows();
        let no_rows = if self.fault.is_some() {
            rows == 0
        } else {
            rows < self.rows
        };
        [self.beyond() < 0, no_rows]
    }
}
