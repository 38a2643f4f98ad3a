//! The two modes of the library beside each other: the listings of the other mode on the cut paths, or on the paths as they are
//! if none is cut, must have the same rows with the cut indices, the same points, counts, boxes and reports, bit for bit but for
//! NaNs.

use super::ask::{Asked, Kind, KINDS};
use super::cut::Cut;
use super::lent::Lent;
use super::model::{on, WORDS};
use super::score::Known;
use super::Ours;
use crate::capi::Rows;
use crate::listings::layout::{self, Call};
use crate::listings::model::{Listed, MOST_VERTICES};
use crate::{boxed, month, pages};

/// What was compared.
#[derive(Default)]
pub struct Beside {
    /// Calls of which some path was cut, and of which none was.
    cut: u64,
    uncut: u64,
    rows: u64,
    /// Of layouts with a cut path that is too long for the other mode.
    too_long: u64,
    pub differences: u64,
}

/// A call's slices after it.
#[derive(PartialEq)]
struct Left {
    word: u64,
    /// Rows of three words: indices of the cut paths and class.
    rows: Vec<[u64; 3]>,
    points: Vec<u64>,
    counts: Vec<u64>,
    boxes: Vec<u64>,
    report: Vec<u64>,
}

impl Beside {
    /// Makes a call of each kind in both modes, with exactly the room that it needs; of a page, half of the pairs from a third of
    /// them on.
    pub fn compare(&mut self, ours: Ours, known: &Known) {
        let large = &known.large;
        if !large.faults.is_empty() {
            return;
        }
        let own = known.call == Call::Own;
        let most = |cut: &Cut| cut.path().vertices() <= MOST_VERTICES;
        if !large.cuts.iter().all(most) {
            self.too_long += 1;
            return;
        }
        let is_cut = large.cuts.iter().any(Cut::is_cut);
        for kind in KINDS {
            if own && kind == Kind::Counted {
                continue;
            }
            let mut asked = Asked::exact(kind, large);
            if kind == Kind::Page {
                asked.span.position = large.all / 3;
                asked.span.budget = large.all / 2 + 1;
            }
            let new = new_mode(ours, known, &asked);
            let cut = on(&large.cuts, own);
            // if no path is cut, with the last bulge as it is, unless the other mode would refuse it
            let plain = known.listed();
            let is_plain = !is_cut && plain.faults(known.layout.epsilon).next().is_none();
            let old = old_mode(
                if is_plain { plain } else { cut },
                known.layout.epsilon,
                &asked,
            );
            let rows = new.as_ref().map_or(0, |left| left.rows.len());
            self.rows += rows as u64;
            *(if is_cut {
                &mut self.cut
            } else {
                &mut self.uncut
            }) += 1;
            if new != Some(old) {
                self.differences += 1;
                if self.differences <= 5 {
                    println!(
                        "large, {:?} {kind:?}: the two modes differ on {:?}",
                        known.call, known.layout
                    );
                }
            }
        }
    }

    pub fn report(&self) -> u64 {
        println!(
            "large: beside the other mode, {} calls on cut paths and {} on paths without a large arc, {} rows, {} cut paths \
             too long for it, {} differences",
            self.cut, self.uncut, self.rows, self.too_long, self.differences
        );
        self.differences + u64::from(self.cut == 0) + u64::from(self.uncut == 0)
    }
}

fn bits(numbers: &[f64]) -> Vec<u64> {
    let one = |x: &f64| if x.is_nan() { u64::MAX } else { x.to_bits() };
    numbers.iter().map(one).collect()
}

/// What the call in this mode leaves, with cut indices; none if a row names a segment that is not there.
fn new_mode(ours: Ours, known: &Known, asked: &Asked) -> Option<Left> {
    let mut lent = Lent::new(asked);
    let word = ours.asked(known.listed(), known.layout.epsilon, asked, &mut lent);
    let (rows, boxes, report) = lent.slices();
    let count = rows.counts[0] as usize;
    let at = |side: usize, row: &[u64]| {
        let name = (row[2 * side], row[2 * side + 1]);
        let names = &known.large.cuts[side].names;
        names.binary_search(&name).ok().map(|at| at as u64)
    };
    let each = rows.indices.chunks_exact(WORDS).take(count);
    let renamed: Option<Vec<[u64; 3]>> = each
        .map(|row| Some([at(0, row)?, at(1, row)?, row[4]]))
        .collect();
    Some(Left {
        word,
        rows: renamed?,
        points: bits(&rows.points[..(4 * count).min(rows.points.len())]),
        counts: rows.counts.to_vec(),
        boxes: bits(boxes),
        report: report.to_vec(),
    })
}

/// What the call in the other mode leaves.
fn old_mode(listed: Listed, epsilon: f64, asked: &Asked) -> Left {
    let most = asked.room.points / 4;
    let (mut indices, mut points) = (vec![0; 3 * most], vec![0.0; 4 * most]);
    let mut counts = vec![0; asked.kind.counts()];
    let boxes = if asked.kind == Kind::Boxed {
        asked.boxes
    } else {
        0
    };
    let mut boxes = vec![0.0; boxes];
    let mut report = match asked.kind {
        Kind::Counted => asked.report.0.to_vec(),
        _ => Vec::new(),
    };
    let rows = Rows {
        indices: &mut indices,
        points: &mut points,
        counts: &mut counts,
    };
    let word = match asked.kind {
        Kind::Full => layout::ours(listed, epsilon, rows),
        Kind::Page => pages::ours(listed, epsilon, asked.span, rows),
        Kind::Boxed => boxed::ours(listed, epsilon, &mut boxes, rows),
        Kind::Counted => month::ours(listed, epsilon, rows, &mut report),
    };
    let count = counts[0] as usize;
    let each = indices.chunks_exact(3).take(count);
    Left {
        word,
        rows: each.map(|row| [row[0], row[1], row[2]]).collect(),
        points: bits(&points[..4 * count]),
        counts,
        boxes: bits(&boxes),
        report,
    }
}
