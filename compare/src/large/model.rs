//! The listings of the mode with large arcs: each path is cut, and the model of listings, over the Rust's pair function, lists
//! the cut paths. Rows are told by the old indices and the halves; positions, pairs and boxes are those of the cut paths.

use super::ask::{Asked, Kind};
use super::cut::{Cut, Half, Rule, RULE};
use super::faults;
use crate::boxed::index::{floats_needed, meet, Boxes};
use crate::boxed::model::no_index_fits;
use crate::crossing::faults::Fault;
use crate::crossing::NO_ROOM;
use crate::listings::model::{no_row_left, Listed, Path, Row, Rows};
use crate::month::model::{too_full, Report};
use crate::pages::model::{of_page, BEYOND, NO_BUDGET, NO_ROW_FITS};

/// How many words a row of indices has.
pub const WORDS: usize = 5;

/// How many whole rows both slices have room for.
pub fn row_room(indices: usize, points: usize) -> usize {
    (indices / WORDS).min(points / 4)
}

/// A listing for any room, in each of its forms.
#[derive(Default)]
pub struct Large {
    /// The first two faults of the checks of numbers. With such a fault the rest is empty.
    pub faults: Vec<Fault>,
    /// The cut paths, the second being the first again if there is one.
    pub cuts: [Cut; 2],
    /// Rows of the cut paths, with cut indices, and the position of each row's pair.
    pub found: Rows,
    pub positions: Vec<u64>,
    /// How many pairs there are, with those that are skipped for their trace.
    pub all: u64,
    /// The index of boxes, which rows have boxes that meet, and how many pairs are looked at by boxes.
    pub index: Vec<f64>,
    pub boxed_rows: Vec<usize>,
    pub boxed_pairs: u64,
    /// How many floats the first path's boxes have.
    pub first_floats: usize,
}

/// What a call should return and leave.
pub struct Expected {
    pub word: u64,
    pub fault: Option<Fault>,
    /// Which of the listing's rows.
    pub rows: Vec<usize>,
    pub counts: Vec<u64>,
    /// Whether the index of boxes is written.
    pub boxes: bool,
    pub report: Report,
}

impl Large {
    pub fn new(listed: Listed, epsilon: f64) -> Large {
        let faults = faults::of_listed(&RULE, listed, epsilon).take(2).collect();
        Large::by(&RULE, faults, listed, epsilon)
    }

    /// With these faults and this rule.
    pub fn by(rule: &Rule, faults: Vec<Fault>, listed: Listed, epsilon: f64) -> Large {
        if !faults.is_empty() {
            return Large {
                faults,
                ..Large::default()
            };
        }
        let paths = listed.paths();
        let cuts = [paths[0], paths[paths.len() - 1]].map(|path| Cut::by(rule, path));
        let own = paths.len() == 1;
        let found = on(&cuts, own).rows(epsilon);
        Large::of(cuts, own, found, epsilon)
    }

    /// Of these cut paths with these rows.
    pub fn of(cuts: [Cut; 2], own: bool, found: Rows, epsilon: f64) -> Large {
        let [s, m] = [0, 1].map(|at: usize| cuts[at].names.len() as u64);
        let position = |row: &Row| {
            let [i, j] = row.indices;
            if own {
                i * (2 * s - i - 1) / 2 + (j - i - 1)
            } else {
                i * m + j
            }
        };
        let positions = found.rows.iter().map(position).collect();
        let all = if own {
            s * s.saturating_sub(1) / 2
        } else {
            s * m
        };
        let mut large = Large {
            positions,
            all,
            found,
            first_floats: floats_needed(s as usize),
            ..Large::default()
        };
        large.by_boxes(&cuts, own, epsilon);
        large.cuts = cuts;
        large
    }

    fn by_boxes(&mut self, cuts: &[Cut; 2], own: bool, epsilon: f64) {
        let boxes = [0, 1].map(|at: usize| Boxes::of(cuts[at].path(), epsilon));
        let [first, second] = &boxes;
        for part in &boxes[..if own { 1 } else { 2 }] {
            self.index.extend(part.floats());
        }
        let near = |i: usize, j: usize| meet(&first.segments[i], &second.segments[j]);
        let traces = [0, 1].map(|at: usize| -> Vec<f64> {
            let path = cuts[at].path();
            (0..path.segments()).map(|i| path.trace(i)).collect()
        });
        for i in 0..first.segments.len() {
            let from = if own { i + 1 } else { 0 };
            for j in from..second.segments.len() {
                let of_one_trace = traces[0][i] > 0.0 && traces[0][i] == traces[1][j];
                self.boxed_pairs += u64::from(!of_one_trace && near(i, j));
            }
        }
        let rows = self.found.rows.iter().enumerate();
        let met = rows.filter(|(_, row)| near(row.indices[0] as usize, row.indices[1] as usize));
        self.boxed_rows = met.map(|(at, _)| at).collect();
    }

    pub fn rows(&self) -> usize {
        self.found.rows.len()
    }

    /// The five words of a row: each old index and its half, and the class.
    pub fn words(&self, row: usize) -> [u64; WORDS] {
        let [(i, half), (j, other)] = self.names(row);
        [i, half, j, other, self.found.rows[row].class]
    }

    pub fn names(&self, row: usize) -> [(u64, Half); 2] {
        let [i, j] = self.found.rows[row].indices;
        [
            self.cuts[0].names[i as usize],
            self.cuts[1].names[j as usize],
        ]
    }

    /// How many rows a call of this kind has, if nothing stops it.
    pub fn rows_of(&self, kind: Kind) -> usize {
        match kind {
            Kind::Boxed => self.boxed_rows.len(),
            _ => self.rows(),
        }
    }

    /// What a call should do.
    pub fn expected(&self, asked: &Asked) -> Expected {
        let room = row_room(asked.room.indices, asked.room.points);
        let nothing = |word: u64| Expected {
            word,
            fault: None,
            rows: Vec::new(),
            counts: Vec::new(),
            boxes: false,
            report: asked.report,
        };
        if !asked.has_room() {
            return nothing(NO_ROOM);
        }
        let fault = self.fault(asked, room);
        let Some(fault) = fault else {
            return self.answered(asked, room);
        };
        let counted = asked.kind == Kind::Counted && fault != too_full();
        let report = if counted {
            asked.report.refused(fault.number)
        } else {
            asked.report
        };
        Expected {
            fault: Some(fault),
            report,
            ..nothing(fault.word())
        }
    }

    fn fault(&self, asked: &Asked, room: usize) -> Option<Fault> {
        if asked.kind == Kind::Counted && asked.report.is_too_full() {
            return Some(too_full());
        }
        if let Some(fault) = self.faults.first() {
            return Some(*fault);
        }
        match asked.kind {
            Kind::Full | Kind::Counted if room < self.rows() => Some(no_row_left()),
            Kind::Page if asked.span.position > self.all => Some(of_page(BEYOND)),
            Kind::Page if asked.span.budget == 0 => Some(of_page(NO_BUDGET)),
            Kind::Page if room == 0 => Some(of_page(NO_ROW_FITS)),
            Kind::Boxed if asked.boxes < self.index.len() => Some(no_index_fits()),
            Kind::Boxed if room < self.boxed_rows.len() => Some(no_row_left()),
            _ => None,
        }
    }

    fn answered(&self, asked: &Asked, room: usize) -> Expected {
        let (rows, counts): (Vec<usize>, Vec<u64>) = match asked.kind {
            Kind::Full | Kind::Counted => {
                let counts = vec![self.rows() as u64, self.found.pairs];
                ((0..self.rows()).collect(), counts)
            }
            Kind::Boxed => {
                let counts = vec![self.boxed_rows.len() as u64, self.boxed_pairs];
                (self.boxed_rows.clone(), counts)
            }
            Kind::Page => {
                let from = asked.span.position;
                let first = self.positions.partition_point(|at| *at < from);
                let end = from.saturating_add(asked.span.budget).min(self.all);
                // the first row for which none is left, if it comes before the end
                let stop = self.positions.get(first.saturating_add(room));
                let next = stop.map_or(end, |at| end.min(*at));
                let last = self.positions.partition_point(|at| *at < next);
                let rows = first..last;
                let counts = vec![rows.len() as u64, next - from, next, self.all];
                (rows.collect(), counts)
            }
        };
        let report = match asked.kind {
            Kind::Counted => asked.report.accepted(&self.found),
            _ => asked.report,
        };
        Expected {
            word: 0,
            fault: None,
            rows,
            counts,
            boxes: asked.kind == Kind::Boxed,
            report,
        }
    }
}

/// What the model of listings lists: the cut paths.
pub fn on(cuts: &[Cut; 2], own: bool) -> Listed<'_> {
    let [first, second]: [Path; 2] = [cuts[0].path(), cuts[1].path()];
    if own {
        Listed::Own(first)
    } else {
        Listed::Mutual(first, second)
    }
}
