//! The forms of a listing, each judged with slices of chosen lengths: full, boxed and counted, and the same with large arcs.

use super::lines::{Side, RULE};
use super::Ours;
use crate::boxed::ask::Asked as AskedBoxed;
use crate::boxed::index::{meet, Boxes};
use crate::boxed::lent::Lent as LentBoxed;
use crate::large::ask::{room_of, Asked as AskedLarge, Kind};
use crate::large::lent::Lent as LentLarge;
use crate::large::model::Large;
use crate::listings::layout::{Call, Layout};
use crate::listings::lent::{Expected, Lent, LentPath, Old, Room};
use crate::listings::model::{no_row_left, Listed, Listing, Row, Rows};
use crate::month::lent::LentReport;
use crate::month::model::{Report, WORDS};

#[derive(Clone, Copy, Debug, PartialEq)]
pub enum Form {
    Full,
    Boxed,
    Counted,
    /// With large arcs: full, boxed or counted.
    Large(Kind),
}

pub const FORMS: [Form; 6] = [
    Form::Full,
    Form::Boxed,
    Form::Counted,
    Form::Large(Kind::Full),
    Form::Large(Kind::Boxed),
    Form::Large(Kind::Counted),
];

impl Form {
    /// Counted listings are of two paths.
    pub fn has(self, call: Call) -> bool {
        let counted = matches!(self, Form::Counted | Form::Large(Kind::Counted));
        !(counted && call == Call::Own)
    }

    pub fn is_large(self) -> bool {
        matches!(self, Form::Large(_))
    }
}

/// A layout with what each form of its listing has, worked out once for any number of calls. With a bulge beyond 1 only the
/// forms with large arcs are there.
pub struct Known<'a> {
    layout: &'a Layout,
    call: Call,
    listing: Option<Plain>,
    large: Option<Large>,
}

/// The forms without large arcs: the rows, those of them whose boxes meet, how many pairs have such boxes, and the index.
pub struct Plain {
    pub rows: Rows,
    pub boxed: Vec<Row>,
    pub looked_at: u64,
    pub index: Vec<f64>,
}

impl<'a> Known<'a> {
    /// For the forms without large arcs, or for those with them, or for both.
    pub fn new(layout: &'a Layout, call: Call, plain: bool, large: bool) -> Known<'a> {
        let listed = layout.listed(call);
        Known {
            layout,
            call,
            listing: plain.then(|| Plain::of(listed, layout.epsilon)),
            large: large.then(|| Large::new(listed, layout.epsilon)),
        }
    }

    fn plain(&self) -> &Plain {
        self.listing.as_ref().expect("it was asked for")
    }

    fn large(&self) -> &Large {
        self.large.as_ref().expect("it was asked for")
    }

    pub fn rows(&self, form: Form) -> usize {
        match form {
            Form::Full | Form::Counted => self.plain().rows.rows.len(),
            Form::Boxed => self.plain().boxed.len(),
            Form::Large(kind) => self.large().rows_of(kind),
        }
    }

    /// How many pairs are looked at, if all rows fit.
    pub fn pairs(&self, form: Form) -> u64 {
        match form {
            Form::Full | Form::Counted => self.plain().rows.pairs,
            Form::Boxed => self.plain().looked_at,
            Form::Large(Kind::Boxed) => self.large().boxed_pairs,
            Form::Large(_) => self.large().found.pairs,
        }
    }

    /// How many segments the first path has and the second: with large arcs those of the cut paths.
    pub fn sizes(&self, form: Form) -> [usize; 2] {
        if form.is_large() {
            return [0, 1].map(|at: usize| self.large().cuts[at].names.len());
        }
        let paths = self.layout.listed(self.call).paths();
        [paths[0], paths[paths.len() - 1]].map(|path| path.segments())
    }

    /// Whether the sieve judges some segment of the first path.
    pub fn is_judged(&self) -> bool {
        let epsilon = self.layout.epsilon;
        let sides = Side::all(self.layout.first.path());
        sides.iter().any(|side| RULE.judges(side, 0, epsilon))
    }

    /// Whether an arc is cut.
    pub fn is_cut(&self, form: Form) -> bool {
        form.is_large() && self.large().cuts.iter().any(|cut| cut.is_cut())
    }

    /// The indices of the first row and of the last: with large arcs those of the cut paths.
    pub fn ends(&self, form: Form) -> Option<[[u64; 2]; 2]> {
        let all: Vec<&Row> = match form {
            Form::Full | Form::Counted => self.plain().rows.rows.iter().collect(),
            Form::Boxed => self.plain().boxed.iter().collect(),
            Form::Large(Kind::Boxed) => {
                let large = self.large();
                let row = |at: &usize| &large.found.rows[*at];
                large.boxed_rows.iter().map(row).collect()
            }
            Form::Large(_) => self.large().found.rows.iter().collect(),
        };
        Some([all.first()?.indices, all.last()?.indices])
    }

    /// Makes the call with room for so many rows, and says what is not as expected, if anything.
    pub fn wrong(&self, ours: &Ours, form: Form, room: usize, old: Old) -> Option<String> {
        let (first, second) = (
            LentPath::new(&self.layout.first),
            LentPath::new(&self.layout.second),
        );
        let listed = self.call.of(first.path(), second.path());
        let wrong = match form {
            Form::Large(kind) => self.wrong_large(ours, kind, listed, room, old),
            _ => self.wrong_plain(ours, form, listed, room, old),
        };
        wrong.or_else(|| {
            let unchanged = first.is(&self.layout.first) && second.is(&self.layout.second);
            (!unchanged).then(|| "a path was written to".to_string())
        })
    }

    fn wrong_plain(
        &self,
        ours: &Ours,
        form: Form,
        listed: Listed,
        room: usize,
        old: Old,
    ) -> Option<String> {
        let (plain, epsilon) = (self.plain(), self.layout.epsilon);
        let (rows, pairs) = match form {
            Form::Boxed => (&plain.boxed, plain.looked_at),
            _ => (&plain.rows.rows, plain.rows.pairs),
        };
        let expected = match room < rows.len() {
            true => Expected::Refused(no_row_left()),
            false => Expected::Answered {
                rows,
                counts: vec![rows.len() as u64, pairs],
            },
        };
        let answered = matches!(expected, Expected::Answered { .. });
        match form {
            Form::Boxed => {
                let asked = AskedBoxed {
                    boxes: plain.index.len(),
                    room: Room::of(room),
                    old,
                };
                let mut lent = LentBoxed::new(&asked);
                let (boxes, slices) = lent.slices();
                let answer = (ours.boxed)(listed, epsilon, boxes, slices);
                let index: &[f64] = if answered { &plain.index } else { &[] };
                lent.wrong(answer, &expected, index)
            }
            Form::Counted => {
                let mut lent = Lent::new(Room::of(room), old);
                let before = Report::FRESH;
                let mut report = LentReport::new(&before, WORDS, old);
                let answer = (ours.counted)(listed, epsilon, lent.slices(), report.slice());
                let after = match answered {
                    true => before.accepted(&plain.rows),
                    false => before.refused(no_row_left().number),
                };
                let wrong = lent.wrong(answer, &expected);
                wrong.or_else(|| report.wrong("report", &after))
            }
            _ => {
                let mut lent = Lent::new(Room::of(room), old);
                let answer = (ours.full)(listed, epsilon, lent.slices());
                lent.wrong(answer, &expected)
            }
        }
    }

    fn wrong_large(
        &self,
        ours: &Ours,
        kind: Kind,
        listed: Listed,
        room: usize,
        old: Old,
    ) -> Option<String> {
        let large = self.large();
        let asked = AskedLarge {
            room: room_of(room, kind),
            old,
            ..AskedLarge::exact(kind, large)
        };
        let mut lent = LentLarge::new(&asked);
        let epsilon = self.layout.epsilon;
        let answer = ours.large.asked(listed, epsilon, &asked, &mut lent);
        lent.wrong(answer, large, &large.expected(&asked))
    }
}

impl Plain {
    pub fn of(listed: Listed, epsilon: f64) -> Plain {
        let Listing { faults, rows } = Listing::new(listed, epsilon);
        assert!(faults.is_empty(), "a layout without a fault");
        let paths = listed.paths();
        let own = paths.len() == 1;
        let last = paths.len() - 1;
        let boxes = [paths[0], paths[last]].map(|path| Boxes::of(path, epsilon));
        let [first, second] = &boxes;
        let parts = &boxes[..paths.len()];
        let index = parts.iter().flat_map(|part| part.floats()).collect();
        let near = |i: usize, j: usize| meet(&first.segments[i], &second.segments[j]);
        let mut looked_at = 0;
        for i in 0..first.segments.len() {
            let from = if own { i + 1 } else { 0 };
            for j in from..second.segments.len() {
                looked_at += u64::from(near(i, j) && !listed.passes_over([i, j]));
            }
        }
        let is_near = |row: &&Row| near(row.indices[0] as usize, row.indices[1] as usize);
        let boxed = rows.rows.iter().filter(is_near).cloned().collect();
        Plain {
            rows,
            boxed,
            looked_at,
            index,
        }
    }
}
