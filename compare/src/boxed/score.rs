//! Compares one call after the other with the model, and counts what came up: rows, refusals, kinds of call, and differences.

use super::ask::{Asked, COUNTS};
use super::case::Case;
use super::kinds::kinds;
use super::lent::Lent;
use super::model::Boxed;
use super::Ours;
use crate::listings::layout::{Call, Layout};
use crate::listings::lent::{self, Expected, LentPath, Old, Room};
use crate::listings::model::{Listed, Path};
use crate::listings::orders::Orders;
use crate::listings::score::CLASSES;
use crate::listings::sites::{Short, Sites};
use crate::met::Met;

const SHOWN: u64 = 5;

/// A layout with the model of its boxed listing, and its paths as they are lent, for any number of calls.
pub struct Known<'a> {
    layout: &'a Layout,
    pub call: Call,
    pub boxed: Boxed,
    lent: [LentPath; 2],
}

impl<'a> Known<'a> {
    pub fn new(layout: &'a Layout, call: Call) -> Known<'a> {
        Known {
            layout,
            call,
            boxed: Boxed::new(layout.listed(call), layout.epsilon),
            lent: [&layout.first, &layout.second].map(LentPath::new),
        }
    }

    fn listed(&self) -> Listed<'_> {
        self.call.of(self.lent[0].path(), self.lent[1].path())
    }

    fn epsilon(&self) -> f64 {
        self.layout.epsilon
    }

    fn paths(&self) -> Vec<Path<'_>> {
        self.listed().paths()
    }

    fn is_unchanged(&self) -> bool {
        self.lent[0].is(&self.layout.first) && self.lent[1].is(&self.layout.second)
    }
}

pub struct Score {
    call: Call,
    ours: Ours,
    answered: u64,
    /// Pairs of the full listings, how many of them have boxes that meet, and rows that are left out.
    all_pairs: u64,
    looked_at: u64,
    left_out: u64,
    classes: [u64; 6],
    refusals: [u64; 18],
    no_room: u64,
    sites: Sites,
    orders: Orders,
    kinds: Met<Case>,
    pub differences: u64,
}

impl Score {
    pub fn new(call: Call, ours: Ours, full: bool) -> Score {
        Score {
            call,
            ours,
            answered: 0,
            all_pairs: 0,
            looked_at: 0,
            left_out: 0,
            classes: [0; 6],
            refusals: [0; 18],
            no_room: 0,
            sites: Sites::of_boxed(call),
            orders: Orders::of(call),
            kinds: kinds(call, full),
            differences: 0,
        }
    }

    /// Makes the call.
    pub fn compare(&mut self, known: &Known, asked: &Asked) {
        let boxed = &known.boxed;
        let mut lent = Lent::new(asked);
        let (boxes, rows) = lent.slices();
        let answer = (self.ours.boxed)(known.listed(), known.epsilon(), boxes, rows);
        let expected = match boxed.fault(asked.boxes, asked.rows()) {
            _ if asked.room.counts < COUNTS => Expected::NoRoom,
            Some(fault) => Expected::Refused(fault),
            None => Expected::Answered {
                rows: &boxed.rows,
                counts: boxed.counts(),
            },
        };
        let index = match expected {
            Expected::Answered { .. } => &boxed.index[..],
            _ => &[],
        };
        if let Some(what) = lent.wrong(answer, &expected, index) {
            self.differ(known, &format!("{what}, {asked:?}"));
        }
        self.count(&expected, boxed);
        if let Expected::Refused(fault) = expected {
            let (paths, short) = (known.paths(), Short::of(asked.room, boxed.rows.len()));
            self.sites.count(&paths, known.epsilon(), fault, short);
            self.orders.count(&boxed.faults);
        }
        let case = Case::new(&known.paths(), boxed, asked);
        self.kinds.count(&case);
    }

    fn count(&mut self, expected: &Expected, boxed: &Boxed) {
        match expected {
            Expected::NoRoom => self.no_room += 1,
            Expected::Refused(fault) => self.refusals[fault.number as usize] += 1,
            Expected::Answered { rows, .. } => {
                self.answered += 1;
                self.all_pairs += boxed.all_pairs;
                self.looked_at += boxed.looked_at;
                self.left_out += (boxed.full_rows - rows.len()) as u64;
                for row in *rows {
                    self.classes[row.class as usize] += 1;
                }
            }
        }
    }

    /// Makes the call, and the full one: of the full one's rows, those of the pairs whose boxes meet must be the boxed one's, bit
    /// for bit. Only the bits of a NaN are left open. The paths have no fault.
    pub fn beside_full(&mut self, known: &Known) {
        let boxed = &known.boxed;
        let (listed, epsilon) = (known.listed(), known.epsilon());
        let mut lent = Lent::new(&Asked::exact(boxed, Old::Nans));
        let (boxes, rows) = lent.slices();
        let answer = (self.ours.boxed)(listed, epsilon, boxes, rows);
        let mut full = lent::Lent::new(Room::of(boxed.full_rows), Old::Nans);
        let full_answer = (self.ours.full)(listed, epsilon, full.slices());
        let (ours, full) = (lent.rows.slices(), full.slices());
        let looked_at = boxed.passed.all - boxed.passed.over;
        let full_counts = [boxed.full_rows as u64, looked_at];
        if answer != 0 || full_answer != 0 || *full.counts != full_counts {
            return self.differ(known, "the full listing, or the boxed one, is not answered");
        }
        let full = full.indices.chunks(3).zip(full.points.chunks(4));
        let mut kept = full.filter(|(row, _)| boxed.looks_at([row[0], row[1]]));
        let mut ours = ours.indices.chunks(3).zip(ours.points.chunks(4));
        let is = |(a, b): (&f64, &f64)| a.to_bits() == b.to_bits() || a.is_nan() && b.is_nan();
        let same = loop {
            match (kept.next(), ours.next()) {
                (None, None) => break true,
                (Some((row, points)), Some((row_too, points_too)))
                    if row == row_too && points.iter().zip(points_too).all(is) => {}
                _ => break false,
            }
        };
        if !same {
            self.differ(known, "the rows are not the full call's");
        }
    }

    /// To be called after the last call on these paths.
    pub fn done_with(&mut self, known: &Known) {
        if !known.is_unchanged() {
            self.differ(known, "a path was written to");
        }
    }

    fn differ(&mut self, known: &Known, what: &str) {
        const NUMBERS: usize = 24;
        self.differences += 1;
        if self.differences > SHOWN {
            return;
        }
        println!("{}: {what}", self.name());
        let Boxed {
            floats, all_pairs, ..
        } = known.boxed;
        println!(
            "  epsilon {:e}, {all_pairs} pairs, {floats} floats",
            known.epsilon()
        );
        for path in known.paths() {
            let front = &path.numbers[..path.numbers.len().min(NUMBERS)];
            let (length, closed) = (path.numbers.len(), path.closed);
            println!("  a path of {length} numbers, closed {closed}: {front:?}");
        }
    }

    fn name(&self) -> &'static str {
        match self.call {
            Call::Mutual => "mutual boxed",
            Call::Twice => "mutual boxed, one path lent twice",
            Call::Own => "self boxed",
        }
    }

    /// Prints the counts, and answers how many differences there were; a kind that never occurred counts as one.
    pub fn report(&self) -> u64 {
        let name = self.name();
        let classes = CLASSES.iter().zip(&self.classes).skip(1);
        let rows: Vec<String> = classes
            .clone()
            .map(|(class, count)| format!("{class} {count}"))
            .collect();
        let refusals: Vec<String> = (0..)
            .zip(&self.refusals)
            .filter(|(_, count)| **count > 0)
            .map(|(number, count)| format!("{count} by {number}"))
            .collect();
        println!(
            "{name}: {} answered, {} of {} pairs looked at, rows {}, {} left out, refused {}, {} without room, {} differences",
            self.answered,
            self.looked_at,
            self.all_pairs,
            rows.join(", "),
            self.left_out,
            refusals.join(", "),
            self.no_room,
            self.differences
        );
        let unmet: Vec<String> = classes
            .filter(|(_, count)| **count == 0)
            .map(|(class, _)| format!("rows of class {class}"))
            .chain(self.sites.report(name))
            .chain(self.orders.report(name))
            .chain(self.kinds.report(name, "call"))
            .collect();
        for what in &unmet {
            println!("{name}: NEVER MET: {what}");
        }
        self.differences + unmet.len() as u64
    }
}
