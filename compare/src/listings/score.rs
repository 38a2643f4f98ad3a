//! Compares one call after the other with the model, and counts what came up: rows by class, refusals by number and place, kinds
//! of input, and differences.

use super::kinds::{Case, Kinds};
use super::layout::{Call, Layout};
use super::lent::{Expected, Lent, LentPath, Old, Room};
use super::model::{row_room, Listing};
use super::orders::Orders;
use super::sites::{Short, Sites};
use super::traces::{would_row, Passed};
use super::Ours;
use crate::crossing::faults::Fault;

const SHOWN: u64 = 5;
pub const CLASSES: [&str; 6] = ["none", "tangent", "one", "two", "lines", "arcs"];

pub struct Score {
    call: Call,
    ours: Ours,
    answered: u64,
    pub pairs: u64,
    /// Pairs that were passed over.
    over: u64,
    classes: [u64; 6],
    refusals: [u64; 16],
    no_room: u64,
    sites: Sites,
    orders: Orders,
    kinds: Kinds,
    pub differences: u64,
}

/// A layout with the model's listing of it, computed once for any number of calls.
pub struct Known<'a> {
    layout: &'a Layout,
    call: Call,
    listing: Listing,
    passed: Passed,
}

impl<'a> Known<'a> {
    pub fn new(layout: &'a Layout, call: Call) -> Known<'a> {
        let (listed, epsilon) = (layout.listed(call), layout.epsilon);
        let listing = Listing::new(listed, epsilon);
        let passed = if listing.faults.is_empty() {
            Passed::of(listed, &would_row(listed, epsilon, &listing.rows.rows))
        } else {
            Passed::default()
        };
        Known {
            layout,
            call,
            listing,
            passed,
        }
    }

    /// The same without what traces do in it, which takes about as long as the listing: for calls that are not counted here.
    pub fn plain(layout: &'a Layout, call: Call) -> Known<'a> {
        Known {
            layout,
            call,
            listing: Listing::new(layout.listed(call), layout.epsilon),
            passed: Passed::default(),
        }
    }

    /// The model's listing.
    pub fn listing(&self) -> &Listing {
        &self.listing
    }

    /// How many rows it has; none if it is refused.
    pub fn rows(&self) -> usize {
        self.listing.rows.rows.len()
    }

    /// How many pairs are looked at; none if it is refused.
    pub fn pairs(&self) -> u64 {
        self.listing.rows.pairs
    }

    /// The fault that decides with this room, if the counts have room, and what the call should do.
    fn expected(&self, room: Room) -> (Option<Fault>, Expected<'_>) {
        let fault = self.listing.fault(row_room(room.indices, room.points));
        let expected = match fault {
            _ if room.counts < 2 => Expected::NoRoom,
            Some(fault) => Expected::Refused(fault),
            None => Expected::Answered {
                rows: &self.listing.rows.rows,
                counts: vec![self.rows() as u64, self.pairs()],
            },
        };
        (fault, expected)
    }

    /// Makes the call with slices of these lengths and these old contents, and says what is not as expected, if anything.
    pub fn wrong(&self, ours: Ours, room: Room, old: Old) -> Option<String> {
        let layout = self.layout;
        let (first, second) = (LentPath::new(&layout.first), LentPath::new(&layout.second));
        let listed = self.call.of(first.path(), second.path());
        let mut lent = Lent::new(room, old);
        let answer = ours(listed, layout.epsilon, lent.slices());
        lent.wrong(answer, &self.expected(room).1).or_else(|| {
            let unchanged = first.is(&layout.first) && second.is(&layout.second);
            (!unchanged).then(|| "a path was written to".to_string())
        })
    }
}

impl Score {
    pub fn new(call: Call, ours: Ours, full: bool) -> Score {
        Score {
            call,
            ours,
            answered: 0,
            pairs: 0,
            over: 0,
            classes: [0; 6],
            refusals: [0; 16],
            no_room: 0,
            sites: Sites::of_listings(call),
            orders: Orders::of(call),
            kinds: Kinds::of(call, full),
            differences: 0,
        }
    }

    /// Makes the call with slices of these lengths and these old contents.
    pub fn compare(&mut self, known: &Known, room: Room, old: Old) {
        if let Some(what) = known.wrong(self.ours, room, old) {
            self.differ(known, room, &what);
        }
        let (fault, expected) = known.expected(room);
        self.count(&expected, &known.passed);
        let case = Case {
            paths: &known.layout.listed(known.call).paths(),
            faults: &known.listing.faults,
            fault,
            rows: known.rows(),
            passed: known.passed,
            room,
            old,
        };
        if let Expected::Refused(fault) = expected {
            let short = Short::of(room, case.rows);
            let epsilon = known.layout.epsilon;
            self.sites.count(case.paths, epsilon, fault, short);
            self.orders.count(&known.listing.faults);
        }
        self.kinds.count(&case);
    }

    fn count(&mut self, expected: &Expected, passed: &Passed) {
        match expected {
            Expected::NoRoom => self.no_room += 1,
            Expected::Refused(fault) => self.refusals[fault.number as usize] += 1,
            Expected::Answered { rows, counts } => {
                self.answered += 1;
                self.pairs += counts[1];
                self.over += passed.over;
                for row in *rows {
                    self.classes[row.class as usize] += 1;
                }
            }
        }
    }

    fn differ(&mut self, known: &Known, room: Room, what: &str) {
        const NUMBERS: usize = 24;
        self.differences += 1;
        if self.differences > SHOWN {
            return;
        }
        println!("{}: {what}", self.name());
        println!("  {room:?}, epsilon {:e}", known.layout.epsilon);
        for path in known.layout.listed(known.call).paths() {
            let front = &path.numbers[..path.numbers.len().min(NUMBERS)];
            let (length, closed) = (path.numbers.len(), path.closed);
            println!("  a path of {length} numbers, closed {closed}: {front:?}");
        }
    }

    fn name(&self) -> &'static str {
        match self.call {
            Call::Mutual => "mutual listing",
            Call::Twice => "mutual listing, one path lent twice",
            Call::Own => "self listing",
        }
    }

    /// Prints the counts, and answers how many differences there were; a kind of input that never occurred counts as one.
    pub fn report(&self) -> u64 {
        let rows = CLASSES.iter().zip(&self.classes).skip(1);
        let rows: Vec<String> = rows
            .map(|(name, count)| format!("{name} {count}"))
            .collect();
        let refusals: Vec<String> = (1..)
            .zip(&self.refusals[1..])
            .filter(|(_, count)| **count > 0)
            .map(|(number, count)| format!("{count} by {number}"))
            .collect();
        let name = self.name();
        println!(
            "{name}: {} answered, {} pairs, {} passed over, rows {}, refused {}, {} without room, {} differences",
            self.answered,
            self.pairs,
            self.over,
            rows.join(", "),
            refusals.join(", "),
            self.no_room,
            self.differences
        );
        let unmet = CLASSES.iter().zip(&self.classes).skip(1);
        let unmet = unmet.filter(|(_, count)| **count == 0);
        let unmet: Vec<String> = unmet
            .map(|(class, _)| format!("rows of class {class}"))
            .chain(self.sites.report(name))
            .chain(self.orders.report(name))
            .chain(self.kinds.report(name))
            .collect();
        for what in &unmet {
            println!("{name}: NEVER MET: {what}");
        }
        self.differences + unmet.len() as u64
    }
}
