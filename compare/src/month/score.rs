//! Compares one call after the other with the model, and counts what came up: rows, refusals, kinds of call, and differences.

use super::ask::{Asked, Joining};
use super::case::{Case, Join};
use super::kinds;
use super::lent::LentReport;
use super::model::{too_full, Outcome, Report, CLASSES};
use super::Ours;
use crate::crossing::faults::Fault;
use crate::crossing::NO_ROOM;
use crate::listings::layout::{Call, Layout};
use crate::listings::lent::{Expected, Lent, LentPath};
use crate::listings::model::{Listed, Listing, Path};
use crate::listings::orders::Orders;
use crate::listings::score::CLASSES as CLASS_NAMES;
use crate::listings::sites::{Short, Sites};
use crate::listings::traces::would_row;
use crate::met::Met;

const SHOWN: u64 = 5;
/// Of a listing of more pairs it is not worked out what those that are passed over would give.
const NOT_ASKED: u64 = 1 << 20;

/// A layout with the model's listing of it, and its paths as they are lent, for any number of calls.
pub struct Known<'a> {
    layout: &'a Layout,
    call: Call,
    listing: Listing,
    over: u64,
    rows_without: usize,
    lent: [LentPath; 2],
}

impl<'a> Known<'a> {
    pub fn new(layout: &'a Layout, call: Call) -> Known<'a> {
        let (listed, epsilon) = (layout.listed(call), layout.epsilon);
        let listing = Listing::new(listed, epsilon);
        let rows = &listing.rows;
        let segments = listed
            .paths()
            .into_iter()
            .map(|path| path.segments() as u64);
        let over = if listing.faults.is_empty() {
            segments.product::<u64>() - rows.pairs
        } else {
            0
        };
        let rows_without = if over > 0 && over + rows.pairs <= NOT_ASKED {
            would_row(listed, epsilon, &rows.rows).len()
        } else {
            rows.rows.len()
        };
        Known {
            layout,
            call,
            listing,
            over,
            rows_without,
            lent: [&layout.first, &layout.second].map(LentPath::new),
        }
    }

    /// How many rows it has; none if it is refused for another reason than room.
    pub fn rows(&self) -> usize {
        self.listing.rows.rows.len()
    }

    /// How many pairs are looked at, and how many passed over.
    pub fn pairs(&self) -> u64 {
        self.listing.rows.pairs + self.over
    }

    fn listed(&self) -> Listed<'_> {
        self.call.of(self.lent[0].path(), self.lent[1].path())
    }

    fn paths(&self) -> Vec<Path<'_>> {
        self.listed().paths()
    }

    fn is_unchanged(&self) -> bool {
        self.lent[0].is(&self.layout.first) && self.lent[1].is(&self.layout.second)
    }

    fn expected(&self, outcome: Outcome) -> Expected<'_> {
        match outcome {
            Outcome::NoRoom => Expected::NoRoom,
            Outcome::TooFull => Expected::Refused(too_full()),
            Outcome::Refused(fault) => Expected::Refused(fault),
            Outcome::Accepted => Expected::Answered {
                rows: &self.listing.rows.rows,
                counts: vec![self.rows() as u64, self.listing.rows.pairs],
            },
        }
    }

    fn case(&self, asked: &Asked, outcome: Outcome) -> Case {
        let paths = self.paths();
        let only_this = Report::FRESH.accepted(&self.listing.rows);
        Case {
            call: self.call,
            asked: *asked,
            outcome,
            fault: self.listing.fault(asked.rows()).map(|fault| fault.number),
            vertices: [0, 1].map(|path: usize| paths[path].vertices()),
            pairs: self.listing.rows.pairs,
            over: self.over,
            rows: self.rows(),
            rows_without: self.rows_without,
            classes: std::array::from_fn(|class| only_this.0[CLASSES + class]),
        }
    }
}

pub struct Score {
    ours: Ours,
    accepted: u64,
    pairs: u64,
    over: u64,
    classes: [u64; 6],
    refusals: [u64; 20],
    no_room: u64,
    /// Joins: done, refused, without room.
    joins: [u64; 3],
    sites: Sites,
    orders: Orders,
    calls: Met<Case>,
    of_joins: Met<Join>,
    pub differences: u64,
}

impl Score {
    pub fn new(ours: Ours, full: bool) -> Score {
        Score {
            ours,
            accepted: 0,
            pairs: 0,
            over: 0,
            classes: [0; 6],
            refusals: [0; 20],
            no_room: 0,
            joins: [0; 3],
            sites: Sites::of_listings(Call::Mutual),
            orders: Orders::of(Call::Mutual),
            calls: kinds::of_calls(full),
            of_joins: kinds::of_joins(),
            differences: 0,
        }
    }

    /// Makes the call. If it is no matter of the report or of room, the plain call must answer the same, and leave the same
    /// slices bit for bit. Answers the report after it, as it should be.
    pub fn compare(&mut self, known: &Known, asked: &Asked) -> Report {
        let (listed, epsilon) = (known.listed(), known.layout.epsilon);
        let outcome = Outcome::of(&known.listing, asked);
        let after = outcome.counted(asked.report, &known.listing.rows);
        let mut lent = Lent::new(asked.room, asked.old);
        let mut report = LentReport::new(&asked.report, asked.words, asked.old);
        let answer = (self.ours.counted)(listed, epsilon, lent.slices(), report.slice());
        let wrong = lent
            .wrong(answer, &known.expected(outcome))
            .or_else(|| report.wrong("report", &after))
            .or_else(|| (!known.is_unchanged()).then(|| "a path was written to".to_string()))
            .or_else(|| {
                let is_plain = matches!(outcome, Outcome::Accepted | Outcome::Refused(_));
                let mut plain = Lent::new(asked.room, asked.old);
                let same = !is_plain
                    || (self.ours.plain)(listed, epsilon, plain.slices()) == answer
                        && is_same(&mut lent, &mut plain);
                (!same).then(|| "the plain listing is another".to_string())
            });
        if let Some(what) = wrong {
            self.differ(known, &format!("{what}, {asked:?}"));
        }
        self.count(known, asked, outcome);
        after
    }

    fn count(&mut self, known: &Known, asked: &Asked, outcome: Outcome) {
        let case = known.case(asked, outcome);
        match outcome {
            Outcome::NoRoom => self.no_room += 1,
            Outcome::TooFull => self.refuse(too_full()),
            Outcome::Refused(fault) => {
                self.refuse(fault);
                if known.call == Call::Mutual {
                    let short = Short::of(asked.room, case.rows);
                    let epsilon = known.layout.epsilon;
                    self.sites.count(&known.paths(), epsilon, fault, short);
                    self.orders.count(&known.listing.faults);
                }
            }
            Outcome::Accepted => {
                self.accepted += 1;
                self.pairs += case.pairs;
                self.over += case.over;
                for (all, class) in self.classes.iter_mut().zip(case.classes) {
                    *all += class;
                }
            }
        }
        self.calls.count(&case);
    }

    fn refuse(&mut self, fault: Fault) {
        self.refusals[fault.number as usize] += 1;
    }

    /// Joins two reports. Answers the first one after it, as it should be.
    pub fn join(&mut self, asked: &Joining) -> Report {
        let Joining {
            into,
            other,
            words,
            old,
        } = *asked;
        let joined = into.joined(&other);
        let (expected, after) = match joined {
            _ if !asked.has_room() => (NO_ROOM, into),
            None => (too_full().word(), into),
            Some(sum) => (0, sum),
        };
        let mut lent = LentReport::new(&into, words[0], old);
        let lent_too = LentReport::new(&other, words[1], old);
        let answer = (self.ours.join)(lent.slice(), lent_too.shared());
        let returned = || format!("returned {answer:#x}, expected {expected:#x}");
        let wrong = (answer != expected)
            .then(returned)
            .or_else(|| lent.wrong("into", &after))
            .or_else(|| lent_too.wrong("other", &other));
        if let Some(what) = wrong {
            self.differences += 1;
            if self.differences <= SHOWN {
                println!("join: {what}, {asked:?}");
            }
        }
        let kind = match joined {
            _ if !asked.has_room() => 2,
            None => 1,
            Some(_) => 0,
        };
        self.joins[kind] += 1;
        self.of_joins.count(&Join {
            asked: *asked,
            joined: joined.is_some(),
        });
        after
    }

    fn differ(&mut self, known: &Known, what: &str) {
        const NUMBERS: usize = 24;
        self.differences += 1;
        if self.differences > SHOWN {
            return;
        }
        println!("counted listing: {what}");
        println!("  {:?}, epsilon {:e}", known.call, known.layout.epsilon);
        for path in known.paths() {
            let front = &path.numbers[..path.numbers.len().min(NUMBERS)];
            let (length, closed) = (path.numbers.len(), path.closed);
            println!("  a path of {length} numbers, closed {closed}: {front:?}");
        }
    }

    /// Prints the counts, and answers how many differences there were; a kind that never occurred counts as one.
    pub fn report(&self) -> u64 {
        let name = "counted listing";
        let classes = CLASS_NAMES.iter().zip(&self.classes);
        let rows: Vec<String> = classes
            .map(|(class, count)| format!("{class} {count}"))
            .collect();
        let refusals: Vec<String> = (0..)
            .zip(&self.refusals)
            .filter(|(_, count)| **count > 0)
            .map(|(number, count)| format!("{count} by {number}"))
            .collect();
        println!(
            "{name}: {} accepted, {} pairs, {} passed over, classes {}, refused {}, {} without room, {} differences",
            self.accepted,
            self.pairs,
            self.over,
            rows.join(", "),
            refusals.join(", "),
            self.no_room,
            self.differences
        );
        let [joined, refused, no_room] = self.joins;
        println!("join: {joined} joined, {refused} refused by 19, {no_room} without room");
        let unmet: Vec<String> = self
            .sites
            .report(name)
            .into_iter()
            .chain(self.orders.report(name))
            .chain(self.calls.report(name, "call"))
            .chain(self.of_joins.report("join", "join"))
            .collect();
        for what in &unmet {
            println!("{name}: NEVER MET: {what}");
        }
        self.differences + unmet.len() as u64
    }
}

/// Whether two calls left the same. Only the bits of a NaN are left open.
fn is_same(one: &mut Lent, other: &mut Lent) -> bool {
    let (one, other) = (one.slices(), other.slices());
    let is = |(a, b): (&f64, &f64)| a.to_bits() == b.to_bits() || a.is_nan() && b.is_nan();
    one.indices == other.indices
        && one.counts == other.counts
        && one.points.iter().zip(other.points.iter()).all(is)
}
