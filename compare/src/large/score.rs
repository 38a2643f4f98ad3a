//! Compares one call after the other with the model, and counts what came up: rows by class and by halves, refusals by number
//! and place, kinds of input, and differences.

use super::ask::{Asked, Kind};
use super::lent::Lent;
use super::model::{row_room, Large};
use super::seen::{Seen, Sight};
use super::sites::Sites;
use super::Ours;
use crate::listings::layout::{Call, Layout};
use crate::listings::lent::{LentPath, Old};
use crate::listings::model::Listed;
use crate::listings::orders::Orders;
use crate::listings::score::CLASSES;
use crate::met::Met;

const SHOWN: u64 = 5;

/// A layout with the model's listing of it, computed once for any number of calls.
pub struct Known<'a> {
    pub layout: &'a Layout,
    pub call: Call,
    pub large: Large,
    pub seen: Seen,
}

impl<'a> Known<'a> {
    pub fn new(layout: &'a Layout, call: Call) -> Known<'a> {
        let listed = layout.listed(call);
        let large = Large::new(listed, layout.epsilon);
        let seen = if large.faults.is_empty() {
            Seen::of(listed, &large)
        } else {
            Seen::default()
        };
        Known {
            layout,
            call,
            large,
            seen,
        }
    }

    pub fn listed(&self) -> Listed<'_> {
        self.layout.listed(self.call)
    }

    /// Makes the call, and says what is not as expected, if anything.
    pub fn wrong(&self, ours: Ours, asked: &Asked) -> Option<String> {
        let layout = self.layout;
        let (first, second) = (LentPath::new(&layout.first), LentPath::new(&layout.second));
        let mut lent = Lent::new(asked);
        let listed = self.call.of(first.path(), second.path());
        let answer = ours.asked(listed, layout.epsilon, asked, &mut lent);
        let expected = self.large.expected(asked);
        lent.wrong(answer, &self.large, &expected).or_else(|| {
            let unchanged = first.is(&layout.first) && second.is(&layout.second);
            (!unchanged).then(|| "a path was written to".to_string())
        })
    }
}

/// A call as kinds of it see it.
pub struct Case {
    pub asked: Asked,
    pub seen: Seen,
    /// The refusal's number, and whether it was answered at all.
    pub refused: Option<u64>,
    pub answered: bool,
    /// Rows that a call of this kind has, and rows and floats that fit.
    pub rows: usize,
    pub fit: usize,
    pub floats: usize,
    /// The positions of a page's start and end, of all pairs, and whether its end lies between halves of one arc.
    pub page: Option<Page>,
}

pub struct Page {
    pub from: u64,
    pub next: u64,
    pub all: u64,
    pub budget: u64,
    pub rows: usize,
    /// The first segment of the pair at its end is a second half.
    pub within: bool,
}

pub struct Score {
    pub kind: Kind,
    pub call: Call,
    ours: Ours,
    answered: u64,
    pairs: u64,
    rows: [u64; 6],
    /// By the halves of the row's segments.
    halves: [u64; 9],
    refusals: [u64; 32],
    no_room: u64,
    sites: Sites,
    pub orders: Orders,
    kinds: Met<Case>,
    pub differences: u64,
}

impl Score {
    pub fn new(kind: Kind, call: Call, ours: Ours) -> Score {
        Score {
            kind,
            call,
            ours,
            answered: 0,
            pairs: 0,
            rows: [0; 6],
            halves: [0; 9],
            refusals: [0; 32],
            no_room: 0,
            sites: Sites::of(kind, call),
            orders: Orders::of_large(call),
            kinds: kinds(kind, call),
            differences: 0,
        }
    }

    pub fn compare(&mut self, known: &Known, asked: &Asked) {
        if let Some(what) = known.wrong(self.ours, asked) {
            self.differ(known, asked, &what);
        }
        self.count(known, asked);
    }

    fn count(&mut self, known: &Known, asked: &Asked) {
        let large = &known.large;
        let expected = large.expected(asked);
        let paths = known.listed().paths();
        let rows = match self.kind {
            Kind::Page => 1,
            kind => large.rows_of(kind),
        };
        match expected.fault {
            _ if !asked.has_room() => self.no_room += 1,
            Some(fault) => {
                self.refusals[fault.number as usize] += 1;
                self.sites.count(&paths, fault, asked.room, rows);
                if large.faults.first() == Some(&fault) {
                    self.orders.count(&large.faults);
                }
            }
            None => {
                self.answered += 1;
                self.pairs += expected.counts[1];
                for row in &expected.rows {
                    let [_, half, _, other, class] = large.words(*row);
                    self.rows[class as usize] += 1;
                    self.halves[(3 * half + other) as usize] += 1;
                }
            }
        }
        let answered = asked.has_room() && expected.fault.is_none();
        let page = (answered && self.kind == Kind::Page).then(|| Page {
            from: asked.span.position,
            next: expected.counts[2],
            all: large.all,
            budget: asked.span.budget,
            rows: expected.rows.len(),
            within: second_half(known, expected.counts[2]),
        });
        self.kinds.count(&Case {
            asked: *asked,
            seen: known.seen,
            refused: expected.fault.map(|fault| fault.number),
            answered,
            rows,
            fit: row_room(asked.room.indices, asked.room.points),
            floats: large.index.len(),
            page,
        });
    }

    pub fn differ(&mut self, known: &Known, asked: &Asked, what: &str) {
        const NUMBERS: usize = 24;
        self.differences += 1;
        if self.differences > SHOWN {
            return;
        }
        let epsilon = known.layout.epsilon;
        println!("{}: {what}", self.name());
        println!(
            "  {:?}, {:?}, {} floats, epsilon {epsilon:e}",
            asked.room, asked.span, asked.boxes
        );
        for path in known.listed().paths() {
            let front = &path.numbers[..path.numbers.len().min(NUMBERS)];
            let (length, closed) = (path.numbers.len(), path.closed);
            println!("  a path of {length} numbers, closed {closed}: {front:?}");
        }
    }

    fn name(&self) -> String {
        let call = match self.call {
            Call::Mutual => "mutual",
            Call::Twice => "one path lent twice",
            Call::Own => "self",
        };
        let kind = match self.kind {
            Kind::Full => "",
            Kind::Page => ", a page",
            Kind::Boxed => ", boxed",
            Kind::Counted => ", counted",
        };
        format!("large, {call}{kind}")
    }

    /// Prints the counts, and answers how many differences there were; what never occurred counts as one.
    pub fn report(&self) -> u64 {
        let name = self.name();
        let rows = CLASSES.iter().zip(&self.rows).skip(1);
        let rows: Vec<String> = rows.map(|(class, n)| format!("{class} {n}")).collect();
        let refusals = self.refusals.iter().enumerate().filter(|(_, n)| **n > 0);
        let refusals: Vec<String> = refusals
            .map(|(number, n)| format!("{n} by {number}"))
            .collect();
        println!(
            "{name}: {} answered, {} pairs, rows {}, by halves 00 to 22 {:?}, refused {}, {} without room, {} differences",
            self.answered,
            self.pairs,
            rows.join(", "),
            self.halves,
            refusals.join(", "),
            self.no_room,
            self.differences
        );
        println!(
            "{name}: refusals at {} sites, at least {} at each",
            self.sites.len(),
            self.sites.least()
        );
        let mut unmet: Vec<String> = self.sites.unmet().collect();
        unmet.extend(self.kinds.report(&name, "input"));
        if self.kind == Kind::Full {
            unmet.extend(self.orders.report(&name));
        }
        for what in &unmet {
            println!("{name}: NEVER MET: {what}");
        }
        self.differences + unmet.len() as u64
    }
}

/// Whether the pair at a position has a second half as its first segment, and is the first of it.
fn second_half(known: &Known, position: u64) -> bool {
    let own = known.call == Call::Own;
    let [s, m] = [0, 1].map(|at: usize| known.large.cuts[at].names.len() as u64);
    let mut before = 0;
    for i in 0..s {
        if before == position {
            return known.large.cuts[0].names[i as usize].1 == 2;
        }
        before += if own { s - i - 1 } else { m };
    }
    false
}

fn kinds(kind: Kind, call: Call) -> Met<Case> {
    let mut kinds = Met::new();
    for sight in Sight::of(call == Call::Own) {
        // of a path that is lent twice some cannot be, and the longest are listed by themselves elsewhere
        let never = match sight {
            Sight::OnlyCut(_) => call == Call::Twice,
            Sight::AllCut(_) => call != Call::Mutual,
            Sight::RowApart => call == Call::Twice || kind != Kind::Boxed,
            _ => false,
        };
        if !never {
            let name = format!("{sight:?}");
            kinds.add(name, move |c: &Case| c.answered && c.seen.has(sight));
        }
    }
    let fits = |c: &Case, by: isize| c.rows > 0 && c.fit as isize == c.rows as isize + by;
    for (name, by) in [("one row less", -1), ("exactly", 0), ("one row more", 1)] {
        kinds.add(format!("room for {name}"), move |c: &Case| fits(c, by));
    }
    kinds.add("room decided by the indices", |c: &Case| {
        c.answered && c.asked.room.indices / 5 < c.asked.room.points / 4
    });
    kinds.add("room decided by the points", |c: &Case| {
        c.answered && c.asked.room.points / 4 < c.asked.room.indices / 5
    });
    for rest in 1..5 {
        let name = format!("{rest} words beyond whole rows");
        kinds.add(name, move |c: &Case| {
            c.answered && c.asked.room.indices % 5 == rest
        });
    }
    // rows of three or of four words would fit, or fit more
    for words in [3, 4] {
        let name = format!("rows of {words} words would fit");
        kinds.add(name, move |c: &Case| {
            let room = c.asked.room;
            c.refused == Some(8) && room.indices / words >= c.rows && room.points / 4 >= c.rows
        });
    }
    for counts in 0..=kind.counts() {
        let name = format!("room for {counts} counts");
        kinds.add(name, move |c: &Case| c.asked.room.counts == counts);
    }
    let old = |old: &Old| match old {
        Old::Nans => 0,
        Old::Zeros => 1,
        Old::Bits(_) => 2,
    };
    for (at, name) in ["NaNs", "zeros", "random"].into_iter().enumerate() {
        kinds.add(format!("old contents {name}"), move |c: &Case| {
            old(&c.asked.old) == at
        });
    }
    if kind == Kind::Boxed {
        for (name, by) in [("a float less", -1), ("exactly", 0), ("a float more", 1)] {
            kinds.add(format!("floats for boxes, {name}"), move |c: &Case| {
                c.floats > 0 && c.asked.boxes as isize == c.floats as isize + by
            });
        }
        kinds.add("neither boxes nor rows fit", |c: &Case| {
            c.refused == Some(17) && c.fit < c.rows
        });
    }
    if kind == Kind::Page {
        of_pages(&mut kinds);
    }
    kinds
}

fn of_pages(kinds: &mut Met<Case>) {
    let mut add = |name: &str, test: fn(&Page) -> bool| {
        kinds.add(name, move |c: &Case| c.page.as_ref().is_some_and(test));
    };
    add("stops at the budget", |p| {
        p.next < p.all && p.next - p.from == p.budget
    });
    add("stops at the end", |p| p.from < p.all && p.next == p.all);
    add("starts at the end", |p| p.from == p.all);
    add("stops for room", |p| {
        p.next < p.all && p.next - p.from < p.budget && p.rows > 0
    });
    add("stops for room at once", |p| p.next > p.from && p.rows == 1);
    add("stops before a second half", |p| p.within && p.next < p.all);
    add("starts within", |p| p.from > 0 && p.rows > 0);
    add("position and budget beyond 2^64", |p| {
        p.from.checked_add(p.budget).is_none()
    });
}
