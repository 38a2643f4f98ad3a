//! Compares one call after the other with the model, and counts what came up: rows, refusals, kinds of call and of chain, and
//! differences.

use super::ask::{Asked, COUNTS};
use super::chain::{self, Chained};
use super::kinds::{kinds, Case};
use super::model::{Page, Pages};
use super::Ours;
use crate::crossing::faults::Fault;
use crate::listings::layout::{Call, Layout};
use crate::listings::lent::{Expected, Lent, LentPath};
use crate::listings::model::{Listed, Path};
use crate::listings::orders::Orders;
use crate::listings::score::CLASSES;
use crate::listings::sites::{Short, Sites};
use crate::met::Met;

const SHOWN: u64 = 5;

/// A layout with the model of its pages, and its paths as they are lent, for any number of calls.
pub struct Known<'a> {
    layout: &'a Layout,
    pub call: Call,
    pub pages: Pages,
    lent: [LentPath; 2],
}

impl<'a> Known<'a> {
    pub fn new(layout: &'a Layout, call: Call) -> Known<'a> {
        Known {
            layout,
            call,
            pages: Pages::new(layout.listed(call), layout.epsilon),
            lent: [&layout.first, &layout.second].map(LentPath::new),
        }
    }

    pub fn listed(&self) -> Listed<'_> {
        self.call.of(self.lent[0].path(), self.lent[1].path())
    }

    pub fn epsilon(&self) -> f64 {
        self.layout.epsilon
    }

    fn paths(&self) -> Vec<Path<'_>> {
        self.listed().paths()
    }

    fn is_unchanged(&self) -> bool {
        self.lent[0].is(&self.layout.first) && self.lent[1].is(&self.layout.second)
    }
}

pub struct Score {
    call: Call,
    pub ours: Ours,
    pub answered: u64,
    pairs: u64,
    classes: [u64; 6],
    refusals: [u64; 16],
    no_room: u64,
    sites: Sites,
    orders: Orders,
    kinds: Met<Case>,
    chains: Met<Chained>,
    pub differences: u64,
}

impl Score {
    pub fn new(call: Call, ours: Ours) -> Score {
        Score {
            call,
            ours,
            answered: 0,
            pairs: 0,
            classes: [0; 6],
            refusals: [0; 16],
            no_room: 0,
            sites: Sites::of_pages(call),
            orders: Orders::of(call),
            kinds: kinds(call),
            chains: chain::kinds(call),
            differences: 0,
        }
    }

    /// Makes the call, and hands back what it returned and what it left in the slices.
    pub fn compare(&mut self, known: &Known, asked: &Asked) -> (u64, Lent) {
        let mut lent = Lent::new(asked.room, asked.old);
        let answer = (self.ours.page)(known.listed(), known.epsilon(), asked.span, lent.slices());
        let page = known.pages.page(asked.span, asked.rows());
        let expected = match &page {
            _ if asked.room.counts < COUNTS => Expected::NoRoom,
            Err(fault) => Expected::Refused(*fault),
            Ok(page) => Expected::Answered {
                rows: page.rows,
                counts: page.counts(),
            },
        };
        if let Some(what) = lent.wrong(answer, &expected) {
            self.differ(known, &format!("{what}, {asked:?}"));
        }
        self.count(&expected, &page);
        if let Expected::Refused(fault) = expected {
            let (paths, short) = (known.paths(), Short::of(asked.room, 1));
            self.sites.count(&paths, known.epsilon(), fault, short);
            self.orders.count(known.pages.faults());
        }
        let case = Case::new(&known.paths(), &known.pages, asked, &page);
        self.kinds.count(&case);
        (answer, lent)
    }

    fn count(&mut self, expected: &Expected, page: &Result<Page, Fault>) {
        match (expected, page) {
            (Expected::NoRoom, _) => self.no_room += 1,
            (Expected::Refused(fault), _) => self.refusals[fault.number as usize] += 1,
            (_, Ok(page)) => {
                self.answered += 1;
                self.pairs += page.passed;
                for row in page.rows {
                    self.classes[row.class as usize] += 1;
                }
            }
            _ => unreachable!("a refused page is no answer"),
        }
    }

    pub fn count_chain(&mut self, chained: &Chained) {
        self.chains.count(chained);
    }

    /// To be called after the last call on these paths.
    pub fn done_with(&mut self, known: &Known) {
        if !known.is_unchanged() {
            self.differ(known, "a path was written to");
        }
    }

    pub fn differ(&mut self, known: &Known, what: &str) {
        const NUMBERS: usize = 24;
        self.differences += 1;
        if self.differences > SHOWN {
            return;
        }
        println!("{}: {what}", self.name());
        println!(
            "  epsilon {:e}, {} pairs",
            known.epsilon(),
            known.pages.all()
        );
        for path in known.paths() {
            let front = &path.numbers[..path.numbers.len().min(NUMBERS)];
            let (length, closed) = (path.numbers.len(), path.closed);
            println!("  a path of {length} numbers, closed {closed}: {front:?}");
        }
    }

    fn name(&self) -> &'static str {
        match self.call {
            Call::Mutual => "mutual pages",
            Call::Twice => "mutual pages, one path lent twice",
            Call::Own => "self pages",
        }
    }

    /// Prints the counts, and answers how many differences there were; a kind that never occurred counts as one.
    pub fn report(&self) -> u64 {
        let name = self.name();
        let classes = CLASSES.iter().zip(&self.classes).skip(1);
        let rows: Vec<String> = classes
            .clone()
            .map(|(class, count)| format!("{class} {count}"))
            .collect();
        let refusals: Vec<String> = (0..)
            .zip(&self.refusals)
            .filter(|(_, count)| **count > 0)
            .map(|(number, count)| format!("{count} by {number}"))
            .collect();
        println!(
            "{name}: {} answered, {} pairs passed, rows {}, refused {}, {} without room, {} differences",
            self.answered,
            self.pairs,
            rows.join(", "),
            refusals.join(", "),
            self.no_room,
            self.differences
        );
        let unmet: Vec<String> = classes
            .filter(|(_, count)| **count == 0)
            .map(|(class, _)| format!("rows of class {class}"))
            .chain(self.sites.report(name))
            .chain(self.orders.report(name))
            .chain(self.kinds.report(name, "call"))
            .chain(self.chains.report(name, "chain"))
            .collect();
        for what in &unmet {
            println!("{name}: NEVER MET: {what}");
        }
        self.differences + unmet.len() as u64
    }
}
