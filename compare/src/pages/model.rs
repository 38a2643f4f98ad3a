//! Pages of a listing as in the request's words: where a call stops, what it answers, what it refuses and in which order. A pair
//! of one trace has a position and is passed as any pair without a row. The rows, and the faults of paths and epsilon, are those
//! of the model of listings.

use crate::capi::Span;
use crate::crossing::faults::{Fault, Item, Place};
use crate::listings::model::{no_row_left, Listed, Listing, Row};
use crate::listings::traces::{would_row, Passed};

/// The refusals of a page, after all checks of numbers.
pub const BEYOND: u64 = 13;
pub const NO_BUDGET: u64 = 14;
pub const NO_ROW_FITS: u64 = 8;

/// The fault of a page's position, of its budget, or of its room, which have no owner.
pub fn of_page(number: u64) -> Fault {
    match number {
        BEYOND => Fault::new(BEYOND, Place::alone(Item::Position)),
        NO_BUDGET => Fault::new(NO_BUDGET, Place::alone(Item::Budget)),
        _ => no_row_left(),
    }
}

/// A listing to be handed out in pages.
pub struct Pages {
    listing: Listing,
    /// How many pairs there are; none if the listing has a fault.
    all: u64,
    /// The position of each row's pair.
    row_at: Vec<u64>,
    /// The position of the first pair of each first segment.
    turn_at: Vec<u64>,
    /// Of each position, whether its pair is of one trace. Such a pair is passed like any other.
    over: Vec<bool>,
    /// What traces do in the listing.
    pub passed: Passed,
    /// The positions of pairs of one trace that would make a row.
    row_over: Vec<u64>,
}

/// What a call answers.
pub struct Page<'a> {
    pub rows: &'a [Row],
    pub passed: u64,
    pub next: u64,
    pub all: u64,
}

impl Pages {
    pub fn new(listed: Listed, epsilon: f64) -> Pages {
        let listing = Listing::new(listed, epsilon);
        let mut pages = Pages {
            listing,
            all: 0,
            row_at: Vec::new(),
            turn_at: Vec::new(),
            over: Vec::new(),
            passed: Passed::default(),
            row_over: Vec::new(),
        };
        if pages.listing.faults.is_empty() {
            let would_row = would_row(listed, epsilon, &pages.listing.rows.rows);
            pages.passed = Passed::of(listed, &would_row);
            pages.place(listed, &would_row);
        }
        pages
    }

    /// Finds the pair of each row. Rows stand in the order of the pairs.
    fn place(&mut self, listed: Listed, would_row: &[[u64; 2]]) {
        let mut would_row = would_row.iter().peekable();
        let mut rows = self
            .listing
            .rows
            .rows
            .iter()
            .map(|row| row.indices)
            .peekable();
        let mut last = None;
        in_order(listed, |[i, j]| {
            let would_row = would_row.next_if_eq(&&[i, j]).is_some();
            let over = listed.passes_over([i, j].map(|index| index as usize));
            if rows.next_if_eq(&[i, j]).is_some() {
                self.row_at.push(self.all);
            } else if over && would_row {
                self.row_over.push(self.all);
            }
            self.over.push(over);
            if last != Some(i) {
                self.turn_at.push(self.all);
            }
            last = Some(i);
            self.all += 1;
        });
        assert!(rows.next().is_none(), "a row of no pair, or out of order");
    }

    /// How many pairs there are, if the listing has no fault.
    pub fn all(&self) -> u64 {
        self.all
    }

    pub fn rows(&self) -> &[Row] {
        &self.listing.rows.rows
    }

    /// The rows of the pairs before a position.
    pub fn rows_before(&self, position: u64) -> &[Row] {
        let count = self.row_at.partition_point(|at| *at < position);
        &self.rows()[..count]
    }

    /// The first fault of the checks of numbers.
    pub fn fault(&self) -> Option<Fault> {
        self.listing.faults.first().copied()
    }

    /// The first two of them.
    pub fn faults(&self) -> &[Fault] {
        &self.listing.faults
    }

    pub fn makes_row(&self, position: u64) -> bool {
        self.row_at.binary_search(&position).is_ok()
    }

    /// How many pairs the full listing looks at.
    pub fn looked_at(&self) -> u64 {
        self.listing.rows.pairs
    }

    /// Whether the pair at this position is of one trace.
    pub fn is_over(&self, position: u64) -> bool {
        self.over.get(position as usize) == Some(&true)
    }

    /// Whether there is a pair of one trace that would make a row, from one position to before another.
    pub fn has_row_over(&self, from: u64, to: u64) -> bool {
        let next = self.row_over.partition_point(|at| *at < from);
        self.row_over.get(next).is_some_and(|at| *at < to)
    }

    /// The position of the last row before a position, or none.
    pub fn last_row(&self, before: u64) -> Option<u64> {
        self.row_at[..self.rows_before(before).len()]
            .last()
            .copied()
    }

    /// Whether the pair at this position is the first one of its first segment.
    pub fn is_turn(&self, position: u64) -> bool {
        self.turn_at.binary_search(&position).is_ok()
    }

    /// The refusal, or the page, of a call with room for so many whole rows.
    pub fn page(&self, span: Span, room: usize) -> Result<Page<'_>, Fault> {
        if let Some(fault) = self.fault() {
            Err(fault)
        } else if span.position > self.all {
            Err(of_page(BEYOND))
        } else if span.budget == 0 {
            Err(of_page(NO_BUDGET))
        } else if room == 0 {
            Err(of_page(NO_ROW_FITS))
        } else {
            Ok(self.answered(span, room))
        }
    }

    /// Pair by pair, up to the budget, to the end, or to a pair that makes a row where no row is left.
    fn answered(&self, Span { position, budget }: Span, room: usize) -> Page<'_> {
        let before = self.rows_before(position).len();
        let (mut passed, mut taken) = (0, 0);
        while passed < budget && position + passed < self.all {
            let makes_row = self.row_at.get(before + taken) == Some(&(position + passed));
            if makes_row && taken == room {
                break;
            }
            taken += usize::from(makes_row);
            passed += 1;
        }
        Page {
            rows: &self.rows()[before..before + taken],
            passed,
            next: position + passed,
            all: self.all,
        }
    }
}

impl Page<'_> {
    pub fn counts(&self) -> Vec<u64> {
        vec![self.rows.len() as u64, self.passed, self.next, self.all]
    }
}

/// Every pair: i outer, j inner, both rising. In one path i is below j.
pub fn in_order(listed: Listed, mut pass: impl FnMut([u64; 2])) {
    match listed {
        Listed::Mutual(first, second) => {
            for i in 0..first.segments() as u64 {
                for j in 0..second.segments() as u64 {
                    pass([i, j]);
                }
            }
        }
        Listed::Own(path) => {
            let n = path.segments() as u64;
            for i in 0..n {
                for j in i + 1..n {
                    pass([i, j]);
                }
            }
        }
    }
}
