//! A report as in the request's words: what a counted listing adds to it, when it is too full, and what a join makes of two.

use super::ask::Asked;
use crate::crossing::faults::{Fault, Item, Place};
use crate::listings::model::{Listing, Rows};

/// How many words a report has.
pub const WORDS: usize = 40;
/// Where they stand: layouts, pairs looked at, the classes 0 to 5, and the refusals 0 to 31.
pub const LAYOUTS: usize = 0;
pub const PAIRS: usize = 1;
pub const CLASSES: usize = 2;
pub const REFUSALS: usize = 8;

/// As many layouts as a report may have.
pub const MOST_LAYOUTS: u64 = 10_000;
/// The most that any other word may be before a layout is counted.
pub const MOST: u64 = u64::MAX - 67_108_864;

/// The refusal for a report.
pub const TOO_FULL: u64 = 19;

pub fn too_full() -> Fault {
    Fault::new(TOO_FULL, Place::alone(Item::Report))
}

#[derive(Clone, Copy, Debug, PartialEq)]
pub struct Report(pub [u64; WORDS]);

impl Report {
    pub const FRESH: Report = Report([0; WORDS]);

    pub fn layouts(&self) -> u64 {
        self.0[LAYOUTS]
    }

    /// Whether a counted listing is refused with 19: it has 10,000 layouts, or a word that may not fit with another layout.
    pub fn is_too_full(&self) -> bool {
        self.layouts() >= MOST_LAYOUTS || self.0[LAYOUTS + 1..].iter().any(|word| *word > MOST)
    }

    /// With a layout more, which was accepted.
    pub fn accepted(mut self, found: &Rows) -> Report {
        self.0[LAYOUTS] += 1;
        self.0[PAIRS] += found.pairs;
        self.0[CLASSES] += found.pairs - found.rows.len() as u64;
        for row in &found.rows {
            self.0[CLASSES + row.class as usize] += 1;
        }
        self
    }

    /// With a layout more, which was refused, also with 8.
    pub fn refused(mut self, number: u64) -> Report {
        self.0[LAYOUTS] += 1;
        self.0[REFUSALS + number as usize] += 1;
        self
    }

    /// The sum of two reports. None if it is refused with 19: there are more than 10,000 layouts, or a sum does not fit.
    pub fn joined(&self, other: &Report) -> Option<Report> {
        let mut sums = [0; WORDS];
        for (sum, (a, b)) in sums.iter_mut().zip(self.0.iter().zip(other.0)) {
            *sum = u64::try_from(u128::from(*a) + u128::from(b)).ok()?;
        }
        (sums[LAYOUTS] <= MOST_LAYOUTS).then_some(Report(sums))
    }
}

/// What a counted listing does. Too little room for the report or for the counts comes before all else, and 19 before all checks
/// of the layout.
#[derive(Clone, Copy, Debug, PartialEq)]
pub enum Outcome {
    NoRoom,
    TooFull,
    Refused(Fault),
    Accepted,
}

impl Outcome {
    pub fn of(listing: &Listing, asked: &Asked) -> Outcome {
        match listing.fault(asked.rows()) {
            _ if !asked.has_room() => Outcome::NoRoom,
            _ if asked.report.is_too_full() => Outcome::TooFull,
            Some(fault) => Outcome::Refused(fault),
            None => Outcome::Accepted,
        }
    }

    /// The report after the call.
    pub fn counted(self, report: Report, found: &Rows) -> Report {
        match self {
            Outcome::NoRoom | Outcome::TooFull => report,
            Outcome::Refused(fault) => report.refused(fault.number),
            Outcome::Accepted => report.accepted(found),
        }
    }
}
