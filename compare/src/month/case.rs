//! A counted listing, and a join, as kinds of them see it. A plain copy of what is needed, so that a kind's test borrows nothing.

use super::ask::{Asked, Joining};
use super::model::{Outcome, Report, CLASSES, LAYOUTS, MOST, MOST_LAYOUTS, WORDS};
use crate::listings::layout::Call;

pub struct Case {
    pub call: Call,
    pub asked: Asked,
    pub outcome: Outcome,
    /// The number that would be told if the report did not matter.
    pub fault: Option<u64>,
    /// Vertices of each path.
    pub vertices: [usize; 2],
    /// Pairs looked at, pairs that are passed over, rows, and rows if none were passed over; nothing of a layout with a fault.
    pub pairs: u64,
    pub over: u64,
    pub rows: usize,
    pub rows_without: usize,
    /// What an accepted layout adds to each class.
    pub classes: [u64; 6],
}

impl Case {
    pub fn report(&self) -> &Report {
        &self.asked.report
    }

    pub fn is_accepted(&self) -> bool {
        self.outcome == Outcome::Accepted
    }

    pub fn is_refused(&self, number: u64) -> bool {
        matches!(self.outcome, Outcome::Refused(fault) if fault.number == number)
    }

    pub fn is_too_full(&self) -> bool {
        self.outcome == Outcome::TooFull
    }

    pub fn is_counted(&self) -> bool {
        matches!(self.outcome, Outcome::Refused(_) | Outcome::Accepted)
    }

    /// Whether 19 is for this word only.
    pub fn is_only_for(&self, word: usize) -> bool {
        let at_fault = |at: usize| {
            let value = self.report().0[at];
            if at == LAYOUTS {
                value >= MOST_LAYOUTS
            } else {
                value > MOST
            }
        };
        self.is_too_full() && (0..WORDS).all(|at| at_fault(at) == (at == word))
    }

    /// What it adds to a class, if it is accepted.
    pub fn adds_to_class(&self, class: usize) -> bool {
        self.is_accepted() && self.classes[class] > 0
    }

    pub fn class_word(&self, class: usize) -> u64 {
        self.report().0[CLASSES + class]
    }
}

pub struct Join {
    pub asked: Joining,
    pub joined: bool,
}

impl Join {
    pub fn is_joined(&self) -> bool {
        self.asked.has_room() && self.joined
    }

    pub fn is_refused(&self) -> bool {
        self.asked.has_room() && !self.joined
    }

    pub fn both(&self, word: usize) -> [u64; 2] {
        [self.asked.into.0[word], self.asked.other.0[word]]
    }

    /// Whether the sum of each other word may stand.
    pub fn is_only_for(&self, word: usize) -> bool {
        (0..WORDS).filter(|at| *at != word).all(|at| {
            let [a, b] = self.both(at);
            let most = if at == LAYOUTS {
                MOST_LAYOUTS
            } else {
                u64::MAX
            };
            a.checked_add(b).is_some_and(|sum| sum <= most)
        })
    }
}
