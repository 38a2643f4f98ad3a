//! The mode with arcs beyond a half circle compared with a model that is written here from the request's words: Rust cuts each
//! large arc, and the model of listings, over the Rust's pair function, lists the cut paths. Compared are listings, pages, boxed
//! and counted listings and the pair call, their refusals with their places, every place of the lent slices, and both modes
//! beside each other. The circles of the halves are measured on a sample.

pub mod ask;
mod bench;
mod beside;
mod circle;
pub mod cut;
mod damage;
mod draw;
mod edges;
mod examples;
pub mod faults;
mod joint;
pub mod lent;
pub mod model;
mod pairs;
mod run;
mod score;
mod seen;
mod sites;
#[cfg(test)]
mod stand_in;
#[cfg(test)]
mod tests;

pub use bench::run as bench;
pub use ours::OURS;

use ask::{Asked, Kind};
use lent::Lent;
use run::Run;

use crate::capi::{Rows, Span};
use crate::listings::model::Listed;

/// After so many differences a run ends.
const ENOUGH: u64 = 1000;

/// Our calls. Rows of indices have five words; of a pair the results go into the words, their points into the floats.
#[derive(Clone, Copy)]
pub struct Ours {
    pub full: fn(Listed, f64, Rows) -> u64,
    pub page: fn(Listed, f64, Span, Rows) -> u64,
    pub boxed: fn(Listed, f64, &mut [f64], Rows) -> u64,
    pub counted: fn(Listed, f64, Rows, &mut [u64]) -> u64,
    pub pair: fn(&[f64; 13], &mut [u64], &mut [f64]) -> u64,
}

impl Ours {
    /// The call that is asked for, with its slices.
    pub fn asked(self, listed: Listed, epsilon: f64, asked: &Asked, lent: &mut Lent) -> u64 {
        let (rows, boxes, report) = lent.slices();
        match asked.kind {
            Kind::Full => (self.full)(listed, epsilon, rows),
            Kind::Page => (self.page)(listed, epsilon, asked.span, rows),
            Kind::Boxed => (self.boxed)(listed, epsilon, boxes, rows),
            Kind::Counted => (self.counted)(listed, epsilon, rows, report),
        }
    }
}

mod ours {
    use super::Ours;
    use crate::capi::large::*;
    use crate::capi::{Rows, Span};
    use crate::listings::model::{Listed, Path};

    pub const OURS: Ours = Ours {
        full,
        page,
        boxed,
        counted,
        pair: |numbers, results, out| vj_pair_large(*numbers, results, out),
    };

    fn lent(path: Path<'_>) -> (&[f64], bool) {
        (path.numbers, path.closed)
    }

    fn full(listed: Listed, epsilon: f64, rows: Rows) -> u64 {
        match listed {
            Listed::Mutual(first, second) => {
                vj_mutual_large(lent(first), lent(second), epsilon, rows)
            }
            Listed::Own(path) => vj_self_large(lent(path), epsilon, rows),
        }
    }

    fn page(listed: Listed, epsilon: f64, span: Span, rows: Rows) -> u64 {
        match listed {
            Listed::Mutual(first, second) => {
                vj_mutual_page_large(lent(first), lent(second), epsilon, span, rows)
            }
            Listed::Own(path) => vj_self_page_large(lent(path), epsilon, span, rows),
        }
    }

    fn boxed(listed: Listed, epsilon: f64, boxes: &mut [f64], rows: Rows) -> u64 {
        match listed {
            Listed::Mutual(first, second) => {
                vj_mutual_boxed_large(lent(first), lent(second), epsilon, boxes, rows)
            }
            Listed::Own(path) => vj_self_boxed_large(lent(path), epsilon, boxes, rows),
        }
    }

    fn counted(listed: Listed, epsilon: f64, rows: Rows, report: &mut [u64]) -> u64 {
        match listed {
            Listed::Mutual(first, second) => {
                vj_mutual_counted_large(lent(first), lent(second), epsilon, rows, report)
            }
            Listed::Own(_) => unreachable!("a counted listing has two paths"),
        }
    }
}

/// Compares the calls with examples worked out by hand; on segments at each limit and on chosen loops, in each place of a path;
/// on small paths of every size, on layouts with one fault and with two, on the longest paths; on `count / 16` pairs; and on
/// random layouts until these have `count / 4` pairs. Measures the circles of the halves of `count / 32` arcs. Answers how many
/// differences there were, plus the kinds of call that never occurred.
pub fn check(count: u64, seed: u64) -> u64 {
    let mut run = Run::new(OURS, seed, ENOUGH);
    run.examples();
    run.circles(count);
    joint::count(count / 512, seed);
    run.all(count);
    run.report()
}
