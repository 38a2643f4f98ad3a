//! Boxed listings compared with a model that is written here from the request's words, over the model of listings: the index bit
//! for bit, the pairs looked at, the rows, the refusals, and every place of the lent slices.

pub mod ask;
mod bench;
mod case;
mod draw;
mod examples;
pub mod index;
mod kinds;
pub mod lent;
pub mod model;
mod run;
mod score;
mod seen;
#[cfg(test)]
mod stand_in;
#[cfg(test)]
mod tests;
mod touching;

pub use bench::run as bench;
pub use index::is_arc;

use run::Run;

use crate::capi::{vj_mutual_boxed, vj_self_boxed, Rows};
use crate::listings::layout;
use crate::listings::model::Listed;

/// After so many differences a run ends.
const ENOUGH: u64 = 1000;

/// Our calls: the boxed listing, and the full one.
#[derive(Clone, Copy)]
pub struct Ours {
    boxed: fn(Listed, f64, &mut [f64], Rows) -> u64,
    full: fn(Listed, f64, Rows) -> u64,
}

const OURS: Ours = Ours {
    boxed: ours,
    full: layout::ours,
};

/// Our call of a boxed listing on lent paths.
pub fn ours(listed: Listed, epsilon: f64, boxes: &mut [f64], rows: Rows) -> u64 {
    match listed {
        Listed::Mutual(first, second) => vj_mutual_boxed(
            (first.numbers, first.closed),
            (second.numbers, second.closed),
            epsilon,
            boxes,
            rows,
        ),
        Listed::Own(path) => vj_self_boxed((path.numbers, path.closed), epsilon, boxes, rows),
    }
}

/// Compares boxed listings with examples worked out by hand; on paths of sizes about a group, on boxes that all but touch, on
/// arcs whose chord decides, on rows whose boxes are apart, and on layouts with one fault and with two; and on random layouts
/// until these have `count` pairs. Answers how many differences there were, plus the kinds of call that never occurred.
pub fn check(count: u64, seed: u64) -> u64 {
    let mut run = Run::new(OURS, count, seed, ENOUGH);
    run.examples();
    run.all(count);
    run.report()
}
