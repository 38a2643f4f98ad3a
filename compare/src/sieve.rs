//! Full listings at the edges of what makes them quick, compared with the model of listings, over the Rust's pair function. A
//! listing goes block by block through a sieve, which takes away lines that are clearly apart; and one with many rows counts them
//! first, marks the pairs that make one, and then looks at the marked pairs only. Neither may change an answer.
//!
//! Three parts: paths of which most pairs are on an edge of the sieve (`edges.rs`, `stars.rs`), rows at each place of a block
//! (`blocks.rs`, `places.rs`), and listings with many rows in each form of the call (`grids.rs`, `marks.rs`).

mod blocks;
mod edges;
mod forms;
mod grids;
mod lines;
mod marks;
mod places;
mod run;
#[cfg(test)]
mod stand_in;
mod stars;
#[cfg(test)]
mod tests;

use run::Run;

use crate::capi::Rows;
use crate::listings::layout;
use crate::listings::model::Listed;
use crate::{boxed, large, month};

/// After so many differences a run ends.
const ENOUGH: u64 = 1000;

/// Our calls: the full listing, the boxed one, the counted one, and those with large arcs.
#[derive(Clone, Copy)]
pub struct Ours {
    full: fn(Listed, f64, Rows) -> u64,
    boxed: fn(Listed, f64, &mut [f64], Rows) -> u64,
    counted: fn(Listed, f64, Rows, &mut [u64]) -> u64,
    large: large::Ours,
}

const OURS: Ours = Ours {
    full: layout::ours,
    boxed: boxed::ours,
    counted: month::ours,
    large: large::OURS,
};

/// Compares listings until `count / 2` pairs lie on each side of each edge of the sieve: just below it, at it and just above it;
/// until as many pairs were in listings of each size about a block; and on listings with many rows in every form. Answers how
/// many differences there were, plus the sides with too few pairs and the kinds that never occurred.
pub fn check(count: u64, seed: u64) -> u64 {
    let mut run = Run::new(OURS, count, seed, ENOUGH);
    run.all();
    run.report()
}
