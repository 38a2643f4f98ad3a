//! Neighbours in self listings, full, paged and boxed, compared with the model of listings: joints of lines and of arcs in every
//! kind, folds, points that are near to a shared vertex by a last bit, and every short path on a small grid, which is judged by
//! whole numbers too.

mod beside;
mod draw;
mod examples;
mod grid;
mod joint;
mod kinds;
mod run;
#[cfg(test)]
mod stand_in;
#[cfg(test)]
mod tests;

use run::Run;

use crate::boxed;
use crate::capi::{Rows, Span};
use crate::listings::layout;
use crate::listings::model::Listed;
use crate::pages;

/// After so many differences a run ends.
const ENOUGH: u64 = 1000;

/// Our calls: the full listing, a page, and the boxed listing.
#[derive(Clone, Copy)]
pub struct Ours {
    full: fn(Listed, f64, Rows) -> u64,
    page: fn(Listed, f64, Span, Rows) -> u64,
    boxed: fn(Listed, f64, &mut [f64], Rows) -> u64,
}

const OURS: Ours = Ours {
    full: layout::ours,
    page: pages::ours,
    boxed: boxed::ours,
};

/// Compares self listings with examples worked out by hand; on all short paths of lines on a small grid, of which some are asked
/// in pages and boxed too; and on `count / 512` drawn paths, each again with epsilons beside the distances of its points. Answers
/// how many differences there were, plus the kinds of joint that never occurred.
pub fn check(count: u64, seed: u64) -> u64 {
    let mut run = Run::new(OURS, seed, ENOUGH);
    run.all(count);
    run.report()
}
