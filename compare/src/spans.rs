//! Listings at the edges of the quick test by spans, compared with the model of listings, over the Rust's pair function. The test
//! shows of a line and an arc, or of two arcs, that both computed points lie off one of the two, without a root; the listing then
//! gives no row for the pair. It may not change an answer.
//!
//! Two parts: pairs on each side of each edge by construction (`line_arc.rs`, `line_sizes.rs`,
//! `arc_arc.rs`), one by one, in one path, and many in
//! one listing, in four forms of the call; and listings of paths all over a sheet (`sheet.rs`). A model of the test (`model.rs`)
//! counts the pairs that it judges, so that a run can say that it was in play.

mod arc_arc;
mod edges;
mod forms;
mod line_arc;
mod line_sizes;
mod model;
mod run;
mod seen;
mod shapes;
mod sheet;
#[cfg(test)]
mod stand_in;
#[cfg(test)]
mod tests;

use run::Run;

/// After so many differences a run ends.
const ENOUGH: u64 = 1000;

/// Compares listings until `count / 2` pairs lie on each side of each edge, and as many pairs of each sort were on sheets. Answers
/// how many differences there were, plus the sides with too few pairs or with answers that are not as expected, and the parts
/// in which the shortcut judged too few.
pub fn check(count: u64, seed: u64) -> u64 {
    let mut run = Run::new(forms::ours, count, seed, ENOUGH);
    run.all();
    run.report()
}
