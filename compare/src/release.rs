//! What the release form says of answers, searched for a breach at the extremes, on the library and on the Rust text:
//!
//! 1. no number of an answer is NaN or infinite;
//! 2. each point of OverlappingArcs is a bit copy of one of the four ends, a cut point being an end of each half;
//! 3. of Overlapping from the line kernel the first parameter is at least 0, the second at most 1.
//!
//! Searched are the kernels, the pair call and the rows of every listing, with large arcs and without. Both sides must answer the
//! same. Stronger sentences that look true are shown to be false.

mod calls;
mod draw;
mod examples;
mod judge;
mod kernels;
mod kinds;
mod listed;
mod numbers;
mod paths;
mod round;
mod rows;
mod run;
mod score;
#[cfg(test)]
mod stand_in;
mod straight;
#[cfg(test)]
mod tests;

use run::Run;

/// After so many breaches and differences a run ends.
const ENOUGH: u64 = 1000;
/// At least so many answers, since some kinds of input are rare.
const LEAST: u64 = 1 << 20;

/// Compares on fixed examples, and until there are `count` answers of the library: three tenths of them from the kernels, three
/// from the pair call, two from the one with large arcs, two of them rows of listings. Answers how many breaches and differences
/// there were, plus what never occurred.
pub fn check(count: u64, seed: u64) -> u64 {
    let mut run = Run::new(calls::OURS, calls::TEXT, seed, ENOUGH);
    run.examples();
    run.inputs(count.max(LEAST));
    run.report()
}
