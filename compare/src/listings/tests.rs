//! A right stand-in for the listings, which must pass; and wrong ones, which the comparison must notice.

use super::stand_in::{self, OF_CHECKS, OF_PAIRS};
use super::*;

const INPUTS: u64 = 1 << 17;

/// Compares until the first difference.
fn run(defect: &'static str) -> Run {
    stand_in::set(defect);
    let mut run = Run::new(stand_in::full, INPUTS, 1, 1);
    run.all(INPUTS);
    run
}

#[test]
fn a_right_stand_in_passes() {
    assert_eq!(run("").report(), 0);
}

#[test]
fn wrong_stand_ins_are_found() {
    let counts = [
        "pairs of one trace are counted",
        "pairs of one trace that meet are counted",
    ];
    for defect in OF_PAIRS.into_iter().chain(OF_CHECKS).chain(counts) {
        assert!(!run(defect).goes_on(), "not found: {defect}");
    }
}
