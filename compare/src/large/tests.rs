//! A right stand-in for the library, which must pass; and wrong ones, which the comparison must notice.

use super::examples;
use super::run::Run;
use super::stand_in::{
    self, NAMED, OF_CHECKS, OF_FORMS, OF_LISTINGS, OF_PAIRS, OF_THE_CUT, STAND_IN,
};

const INPUTS: u64 = 1 << 17;

/// Compares until the first difference.
fn run(defect: &'static str) -> Run {
    stand_in::set(defect);
    let mut run = Run::new(STAND_IN, 1, 1);
    run.all(INPUTS);
    run
}

fn are_found(defects: &[&'static str]) {
    for defect in defects {
        assert!(!run(defect).goes_on(), "not found: {defect}");
    }
}

#[test]
fn a_right_stand_in_passes() {
    let mut run = run("");
    run.circles(INPUTS);
    assert_eq!(run.report(), 0);
}

#[test]
fn examples_of_the_model() {
    stand_in::set("");
    assert_eq!(examples::wrong(STAND_IN), Vec::<String>::new());
}

/// What the issue names.
#[test]
fn the_issue_s_wrong_programs_are_found() {
    are_found(&NAMED);
}

#[test]
fn wrong_cuts_are_found() {
    are_found(&OF_THE_CUT);
}

#[test]
fn wrong_checks_are_found() {
    are_found(&OF_CHECKS);
}

#[test]
fn wrong_listings_are_found() {
    are_found(&OF_LISTINGS);
}

#[test]
fn wrong_forms_are_found() {
    are_found(&OF_FORMS);
}

#[test]
fn wrong_pair_calls_are_found() {
    are_found(&OF_PAIRS);
}
