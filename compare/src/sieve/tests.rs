//! A right stand-in for the library, which must pass; and wrong ones, which the comparison must notice.

use super::forms::FORMS;
use super::stand_in::{set, OF_BLOCKS, OF_MARKS, OF_TEST, STAND_IN};
use super::*;

const COUNT: u64 = 1 << 13;

/// Part of a run, until the first difference.
fn is_found(defect: &'static str, only: Option<forms::Form>, part: fn(&mut Run)) -> bool {
    set(defect, only);
    let mut run = Run::new(STAND_IN, COUNT, 1, 1);
    part(&mut run);
    !run.goes_on()
}

#[test]
fn a_right_stand_in_passes() {
    set("", None);
    let mut run = Run::new(STAND_IN, COUNT, 1, 1);
    run.all();
    assert_eq!(run.report(), 0);
}

#[test]
fn a_wrong_test_is_found() {
    for defect in OF_TEST {
        let part = |run: &mut Run| {
            run.on_edges();
            run.about_blocks();
        };
        assert!(is_found(defect, None, part), "not found: {defect}");
    }
}

#[test]
fn wrong_blocks_are_found() {
    for defect in OF_BLOCKS {
        let found = is_found(defect, None, Run::about_blocks);
        assert!(found, "not found: {defect}");
    }
}

#[test]
fn wrong_marks_are_found() {
    for defect in OF_MARKS {
        let found = is_found(defect, None, Run::with_marks);
        assert!(found, "not found: {defect}");
    }
}

/// Each form is looked at, not only the first.
#[test]
fn wrong_marks_of_one_form_are_found() {
    let defects = [
        "a mark forgotten",
        "a mark set one place off",
        "8 if all rows fit exactly",
        "rows that do not fit are left out",
        "rows are written before 8",
    ];
    for (defect, form) in defects
        .into_iter()
        .flat_map(|of| FORMS.map(|form| (of, form)))
    {
        let found = is_found(defect, Some(form), Run::with_marks);
        assert!(found, "not found: {defect}, {form:?}");
    }
}
