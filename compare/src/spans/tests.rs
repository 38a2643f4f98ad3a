//! A right stand-in for the library, which must pass; and wrong ones, which the comparison must notice.

use super::forms::{Form, FORMS};
use super::stand_in::{listed_by, set, OF_ROWS, OF_RULE};
use super::*;

const COUNT: u64 = 1 << 11;

/// A run on the edges, until the first difference.
fn is_found(defect: &'static str, only: Option<Form>) -> bool {
    set(defect, only);
    let mut run = Run::new(listed_by, COUNT, 1, 1);
    run.on_edges();
    !run.goes_on()
}

/// Its rule is the shortcut's, so no pair that the rule judges has a row.
#[test]
fn a_right_stand_in_passes() {
    set("", None);
    let mut run = Run::new(listed_by, COUNT, 1, 1);
    run.all();
    assert_eq!(run.report(), 0);
}

/// Those of the defects that are not found.
fn unfound(defects: &[&'static str]) -> Vec<&'static str> {
    let all = defects.iter().copied();
    all.filter(|defect| !is_found(defect, None)).collect()
}

#[test]
fn a_wrong_rule_is_found() {
    assert_eq!(unfound(&OF_RULE), Vec::<&str>::new());
}

#[test]
fn lost_rows_are_found() {
    assert_eq!(unfound(&OF_ROWS), Vec::<&str>::new());
}

/// Each form is looked at, not only the first.
#[test]
fn a_wrong_form_is_found() {
    for form in FORMS {
        let defect = "only the first point must miss";
        assert!(is_found(defect, Some(form)), "not found: {form:?}");
    }
}

/// Typical pairs alone would show some defects too.
#[test]
fn sheets_show_a_defect() {
    for defect in ["each arc goes to the left", "rows of arcs to the right"] {
        set(defect, None);
        let mut run = Run::new(listed_by, COUNT, 1, 1);
        run.on_sheets();
        assert!(!run.goes_on(), "not found: {defect}");
    }
}
