//! A right stand-in for the library, which must pass; and wrong ones, on either side and on both, which the search must find.

use super::calls::{OURS, TEXT};
use super::listed::FORMS;
use super::run::Run;
use super::stand_in::{set, set_listing, DEFECTS, STAND_IN, TEXT_STAND_IN};
use super::{examples, LEAST};

const SEED: u64 = 1;
const INPUTS: u64 = 1 << 18;

/// Searches until something is found.
fn run(ours: &'static str, text: &'static str) -> Run {
    set(ours, text);
    let mut run = Run::new(STAND_IN, TEXT_STAND_IN, SEED, 1);
    run.inputs(INPUTS);
    run
}

#[test]
fn a_right_stand_in_passes() {
    set("", "");
    let mut run = Run::new(STAND_IN, TEXT_STAND_IN, SEED, 1);
    run.examples();
    run.inputs(LEAST);
    assert_eq!(run.report(), 0);
}

/// What is on both sides makes no difference between them: the sentence finds it.
#[test]
fn a_defect_of_both_sides_is_a_breach() {
    for (defect, sentence) in DEFECTS {
        let (breaches, differences) = run(defect, defect).found();
        assert!(breaches[sentence] > 0, "not found: {defect}");
        assert_eq!(breaches.iter().sum::<u64>(), breaches[sentence], "{defect}");
        assert_eq!(differences, 0, "{defect}");
    }
}

#[test]
fn a_defect_of_the_library_is_a_breach() {
    for (defect, sentence) in DEFECTS {
        let (breaches, _) = run(defect, "").found();
        assert!(breaches[sentence] > 0, "not found: {defect}");
    }
}

#[test]
fn a_defect_of_the_text_is_a_breach() {
    for (defect, sentence) in DEFECTS {
        let (breaches, _) = run("", defect).found();
        assert!(breaches[sentence] > 0, "not found: {defect}");
    }
}

/// In the rows of each listing by itself, in both modes.
#[test]
fn a_defect_of_one_listing_is_a_breach() {
    let defects = [
        ("the first point made of two ends", 1),
        ("a NaN in the last place of one point", 0),
        ("far points are infinite", 0),
    ];
    for (defect, sentence) in defects {
        for large in [false, true] {
            for at in 0..FORMS.len() {
                set_listing(defect, large, at);
                let mut run = Run::new(STAND_IN, TEXT_STAND_IN, SEED, 1);
                run.rows_only(INPUTS);
                let (breaches, _) = run.found();
                assert!(breaches[sentence] > 0, "{defect}, {large}, {:?}", FORMS[at]);
            }
        }
    }
}

/// A run that looks at nothing has shown nothing.
#[test]
fn what_never_occurred_is_a_failure() {
    set("", "");
    assert!(Run::new(STAND_IN, TEXT_STAND_IN, SEED, 1).report() > 0);
}

/// The library and the text, and a defect that the examples show.
#[test]
fn the_examples() {
    for example in examples::all() {
        assert_eq!(example.wrong(&OURS, TEXT), None, "{}", example.name);
    }
    set("far points are infinite", "");
    let wrong = |example: &&examples::Example| example.wrong(&STAND_IN, TEXT_STAND_IN).is_some();
    assert_eq!(examples::all().iter().filter(wrong).count(), 2);
}
