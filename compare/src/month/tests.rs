//! A right stand-in for the library, which must pass; and wrong ones, which the comparison must notice.

use super::examples;
use super::run::Run;
use super::stand_in::{self, STAND_IN};
use crate::listings::stand_in::{OF_CHECKS, OF_PAIRS};

const INPUTS: u64 = 1 << 17;

/// Compares until the first difference.
fn run(defect: &'static str, of: usize) -> Run {
    stand_in::set(defect, of);
    let mut run = Run::new(STAND_IN, INPUTS, 1, 1);
    run.all(INPUTS);
    run
}

fn is_found(defect: &'static str, of: usize) {
    assert!(!run(defect, of).goes_on(), "not found: {defect}, {of}");
}

#[test]
fn a_right_stand_in_passes() {
    assert_eq!(run("", 0).report(), 0);
}

#[test]
fn examples_of_the_model() {
    stand_in::set("", 0);
    assert_eq!(examples::wrong(STAND_IN), Vec::<String>::new());
}

/// What the request names.
#[test]
fn the_request_wrong_programs_are_found() {
    for defect in [
        "8 not counted",
        "a refused layout adds its pairs",
        "rows counted as class 0",
        "the 10,001st accepted",
        "19 after 4",
        "join by maximum",
        "passed pairs counted",
    ] {
        is_found(defect, 0);
    }
    for word in 0..40 {
        is_found("a word is forgotten in a join", word);
    }
}

#[test]
fn wrong_counts_are_found() {
    for defect in [
        "a refused layout is no layout",
        "8 is no layout",
        "a refused layout adds its classes",
        "a refused layout adds the rows that fit",
        "15 counted as 16",
        "11 and 12 counted as 1",
        "refusals one word before",
        "refusals one word behind",
        "refusals by their last three bits",
        "all refusals in one word",
        "a layout without pairs is no layout",
        "a layout without rows is no layout",
        "rows for pairs",
        "passed pairs counted as class 0",
        "pairs of one trace are counted",
        "pairs of one trace that meet are counted",
        "class 0 is not counted",
        "rows behind the 2,048th not counted",
        "rows behind the 2,048th counted twice",
        "a layout adds a class once",
        "lines and arcs exchanged",
        "tangent counted as one",
        "words of 32 bits",
        "words of 63 bits",
        "words as floats",
        "words of refusals cleared",
        "the next word overwritten",
        "no room counts a layout",
        "the plain listing has another word",
    ] {
        is_found(defect, 0);
    }
    // layouts, pairs, classes, and the refusals that a layout can have
    for word in (0..8).chain(super::draw::NUMBERS.map(|number| 8 + number as usize)) {
        is_found("a word is not counted", word);
        is_found("a word is overwritten", word);
    }
}

#[test]
fn wrong_19s_are_found() {
    for defect in [
        "the 10,000th refused",
        "only exactly 10,000 layouts are too many",
        "layouts of 32 bits",
        "layouts with a sign",
        "layouts are not looked at",
        "a word at its most refused",
        "a word beyond its most accepted",
        "words up to 2^64 - 1",
        "words up to 2^63",
        "room for 16,777,216",
        "refusals' words are not looked at",
        "19 after lengths",
        "19 after the numbers",
        "19 after chords",
        "19 last",
        "19 last, and what comes before it counted",
        "19 counted",
        "19 counts a layout",
        "19 begins a fresh report",
        "19 clears the counts",
        "19 writes the rows",
        "19 with the rows' item",
        "19 with the boxes' item",
        "19 with an owner",
        "19 with an index",
        "20 for 19",
        "19 before no room for counts",
        "a report too short is 19",
        "a fault before no room for a report",
        "39 words are enough",
        "41 words are needed",
    ] {
        is_found(defect, 0);
    }
    for word in 1..40 {
        is_found("a word is not looked at", word);
    }
}

#[test]
fn wrong_joins_are_found() {
    for defect in [
        "join: 39 words are enough",
        "join: 41 words are needed",
        "join: the first may be short",
        "join: the second may be short",
        "join: some words joined before 19",
        "join: 19 clears the first",
        "join: 8 for 19",
        "join: saturates",
        "join: wraps round",
        "join: words of 32 bits",
        "join: the second put in place of the first",
        "join: or",
        "join: the next word is joined",
        "join: the next word cleared",
        "join: answers 1",
        "join: layouts wrap round",
        "join: 10,001 layouts joined",
        "join: 10,000 layouts refused",
        "join: a full first report refused",
        "join: any layouts",
        "join: 2^64 - 1 refused",
        "join: words up to a counted listing's most",
    ] {
        is_found(defect, 0);
    }
    for word in 0..40 {
        is_found("a word is taken in a join", word);
        is_found("join: a word's sum is not looked at", word);
    }
}

/// Those of a listing: pairs of one trace, and checks.
#[test]
fn wrong_listings_are_found() {
    let others = [
        "traces of one path are not compared",
        "neighbours are not passed over",
        "only neighbours are passed over",
    ];
    for defect in OF_PAIRS.into_iter().chain(OF_CHECKS) {
        // those are right for two paths
        if !others.contains(&defect) {
            is_found(defect, 0);
        }
    }
}
