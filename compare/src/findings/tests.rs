//! The model on pairs worked out by hand. A right stand-in for the library, which must pass; and wrong ones, which the comparison
//! must notice.

use super::examples;
use super::run::Run;
use super::stand_in::{self, STAND_IN};
use super::story;
use super::{least, model, whole};

const SEED: u64 = 1;
const FEW: u64 = 1 << 20;

/// The log and the request's words give what was worked out by hand.
#[test]
fn the_model_on_examples() {
    let mut events = Vec::new();
    for example in examples::all() {
        let ((class, _), story) = story::run(&example.numbers(), &mut events);
        let found = model::findings(&story.expect("the log can be read"));
        let (name, stated, findings) = example.stated();
        assert_eq!((class, found), (stated, findings), "{name}");
    }
}

#[test]
fn a_right_stand_in_passes() {
    stand_in::set("");
    let mut run = Run::new(STAND_IN, SEED, 1);
    whole(&mut run, FEW, least(FEW));
    assert_eq!(run.report(least(FEW)), 0);
}

const DEFECTS: [&str; 61] = [
    "refused before the room",
    "room for points is not asked",
    "room for findings is not asked",
    "too little room writes",
    "a refusal writes findings",
    "a refusal writes points",
    "a refusal without its place",
    "a fifth finding",
    "findings by arcs",
    "u before v",
    "points are not written",
    "tangent told as one",
    "behind the centre too",
    "at most for less, at a ray",
    "half of epsilon at a ray",
    "at most for less, at the centre",
    "inside without the ray of the start",
    "inside without the ray of the end",
    "the end before the start",
    "inside before the centre",
    "a ray before inside",
    "the last yes rule",
    "start and end exchanged",
    "clockwise from the other end",
    "all inside",
    "near the centre is inside",
    "near a ray is inside",
    "lines are outside",
    "a line's end point",
    "a line's entry as the arc's",
    "not tested for end point",
    "a range without epsilon",
    "a range with its edge",
    "out of range is outside",
    "tested though out of range",
    "nothing found is outside",
    "a touching end keeps its finding",
    "only the line's first end stands in",
    "a touching point told twice",
    "a touching point told second",
    "a tie goes to the first",
    "always the first",
    "always the last",
    "an end stands in where none counted",
    "one counted keeps its finding",
    "both told as ends",
    "one counted comes first",
    "only one of two ends",
    "not exchanged",
    "exchanged beside a line too",
    "a tie in order",
    "ordered by the computed points",
    "end point for v only",
    "end point for u only",
    "the second arc always tested",
    "u is asked first",
    "outside both",
    "one circle is reported",
    "ends of one circle are end points",
    "ends of u only",
    "ends are kept twice",
];

/// These too, of two crossing arcs.
const OF_CROSSING_ARCS: [&str; 3] = [
    "one end takes both places",
    "two ends take one place",
    "two ends, and one counted: by places",
];

/// By drawn and made pairs alone, without the examples.
#[test]
fn wrong_stand_ins_are_found() {
    for defect in DEFECTS.iter().chain(&OF_CROSSING_ARCS) {
        stand_in::set(defect);
        let mut run = Run::new(STAND_IN, SEED, 1);
        run.made(0..1 << 18, u64::MAX);
        if run.goes_on() {
            run.damaged(1);
        }
        assert!(!run.goes_on(), "not found: {defect}");
    }
}

/// The wrong programs that the request names, by the examples alone.
#[test]
fn examples_find_the_request_s_own() {
    for defect in [
        "the end before the start",
        "the second arc always tested",
        "not tested for end point",
        "not exchanged",
        "all inside",
        "one circle is reported",
    ] {
        stand_in::set(defect);
        let mut run = Run::new(STAND_IN, SEED, 1);
        run.examples();
        assert!(!run.goes_on(), "not found: {defect}");
    }
}
