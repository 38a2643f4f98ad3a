//! The model on boxed listings worked out by hand; a right stand-in for the library, which must pass; and wrong ones, which the
//! comparison must notice.

use super::examples;
use super::model::Boxed;
use super::run::Run;
use super::stand_in::{self, STAND_IN};
use crate::crossing::faults::Fault;
use crate::listings::layout::Drawn;
use crate::listings::model::Listed;
use crate::listings::stand_in::{OF_CHECKS, OF_PAIRS};

const INPUTS: u64 = 1 << 17;

fn drawn(points: &[[f64; 3]], closed: bool) -> Drawn {
    Drawn::of(points.iter().copied(), closed)
}

/// The returned word, by room for the index and for rows.
fn word(boxed: &Boxed, floats: usize, rows: usize) -> u64 {
    boxed.fault(floats, rows).map_or(0, Fault::word)
}

/// What the request says of its own example.
#[test]
fn the_request_example() {
    let lines = [0.0, 0.625].map(|y| drawn(&[[0.0, y, 0.0], [0.375, y, 0.0]], false));
    let [first, second] = lines.each_ref().map(Drawn::path);
    let boxed = Boxed::new(Listed::Mutual(first, second), 0.25);
    assert_eq!((boxed.full_rows, boxed.all_pairs), (1, 1));
    assert_eq!(boxed.counts(), [0, 0]);
    let below = [-0.25, -0.25, 0.625, 0.25];
    let above = [-0.25, 0.375, 0.625, 0.875];
    assert_eq!(boxed.index, [below, below, above, above].concat());
    assert_eq!([word(&boxed, 16, 0), word(&boxed, 15, 0)], [0, 0xc_0111]);
    // a last bit nearer to each other than touching
    let near = drawn(&[[0.0, 0.5, 0.0], [0.375, 0.5, 0.0]], false);
    let boxed = Boxed::new(Listed::Mutual(first, near.path()), 0.25);
    assert_eq!(boxed.counts(), [1, 1]);
    assert_eq!(
        [word(&boxed, 16, 0), word(&boxed, 15, 0)],
        [0x9_0108, 0xc_0111]
    );
    assert_eq!(word(&boxed, 16, 1), 0);
}

/// An arc's box by the chord, an arc that is too flat to be one, and a group of 16 with one of 1.
#[test]
fn boxes_by_hand() {
    let flat = 1e-8f64.next_down();
    let mut points = vec![[0.0, 0.0, -1e-8], [3.0, 4.0, flat], [3.0, 5.0, 0.0]];
    points.extend((0..15).map(|k| [4.0 + f64::from(k), 5.0, 0.0]));
    let path = drawn(&points, false);
    let boxed = Boxed::new(Listed::Own(path.path()), 0.5);
    // 17 segments and 2 groups
    assert_eq!((boxed.floats, boxed.index.len()), (76, 76));
    assert_eq!(boxed.index[..4], [-5.5, -5.5, 8.5, 9.5]);
    assert_eq!(boxed.index[4..8], [2.5, 3.5, 3.5, 5.5]);
    assert_eq!(boxed.index[64..68], [16.5, 4.5, 18.5, 5.5]);
    assert_eq!(boxed.index[68..72], [-5.5, -5.5, 17.5, 9.5]);
    assert_eq!(boxed.index[72..76], [16.5, 4.5, 18.5, 5.5]);
    // each line touches the next but one; the arc, up to 8.5, meets those from 4 to 9
    assert_eq!(boxed.looked_at, boxed.all_pairs - not_met());
}

/// Of the pairs of 17 segments those that do not meet: counted from the ends.
fn not_met() -> u64 {
    // least and greatest x of each segment's box
    let lines = (0..14).map(|k| (3.5 + f64::from(k), 5.5 + f64::from(k)));
    let mut all = vec![(-5.5, 8.5), (2.5, 3.5), (2.5, 4.5)];
    all.extend(lines);
    let mut apart = 0;
    for i in 0..all.len() {
        for j in i + 1..all.len() {
            apart += u64::from(all[i].1 < all[j].0);
        }
    }
    apart
}

#[test]
fn examples_of_the_model() {
    stand_in::set("", false);
    for example in examples::all() {
        assert_eq!(example.wrong(STAND_IN), None);
    }
}

/// Compares until the first difference.
fn run(defect: &'static str, hidden: bool) -> Run {
    stand_in::set(defect, hidden);
    let mut run = Run::new(STAND_IN, INPUTS, 1, 1);
    run.all(INPUTS);
    run
}

#[test]
fn a_right_stand_in_passes() {
    assert_eq!(run("", false).report(), 0);
}

/// Pairs of one trace, as they are looked at and checked, counted, and in the index.
#[test]
fn wrong_traces_are_found() {
    let others = [
        "pairs of one trace are counted",
        "segments of a trace above 0 are not in the index",
        "segments of one trace with each other are not in the index",
        "a group's box of its members of trace 0",
    ];
    for defect in OF_PAIRS.into_iter().chain(OF_CHECKS).chain(others) {
        assert!(!run(defect, false).goes_on(), "not found: {defect}");
    }
    let defect = "a group's box of its members of trace 0";
    assert!(
        !run(defect, true).goes_on(),
        "not found behind an index: {defect}"
    );
}

#[test]
fn wrong_stand_ins_are_found() {
    for defect in [
        "less for at most",
        "less for at most, of groups",
        "less for at most, of segments",
        "less, the first's least x",
        "less, the first's least y",
        "less, the second's least x",
        "less, the second's least y",
        "a last bit apart still meets",
        "boxes meet in x",
        "y is not compared downwards",
        "epsilon only, for arcs",
        "the chord only, for arcs",
        "the chord with one rounding less",
        "the longer side for the chord",
        "half the chord",
        "two subtractions",
        "a last bit outward",
        "the least of the first end",
        "both x, then both y",
        "an arc above 1e-8 only",
        "an arc by any bulge",
        "an arc to the left only",
        "an arc by the next bulge",
        "the closing box is the last but one's",
        "the last group dropped",
        "a group's box of its first member",
        "a group without its last member",
        "15 a group",
        "17 a group",
        "every pair of groups that meet",
        "from group to group",
        "the next one is no pair",
        "the closing pair is none",
        "a segment with itself",
        "the last group not in the index",
        "the one path's index twice",
        "groups before segments",
        "the second's groups before its segments",
        "all segments, then all groups",
        "the second path first",
        "17 if the index fits exactly",
        "17 for less than whole boxes less",
        "17 with pairs only",
        "17 writes what fits",
        "17 before faults",
        "17 with the rows' item",
        "17 with an owner",
        "17 with an index",
        "8 before 17",
        "8 counts the full rows",
        "the index written on 8",
        "8 clears the counts",
        "no index if there are no pairs",
        "no index if no boxes meet",
        "what follows the index overwritten",
        "the last float overwritten",
        "what follows the rows overwritten",
        "passed pairs counted",
        "pairs of groups counted",
        "rows for pairs",
        "another point",
        "the full listing has other points",
        "room for one count",
        "room for counts last",
    ] {
        assert!(!run(defect, false).goes_on(), "not found: {defect}");
    }
}

/// The index is right, but the pairs are found by wrong boxes.
#[test]
fn wrong_boxes_behind_a_right_index_are_found() {
    for defect in [
        "epsilon only, for arcs",
        "the chord only, for arcs",
        "the chord with one rounding less",
        "the longer side for the chord",
        "half the chord",
        "two subtractions",
        "a last bit outward",
        "the least of the first end",
        "an arc above 1e-8 only",
        "an arc by any bulge",
        "an arc to the left only",
        "an arc by the next bulge",
        "the closing box is the last but one's",
        "a group's box of its first member",
        "a group without its last member",
    ] {
        assert!(!run(defect, true).goes_on(), "not found: {defect}");
    }
}
