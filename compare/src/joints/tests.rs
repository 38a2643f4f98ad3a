//! A right stand-in for the library, which must pass; and wrong ones, which the comparison must notice, in each of the calls.

use super::grid::{judge, Count};
use super::run::Run;
use super::stand_in::{self, Of, STAND_IN};
use crate::listings::stand_in::OF_PAIRS;
use crate::listings::FULL;
use crate::search::plane::Spot;

const SEED: u64 = 1;

#[test]
fn a_right_stand_in_passes() {
    stand_in::set("", Of::Full);
    let mut run = Run::new(STAND_IN, SEED, 1);
    run.all(FULL);
    assert_eq!(run.report(), 0);
}

const DEFECTS: [&str; 43] = [
    "neighbours passed over",
    "the next one passed over",
    "the closing one passed over",
    "silent pairs are not counted",
    "neighbours never make a row",
    "neighbours always make a row",
    "the closing joint forgotten",
    "the closing joint at the last vertex",
    "vertex 0 only at two segments",
    "vertex 1 only at two segments",
    "the vertex before",
    "the vertex behind",
    "any end of the two",
    "an open path's ends are neighbours",
    "neighbours by their places",
    "over a segment without length",
    "the default epsilon",
    "at least the default epsilon",
    "twice epsilon",
    "half of epsilon",
    "distance for coordinates",
    "the root of the distance for coordinates",
    "the sum of both",
    "x only",
    "y only",
    "at most for less",
    "at most for less, in x",
    "at most for less, in y",
    "without the magnitude, in x",
    "without the magnitude, in y",
    "the other's magnitude",
    "only the same place",
    "overlaps silent",
    "lines on each other silent",
    "arcs on each other silent",
    "overlaps tested like the others",
    "tangent joints make rows",
    "joints of one point make rows",
    "joints of two points make rows",
    "only the first of two points",
    "only the last of two points",
    "one near point is enough",
    "all points near to the same vertex",
];

/// Each in the full listing, in pages and in the boxed listing, by drawn paths alone.
#[test]
fn wrong_stand_ins_are_found() {
    for defect in DEFECTS {
        for of in [Of::Full, Of::Page, Of::Boxed] {
            stand_in::set(defect, of);
            let mut run = Run::new(STAND_IN, SEED, 1);
            run.drawn(1 << 14);
            assert!(!run.goes_on(), "not found: {defect}, {of:?}");
        }
    }
}

/// Neighbours of one trace, in each of the calls.
#[test]
fn wrong_traces_are_found() {
    let of_two_paths = "traces of two paths are not compared";
    let of_all = OF_PAIRS
        .into_iter()
        .filter(|defect| *defect != of_two_paths);
    let find = |defect: &'static str, of: Of| {
        stand_in::set(defect, of);
        let mut run = Run::new(STAND_IN, SEED, 1);
        run.drawn(1 << 14);
        assert!(!run.goes_on(), "not found: {defect}, {of:?}");
    };
    for defect in of_all.chain(["neighbours of one trace that fold make a row"]) {
        for of in [Of::Full, Of::Page, Of::Boxed] {
            find(defect, of);
        }
    }
    for of in [Of::Full, Of::Boxed] {
        find("neighbours of one trace are counted", of);
    }
    find("neighbours of one trace have no position", Of::Page);
}

/// What the judge on the grid says of lines, without a model.
#[test]
fn judged_by_whole_numbers() {
    let spot = |[x, y]: [i64; 2]| Spot { x, y };
    let wrong = |points: &[[i64; 2]], closed: bool, rows: &[[u64; 2]]| {
        let spots: Vec<Spot> = points.iter().map(|p| spot(*p)).collect();
        let indices: Vec<u64> = rows.iter().flat_map(|[i, j]| [*i, *j, 4]).collect();
        judge(&spots, closed, &indices, &mut Count::default())
    };
    let fold = [[0, 0], [5, 0], [2, 0]];
    let corner = [[0, 0], [5, 0], [5, 1]];
    assert!(wrong(&fold, false, &[]) && !wrong(&fold, false, &[[0, 1]]));
    assert!(!wrong(&corner, false, &[]) && wrong(&corner, false, &[[0, 1]]));
    assert!(!wrong(&corner, true, &[]) && wrong(&corner, true, &[[0, 2]]));
    assert!(!wrong(&fold, true, &[[0, 1], [0, 2]]) && wrong(&fold, true, &[[0, 1]]));
    assert!(!wrong(&fold[..2], true, &[[0, 1]]) && wrong(&fold[..2], true, &[]));
    assert!(!wrong(&[[3, 3], [3, 3]], true, &[]) && wrong(&[[3, 3], [3, 3]], true, &[[0, 1]]));
    // no neighbours are not judged
    let square = [[0, 0], [1, 0], [1, 1], [0, 1]];
    assert!(!wrong(&square, true, &[[0, 2]]) && wrong(&square, true, &[[0, 3]]));
}
