//! A stand-in for the library, right or with a defect in its quick test. It takes the rows from the model of listings, and loses
//! those of pairs that a test with this defect judges.

use std::cell::Cell;

use super::forms::{rows_of, Form};
use super::model::{is_line, Rule, RULE};
use super::run::segment;
use super::seen::{Arcs, LineArc};
use crate::capi::Rows;
use crate::crossing::NO_ROOM;
use crate::inputs::{Pair, Point};
use crate::listings::model::{no_row_left, row_room, Listed, Row};

/// Defects of the test's rule, which only some pairs show. That a point is not near the centre needs no stand-in: one that is
/// lies beside both ends' rays, and that is looked at too.
pub const OF_RULE: [&str; 23] = [
    "31/32 for 33/32",
    "1 for 33/32",
    "65/64 for 33/32",
    "0 for -1/32",
    "-1/64 for -1/32",
    "any length is usual",
    "lengths from 2^-6 on are usual",
    "any epsilon is usual",
    "any line goes through",
    "a root's span has no width below",
    "a root's span has no width above",
    "points nearer than epsilon are two",
    "a point beside the start is off the sweep",
    "a point beside the end is off the sweep",
    "each arc goes to the left",
    "only the first point must miss",
    "only the second point must miss",
    "the coordinate that changes less",
    "no end of an arc is looked at",
    "the first arc's ends are not looked at",
    "the second arc's ends are not looked at",
    "centres nearer than epsilon are two",
    "the middle is on the second's side",
];

/// Rows that are lost by what they are.
pub const OF_ROWS: [&str; 12] = [
    "rows within a 16th of the line's end",
    "rows within a hundredth of an arc's end",
    "rows of lines about as far as the radius",
    "rows of lines about as far as 255/256 of the radius",
    "rows of arcs to the right",
    "rows of half circles",
    "rows of flat arcs",
    "rows of level lines",
    "rows of the longest lines",
    "rows of circles of one size",
    "rows of a small circle and a large one",
    "rows with an epsilon of 1/2",
];

thread_local! {
    static DEFECT: Cell<&'static str> = const { Cell::new("") };
    /// The only form that has the defect, if it is only one.
    static ONLY: Cell<Option<Form>> = const { Cell::new(None) };
}

/// Gives the stand-in a defect, or none if the name is empty: in each form, or in only one.
pub fn set(defect: &'static str, only: Option<Form>) {
    DEFECT.set(defect);
    ONLY.set(only);
}

pub fn listed_by(form: Form, listed: Listed, epsilon: f64, lent: Rows) -> u64 {
    if lent.counts.len() < 2 {
        return NO_ROOM;
    }
    let (mut rows, pairs) = rows_of(form, listed, epsilon);
    let paths = listed.paths();
    let (first, second) = (paths[0], paths[paths.len() - 1]);
    let has = ONLY.get().is_none_or(|only| only == form);
    let defect = if has { DEFECT.get() } else { "" };
    let rule = rule(defect);
    rows.retain(|row| {
        let [i, j] = row.indices.map(|index| index as usize);
        let (v, u) = (segment(first, i), segment(second, j));
        let pair = Pair { v, u, epsilon };
        !rule.misses(&pair) && !is_lost(defect, &pair, row)
    });
    if rows.len() > row_room(lent.indices.len(), lent.points.len()) {
        return no_row_left().word();
    }
    for (k, row) in rows.iter().enumerate() {
        let [i, j] = row.indices;
        lent.indices[3 * k..3 * k + 3].copy_from_slice(&[i, j, row.class]);
        lent.points[4 * k..4 * k + 4].copy_from_slice(&row.points);
    }
    lent.counts[..2].copy_from_slice(&[rows.len() as u64, pairs]);
    0
}

fn rule(defect: &str) -> Rule {
    let mut rule = RULE;
    match defect {
        "31/32 for 33/32" => rule.after = 31.0 / 32.0,
        "1 for 33/32" => rule.after = 1.0,
        "65/64 for 33/32" => rule.after = 65.0 / 64.0,
        "0 for -1/32" => rule.before = 0.0,
        "-1/64 for -1/32" => rule.before = -1.0 / 64.0,
        "any length is usual" => rule.least = 0.0,
        "lengths from 2^-6 on are usual" => rule.least /= 4.0,
        "any epsilon is usual" => rule.largest = 1.0,
        "any line goes through" => rule.inside = 1.0,
        "a root's span has no width below" => (rule.width[0], rule.holds) = (1.0, false),
        "a root's span has no width above" => (rule.width[1], rule.holds) = (1.0, false),
        "points nearer than epsilon are two" => rule.apart = 0.0,
        "a point beside the start is off the sweep" => rule.near[0] = false,
        "a point beside the end is off the sweep" => rule.near[1] = false,
        "each arc goes to the left" => rule.direction = false,
        "only the first point must miss" => rule.points[1] = false,
        "only the second point must miss" => rule.points[0] = false,
        "the coordinate that changes less" => rule.larger = false,
        "no end of an arc is looked at" => rule.ends = [false; 2],
        "the first arc's ends are not looked at" => rule.ends[0] = false,
        "the second arc's ends are not looked at" => rule.ends[1] = false,
        "centres nearer than epsilon are two" => rule.centers = false,
        "the middle is on the second's side" => rule.signed = false,
        _ => {}
    }
    rule
}

fn is_lost(defect: &str, pair: &Pair, row: &Row) -> bool {
    let at = Point {
        x: row.points[0],
        y: row.points[1],
    };
    let line = LineArc::of(pair);
    let arcs = [pair.v, pair.u].into_iter().filter(|s| !is_line(*s));
    let bulges: Vec<f64> = arcs.clone().map(|arc| arc.from.bulge).collect();
    let of_line = |is: &dyn Fn(&LineArc) -> bool| line.as_ref().is_some_and(is);
    let of_arcs = |is: &dyn Fn([f64; 2]) -> bool| Arcs::of(pair).is_some_and(|seen| is(seen.radii));
    let about = |a: f64, b: f64, part: f64| (a - b).abs() < part * b;
    match defect {
        "rows within a 16th of the line's end" => of_line(&|seen| {
            let ends = [seen.line.from.at, seen.line.to.at];
            ends.iter()
                .any(|end| end.to(at).length() < seen.length / 16.0)
        }),
        "rows within a hundredth of an arc's end" => arcs.clone().any(|arc| {
            let near = arc.chord().length() / 100.0;
            [arc.from.at, arc.to.at]
                .iter()
                .any(|end| end.to(at).length() < near)
        }),
        "rows of lines about as far as the radius" => {
            of_line(&|seen| about(seen.distance, seen.radius, 1e-9))
        }
        "rows of lines about as far as 255/256 of the radius" => {
            of_line(&|seen| about(seen.distance, seen.radius * (255.0 / 256.0), 1e-9))
        }
        "rows of arcs to the right" => bulges.iter().any(|bulge| *bulge < 0.0),
        "rows of half circles" => bulges.iter().any(|bulge| bulge.abs() == 1.0),
        "rows of flat arcs" => bulges.iter().any(|bulge| bulge.abs() < 1e-7),
        "rows of level lines" => of_line(&|seen| seen.way.y.abs() < 1e-12 * seen.length),
        "rows of the longest lines" => of_line(&|seen| seen.length > 2_000_000.0),
        "rows of circles of one size" => of_arcs(&|[a, b]| about(a, b, 1e-12)),
        "rows of a small circle and a large one" => of_arcs(&|[a, b]| a / b > 1e3 || b / a > 1e3),
        "rows with an epsilon of 1/2" => !bulges.is_empty() && pair.epsilon == 0.5,
        _ => false,
    }
}
