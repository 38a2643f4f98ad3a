//! The paths: over a sheet, in short steps, and around a pocket.

use cavalier_contours::polyline::{pline_seg_intr, PlineSegIntr, PlineVertex};

use crate::inputs::{Point, Vertex};
use crate::listings::shapes::{pocket, vertex};
use crate::listings::sheets::EPSILONS;
use crate::rng::Rng;

/// Coordinates on the sheet go as far, either way.
const SHEET: f64 = 32_000.0;
/// Bulges of arcs, either way.
const FLATTEST: f64 = 0.05;
const ROUNDEST: f64 = 1.0;
/// How long a step of a walk is.
const SHORTEST: f64 = 1.0;
const LONGEST: f64 = 10.0;
/// How far apart two walks start.
const APART: f64 = 6.0;

/// Of which segments two paths over a sheet are.
pub struct Sort {
    pub name: &'static str,
    pub file: &'static str,
    /// Whether each path is of arcs.
    arcs: [bool; 2],
    /// So far a segment goes at most in x and in y: with this, a twelfth of all pairs meet.
    reach: f64,
}

const fn sort(name: &'static str, file: &'static str, arcs: [bool; 2], reach: f64) -> Sort {
    Sort {
        name,
        file,
        arcs,
        reach,
    }
}

pub const SORTS: [Sort; 4] = [
    sort("line and line", "line-line", [false, false], 29_000.0),
    sort("line and arc", "line-arc", [false, true], 27_000.0),
    sort("arc and line", "arc-line", [true, false], 27_000.0),
    sort("arc and arc", "arc-arc", [true, true], 25_000.0),
];

/// Two paths of so many segments, with vertices anywhere on the sheet.
pub fn over_a_sheet(sort: &Sort, segments: usize, rng: &mut Rng) -> [Vec<Vertex>; 2] {
    sort.arcs.map(|arcs| {
        let mut at = Point::default();
        let mut next = || {
            at = Point {
                x: within(at.x, sort.reach, rng),
                y: within(at.y, sort.reach, rng),
            };
            let bulge = match arcs {
                true => rng.sign() * rng.between(FLATTEST, ROUNDEST),
                false => 0.0,
            };
            Vertex { at, bulge }
        };
        (0..=segments).map(|_| next()).collect()
    })
}

/// A coordinate on the sheet, at most so far from the last one.
fn within(last: f64, reach: f64, rng: &mut Rng) -> f64 {
    loop {
        let next = last + rng.between(-reach, reach);
        if next.abs() <= SHEET {
            return next;
        }
    }
}

/// Two walks of so many lines each, by turns, that start side by side in the middle of a small sheet. A step that meets the other
/// walk, or leaves the sheet, is drawn again.
pub fn walks(steps: usize, rng: &mut Rng) -> [Vec<Vertex>; 2] {
    // so small that each walk has to go around the other
    let sheet = 2.0 * (steps as f64).sqrt();
    let mut walks = [-APART, APART].map(|x| vec![vertex(x / 2.0, 0.0, 0.0)]);
    for _ in 0..steps {
        for at in 0..2 {
            let next = step(&walks[at], &walks[1 - at], sheet, rng);
            walks[at].push(next);
        }
    }
    walks
}

fn step(walk: &[Vertex], other: &[Vertex], sheet: f64, rng: &mut Rng) -> Vertex {
    let from = walk[walk.len() - 1];
    loop {
        let [x, y] = [0; 2].map(|_| rng.between(-LONGEST, LONGEST));
        let way = Point { x, y };
        let at = from.at.along(way, 1.0);
        let is_step = (SHORTEST..=LONGEST).contains(&way.length());
        if !is_step || at.x.abs() > sheet || at.y.abs() > sheet {
            continue;
        }
        let to = Vertex { at, bulge: 0.0 };
        if !other.windows(2).any(|ends| meet([from, to], ends)) {
            return to;
        }
    }
}

/// Whether two lines meet with any epsilon that is timed.
fn meet([v1, v2]: [Vertex; 2], ends: &[Vertex]) -> bool {
    let vertex = |v: Vertex| PlineVertex::new(v.at.x, v.at.y, v.bulge);
    let [v1, v2, u1, u2] = [v1, v2, ends[0], ends[1]].map(vertex);
    EPSILONS.iter().any(|epsilon| {
        let answer = pline_seg_intr(v1, v2, u1, u2, *epsilon);
        !matches!(answer, PlineSegIntr::NoIntersect)
    })
}

/// A pocket with four corners, of which the two to the right are rounded or cut off, to be closed.
pub fn pocket_of_six(center: Point, rounded: bool) -> Vec<Vertex> {
    let (width, height) = (120.0, 90.0);
    let mut outline = pocket(center, width, height, 5.0)[1..5].to_vec();
    for y in [height / 2.0, -height / 2.0] {
        outline.push(vertex(center.x - width / 2.0, center.y + y, 0.0));
    }
    if !rounded {
        outline.iter_mut().for_each(|v| v.bulge = 0.0);
    }
    outline
}
