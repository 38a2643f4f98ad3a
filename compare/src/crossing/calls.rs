//! The calls to compare: on which numbers of a pair each is made, when it is refused, our answer, and the Rust's.

use std::hint::black_box;

use cavalier_contours::core::math::{
    circle_circle_intr, line_circle_intr, line_line_intr, CircleCircleIntr, LineCircleIntr,
    LineLineIntr, Vector2,
};
use cavalier_contours::polyline::{
    pline_seg_intr, seg_arc_radius_and_center, PlineSegIntr, PlineVertex,
};

use super::faults::{chord, two_to, Fault, Item, Order, Place};
use crate::capi;
use crate::inputs::values::power;
use crate::inputs::{Pair, Segment, Vertex};
use crate::numbers::Numbers;
use crate::rng::Rng;

pub struct Call {
    pub name: &'static str,
    /// The answers' names, by their numbers.
    pub classes: &'static [&'static str],
    /// The numbers of a pair that the call is made on.
    pub operands: fn(&Pair, &mut Rng) -> Numbers,
    /// What is checked, in order.
    pub order: Order,
    /// Where a segment starts whose chord is checked, after all numbers; its owner is its place in this list.
    pub chords: &'static [usize],
    /// What the Rust answers: the number of the case, and its values.
    pub text: fn(&[f64]) -> (u64, Numbers),
    /// Our answer, with its values in a lent slice.
    pub ours: fn(&[f64], &mut [f64]) -> u64,
    /// The Rust's call and nothing else, to be timed.
    pub bare: fn(&[f64]),
}

impl Call {
    /// What is at fault, in the order of the checks. The first one is told.
    pub fn faults<'a>(&self, numbers: &'a [f64]) -> impl Iterator<Item = Fault> + 'a {
        let of_number = move |(at, place): &(usize, Place)| Fault::of(*place, numbers[*at]);
        let of_chord = move |(owner, at): (usize, &usize)| chord(&numbers[*at..], owner, 0);
        let (order, chords) = (self.order, self.chords);
        let of_numbers = order.iter().filter_map(of_number);
        of_numbers.chain(chords.iter().enumerate().filter_map(of_chord))
    }

    pub fn fault(&self, numbers: &[f64]) -> Option<Fault> {
        self.faults(numbers).next()
    }

    /// The case that the call should answer, and its values; or the fault that it should tell.
    pub fn expected(&self, numbers: &[f64]) -> Result<(u64, Numbers), Fault> {
        match self.fault(numbers) {
            Some(fault) => Err(fault),
            None => Ok((self.text)(numbers)),
        }
    }
}

const fn x(owner: usize, index: usize) -> Place {
    Place::new(Item::X, owner, index)
}

const fn y(owner: usize, index: usize) -> Place {
    Place::new(Item::Y, owner, index)
}

/// A kernel's point or circle is the owner, by its place among the arguments, and has one of each number.
const LINES: Order = &[
    (8, Place::EPSILON),
    (0, x(0, 0)),
    (1, y(0, 0)),
    (2, x(1, 0)),
    (3, y(1, 0)),
    (4, x(2, 0)),
    (5, y(2, 0)),
    (6, x(3, 0)),
    (7, y(3, 0)),
];

const LINE_AND_CIRCLE: Order = &[
    (7, Place::EPSILON),
    (0, x(0, 0)),
    (1, y(0, 0)),
    (2, x(1, 0)),
    (3, y(1, 0)),
    (4, Place::new(Item::Radius, 2, 0)),
    (5, Place::new(Item::CenterX, 2, 0)),
    (6, Place::new(Item::CenterY, 2, 0)),
];

const CIRCLES: Order = &[
    (6, Place::EPSILON),
    (0, Place::new(Item::Radius, 0, 0)),
    (1, Place::new(Item::CenterX, 0, 0)),
    (2, Place::new(Item::CenterY, 0, 0)),
    (3, Place::new(Item::Radius, 1, 0)),
    (4, Place::new(Item::CenterX, 1, 0)),
    (5, Place::new(Item::CenterY, 1, 0)),
];

/// A pair's segment is the owner, v or u, and the index says which end. Without the bulges of v2 and u2.
const SEGMENTS: Order = &[
    (12, Place::EPSILON),
    (0, x(0, 0)),
    (1, y(0, 0)),
    (2, Place::new(Item::Bulge, 0, 0)),
    (3, x(0, 1)),
    (4, y(0, 1)),
    (6, x(1, 0)),
    (7, y(1, 0)),
    (8, Place::new(Item::Bulge, 1, 0)),
    (9, x(1, 1)),
    (10, y(1, 1)),
];

pub static CALLS: [Call; 4] = [
    Call {
        name: "line_line_intr",
        classes: &["none", "true", "overlapping", "false"],
        operands: |p, _| {
            let [v1, v2, u1, u2] = [p.v.from, p.v.to, p.u.from, p.u.to].map(|v| v.at);
            [v1.x, v1.y, v2.x, v2.y, u1.x, u1.y, u2.x, u2.y, p.epsilon].into()
        },
        order: LINES,
        chords: &[],
        text: |n| of_lines(line_line_intr(at(n, 0), at(n, 2), at(n, 4), at(n, 6), n[8])),
        ours: |n, out| capi::vj_line_line_intr(all(n), out),
        bare: |n| {
            black_box(line_line_intr(at(n, 0), at(n, 2), at(n, 4), at(n, 6), n[8]));
        },
    },
    Call {
        name: "line_circle_intr",
        classes: &["none", "tangent", "two"],
        operands: |p, rng| {
            // the line first and then the arc, if there is one of each
            let (line, arc) = if is_line(p.u) { (p.u, p.v) } else { (p.v, p.u) };
            let [radius, x, y] = circle(arc, rng);
            let (from, to) = (line.from.at, line.to.at);
            [from.x, from.y, to.x, to.y, radius, x, y, p.epsilon].into()
        },
        order: LINE_AND_CIRCLE,
        chords: &[],
        text: |n| of_line_and_circle(line_circle_intr(at(n, 0), at(n, 2), n[4], at(n, 5), n[7])),
        ours: |n, out| capi::vj_line_circle_intr(all(n), out),
        bare: |n| {
            black_box(line_circle_intr(at(n, 0), at(n, 2), n[4], at(n, 5), n[7]));
        },
    },
    Call {
        name: "circle_circle_intr",
        classes: &["none", "tangent", "two", "overlapping"],
        operands: |p, rng| {
            let [radius1, x1, y1] = circle(p.v, rng);
            let [radius2, x2, y2] = circle(p.u, rng);
            [radius1, x1, y1, radius2, x2, y2, p.epsilon].into()
        },
        order: CIRCLES,
        chords: &[],
        text: |n| of_circles(circle_circle_intr(n[0], at(n, 1), n[3], at(n, 4), n[6])),
        ours: |n, out| capi::vj_circle_circle_intr(all(n), out),
        bare: |n| {
            black_box(circle_circle_intr(n[0], at(n, 1), n[3], at(n, 4), n[6]));
        },
    },
    Call {
        name: "pline_seg_intr",
        classes: &["none", "tangent", "one", "two", "lines", "arcs"],
        operands: |p, _| {
            let [a, b, c, d, e, f] = both(p.v);
            let [g, h, i, j, k, l] = both(p.u);
            [a, b, c, d, e, f, g, h, i, j, k, l, p.epsilon].into()
        },
        order: SEGMENTS,
        chords: &[0, 6],
        text: |n| of_segments(pair(n)),
        ours: |n, out| capi::vj_pair(all(n), out),
        bare: |n| {
            black_box(pair(n));
        },
    },
];

fn pair(n: &[f64]) -> PlineSegIntr<f64> {
    let vertex = |i: usize| PlineVertex::new(n[i], n[i + 1], n[i + 2]);
    pline_seg_intr(vertex(0), vertex(3), vertex(6), vertex(9), n[12])
}

pub fn at(n: &[f64], i: usize) -> Vector2 {
    Vector2::new(n[i], n[i + 1])
}

/// The kernel that decides a pair of segments, by its number in the list, and its operands. Operands of a kernel are taken as
/// they are.
pub fn kernel_of(n: &[f64]) -> (usize, Numbers) {
    let line = |bulge: f64| bulge.abs() < 1e-8;
    let circle = |i: usize| {
        let vertex = |i: usize| PlineVertex::new(n[i], n[i + 1], n[i + 2]);
        let (radius, center) = seg_arc_radius_and_center(vertex(i), vertex(i + 3));
        [radius, center.x, center.y]
    };
    let with_circle = |line: usize, arc: usize| {
        let [radius, x, y] = circle(arc);
        let (from, to) = (at(n, line), at(n, line + 3));
        [from.x, from.y, to.x, to.y, radius, x, y, n[12]].into()
    };
    match n.len() {
        9 => (0, all::<9>(n).into()),
        8 => (1, all::<8>(n).into()),
        7 => (2, all::<7>(n).into()),
        _ if line(n[2]) && line(n[8]) => {
            let [v1, v2, u1, u2] = [0, 3, 6, 9].map(|i| at(n, i));
            let lines = [v1.x, v1.y, v2.x, v2.y, u1.x, u1.y, u2.x, u2.y, n[12]];
            (0, lines.into())
        }
        _ if line(n[2]) => (1, with_circle(0, 6)),
        _ if line(n[8]) => (1, with_circle(6, 0)),
        _ => {
            let [a, b, c] = circle(0);
            let [d, e, f] = circle(6);
            (2, [a, b, c, d, e, f, n[12]].into())
        }
    }
}

fn all<const N: usize>(n: &[f64]) -> [f64; N] {
    n.try_into().expect("as many as the call takes")
}

fn is_line(s: Segment) -> bool {
    s.from.bulge.abs() < 1e-8
}

fn both(s: Segment) -> [f64; 6] {
    let (a, b) = (s.from, s.to);
    [a.at.x, a.at.y, a.bulge, b.at.x, b.at.y, b.bulge]
}

/// Radius and centre of an arc's circle; for a line, the circle around its start through its end. Now and then one number is
/// replaced by another that a circle may have.
fn circle(s: Segment, rng: &mut Rng) -> [f64; 3] {
    let vertex = |v: Vertex| PlineVertex::new(v.at.x, v.at.y, v.bulge);
    let mut circle = if is_line(s) {
        [s.chord().length(), s.from.at.x, s.from.at.y]
    } else {
        let (radius, center) = seg_arc_radius_and_center(vertex(s.from), vertex(s.to));
        [radius, center.x, center.y]
    };
    if rng.one_in(16) {
        circle[0] = match rng.below(4) {
            0 => two_to(-42),
            1 => two_to(47),
            _ => power(rng, -42, 47),
        };
    }
    if rng.one_in(16) {
        circle[1 + rng.below(2) as usize] =
            rng.sign() * rng.pick(&[0.0, 1.0, two_to(47), two_to(48)]);
    }
    circle
}

fn of_points(points: &[Vector2]) -> Numbers {
    match points {
        [p] => [p.x, p.y].into(),
        [p, q] => [p.x, p.y, q.x, q.y].into(),
        _ => [].into(),
    }
}

fn of_lines(answer: LineLineIntr<f64>) -> (u64, Numbers) {
    match answer {
        LineLineIntr::NoIntersect => (0, [].into()),
        LineLineIntr::TrueIntersect { seg1_t, seg2_t } => (1, [seg1_t, seg2_t].into()),
        LineLineIntr::Overlapping { seg2_t0, seg2_t1 } => (2, [seg2_t0, seg2_t1].into()),
        LineLineIntr::FalseIntersect { seg1_t, seg2_t } => (3, [seg1_t, seg2_t].into()),
    }
}

fn of_line_and_circle(answer: LineCircleIntr<f64>) -> (u64, Numbers) {
    match answer {
        LineCircleIntr::NoIntersect => (0, [].into()),
        LineCircleIntr::TangentIntersect { t0 } => (1, [t0].into()),
        LineCircleIntr::TwoIntersects { t0, t1 } => (2, [t0, t1].into()),
    }
}

fn of_circles(answer: CircleCircleIntr<f64>) -> (u64, Numbers) {
    match answer {
        CircleCircleIntr::NoIntersect => (0, [].into()),
        CircleCircleIntr::TangentIntersect { point } => (1, of_points(&[point])),
        CircleCircleIntr::TwoIntersects { point1, point2 } => (2, of_points(&[point1, point2])),
        CircleCircleIntr::Overlapping => (3, [].into()),
    }
}

/// The number of a pair's case, and its points.
pub fn of_segments(answer: PlineSegIntr<f64>) -> (u64, Numbers) {
    match answer {
        PlineSegIntr::NoIntersect => (0, [].into()),
        PlineSegIntr::TangentIntersect { point } => (1, of_points(&[point])),
        PlineSegIntr::OneIntersect { point } => (2, of_points(&[point])),
        PlineSegIntr::TwoIntersects { point1, point2 } => (3, of_points(&[point1, point2])),
        PlineSegIntr::OverlappingLines { point1, point2 } => (4, of_points(&[point1, point2])),
        PlineSegIntr::OverlappingArcs { point1, point2 } => (5, of_points(&[point1, point2])),
    }
}
