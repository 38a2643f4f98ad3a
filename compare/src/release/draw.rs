//! Pairs of segments at the extremes, by family.

use super::numbers::{bulge, epsilon, nudge, point, Point};
use super::round::{flat_arc_and_line, flat_arcs, one_circle, the_same_arc};
use super::straight::{along, end_to_end, parallel, steep};
use crate::inputs::values::{beside, down, whole, SMALLEST};
use crate::inputs::{Kind, Pair, Vertex};
use crate::rng::Rng;

/// Both ends, and the bulge.
pub type Segment = (Point, f64, Point);

/// Two segments and an epsilon.
pub type Drawn = (Segment, Segment, f64);

/// Four vertices, each x, y and bulge, and an epsilon.
pub type Numbers = [f64; 13];

/// Mostly accepted. The bulges of v2 and u2 play no part and may be anything.
pub fn pair(large: bool, rng: &mut Rng) -> Numbers {
    let epsilon = epsilon(rng);
    let (v, u, epsilon) = match rng.below(16) {
        0 => any(epsilon, large, rng),
        1 => parallel(epsilon, rng),
        2 => end_to_end(rng),
        3 => steep(epsilon, rng),
        4 | 5 => flat_arcs(epsilon, rng),
        6 => flat_arc_and_line(epsilon, rng),
        7..=10 => one_circle(epsilon, large, rng),
        11 => the_same_arc(epsilon, large, rng),
        12 => tiny(epsilon, large, rng),
        13 => near_point(epsilon, large, rng),
        14 => touching(epsilon, large, rng),
        _ => return other(rng),
    };
    numbers(v, u, epsilon, rng)
}

/// Pairs of lines, for the line kernel.
pub fn lines(rng: &mut Rng) -> [f64; 9] {
    let epsilon = epsilon(rng);
    let (v, u, epsilon) = match rng.below(8) {
        0 => any(epsilon, false, rng),
        1 => parallel(epsilon, rng),
        2..=4 => end_to_end(rng),
        5 => steep(epsilon, rng),
        6 => near_point(epsilon, false, rng),
        _ => touching(epsilon, false, rng),
    };
    let ((v1, _, v2), (u1, _, u2)) = (v, u);
    [
        v1[0], v1[1], v2[0], v2[1], u1[0], u1[1], u2[0], u2[1], epsilon,
    ]
}

/// A line and an arc.
pub fn line_and_arc(rng: &mut Rng) -> Drawn {
    let epsilon = epsilon(rng);
    match rng.below(4) {
        0 => any(epsilon, false, rng),
        1 => steep(epsilon, rng),
        2 => flat_arc_and_line(epsilon, rng),
        _ => touching(epsilon, false, rng),
    }
}

/// Two arcs.
pub fn arcs(rng: &mut Rng) -> Drawn {
    let epsilon = epsilon(rng);
    match rng.below(4) {
        0 => any(epsilon, false, rng),
        1 => flat_arcs(epsilon, rng),
        2 => the_same_arc(epsilon, false, rng),
        _ => one_circle(epsilon, false, rng),
    }
}

fn numbers(v: Segment, u: Segment, epsilon: f64, rng: &mut Rng) -> Numbers {
    let ((v1, b, v2), (u1, c, u2)) = (v, u);
    let free = rng.pick(&[0.0, -0.0, 1.0, f64::NAN, f64::INFINITY]);
    [
        v1[0], v1[1], b, v2[0], v2[1], free, u1[0], u1[1], c, u2[0], u2[1], free, epsilon,
    ]
}

fn any(epsilon: f64, large: bool, rng: &mut Rng) -> Drawn {
    let v = (point(rng), bulge(large, rng), point(rng));
    let u = (point(rng), bulge(large, rng), point(rng));
    (v, u, epsilon)
}

/// As the other comparisons draw them.
fn other(rng: &mut Rng) -> Numbers {
    let Pair { v, u, epsilon } = Pair::draw(Kind::Accepted, rng);
    let three = |v: Vertex| [v.at.x, v.at.y, v.bulge];
    let [a, b, c] = three(v.from);
    let [d, e, f] = three(v.to);
    let [g, h, i] = three(u.from);
    let [j, k, l] = three(u.to);
    [a, b, c, d, e, f, g, h, i, j, k, l, epsilon]
}

/// Now and then the other one first, or x and y exchanged.
pub fn turned(v: Segment, u: Segment, epsilon: f64, rng: &mut Rng) -> Drawn {
    let (v, u) = if rng.one_in(2) { (v, u) } else { (u, v) };
    if rng.one_in(4) {
        let flip = |(a, b, c): Segment| ([a[1], a[0]], b, [c[1], c[0]]);
        return (flip(v), flip(u), epsilon);
    }
    (v, u, epsilon)
}

/// Chords at 2^-40, or in the other mode at 2^-43, around one place.
fn tiny(epsilon: f64, large: bool, rng: &mut Rng) -> Drawn {
    let small = if large { SMALLEST / 8.0 } else { SMALLEST };
    let at = |rng: &mut Rng| match rng.below(4) {
        0 => 0.0,
        1 => rng.sign() * beside(small, 1, rng),
        _ => whole(rng, 4) * small,
    };
    let arc = |rng: &mut Rng| {
        let b = match rng.below(4) {
            0 => bulge(large, rng),
            1 if large => rng.sign() * 16.0,
            _ => rng.sign() * rng.pick(&[1.0, 1.0, down(1.0), 0.5, 0.0]),
        };
        ([at(rng), at(rng)], b, [at(rng), at(rng)])
    };
    (arc(rng), arc(rng), epsilon)
}

/// A segment that is a point up to epsilon, on another one.
fn near_point(epsilon: f64, large: bool, rng: &mut Rng) -> Drawn {
    let (u1, u2) = (point(rng), point(rng));
    let v1 = match rng.below(4) {
        0 => u1,
        1 => u2,
        2 => along(u1, u2, whole(rng, 8) / 8.0, 0.0),
        _ => point(rng),
    };
    let v2 = match rng.below(4) {
        0 => v1,
        1 => [v1[0] + nudge(epsilon, rng), v1[1]],
        _ => [v1[0] + nudge(epsilon, rng), v1[1] + nudge(epsilon, rng)],
    };
    let b = if rng.one_in(2) {
        0.0
    } else {
        bulge(large, rng)
    };
    turned((v1, 0.0, v2), (u1, b, u2), epsilon, rng)
}

/// Two segments that share an end, up to epsilon.
fn touching(epsilon: f64, large: bool, rng: &mut Rng) -> Drawn {
    let shared = point(rng);
    let near = [
        shared[0] + nudge(epsilon, rng),
        shared[1] + nudge(epsilon, rng),
    ];
    let v = (shared, bulge(large, rng), point(rng));
    let u = match rng.below(2) {
        0 => (near, bulge(large, rng), point(rng)),
        _ => (point(rng), bulge(large, rng), near),
    };
    turned(v, u, epsilon, rng)
}
