//! Arcs, places on their circles and lines through such a place, with small moves. No function is used whose last bit depends on
//! the machine.

use super::seen::circle_of;
use crate::crossing::faults::two_to;
use crate::inputs::values::{beside, down, nudge, power, up, whole, LINE_LIMIT, SMALLEST};
use crate::inputs::{Pair, Point, Segment, Vertex};
use crate::rng::Rng;

/// A circle's place: a point, the way to it from the centre, and the radius.
#[derive(Clone, Copy)]
pub struct Place {
    pub at: Point,
    pub way: Point,
    pub radius: f64,
}

pub struct Arc {
    pub segment: Segment,
    pub start: Place,
    pub end: Place,
}

/// A way turned by twice the angle whose tangent this is.
pub fn turned_by(way: Point, t: f64) -> Point {
    let (a, b) = ((1.0 - t * t) / (1.0 + t * t), 2.0 * t / (1.0 + t * t));
    Point {
        x: a * way.x - b * way.y,
        y: b * way.x + a * way.y,
    }
}

impl Place {
    /// The place that is so far on along the circle: t is the tangent of half the angle. Good also where the circle is large.
    pub fn on(self, t: f64) -> Place {
        let root = (1.0 + t * t).sqrt();
        let (a, b) = (1.0 / root, t / root);
        let half = Point {
            x: a * self.way.x - b * self.way.y,
            y: b * self.way.x + a * self.way.y,
        };
        Place {
            at: self.at.along(half.turned(), 2.0 * self.radius * b),
            way: turned_by(self.way, t),
            radius: self.radius,
        }
    }

    /// The place so far away along the circle, if that is little.
    pub fn beside(self, far: f64) -> Place {
        self.on(far / (2.0 * self.radius))
    }

    /// The arc from here to the left with this bulge, as its vertices make it.
    pub fn arc(self, bulge: f64) -> Arc {
        let at = self.at;
        let middle = turned_by(self.way, bulge);
        let chord = 4.0 * self.radius * (bulge / (1.0 + bulge * bulge));
        let to = at.along(middle.turned(), chord);
        let segment = segment(at, to, bulge);
        let (radius, center) = circle_of(segment);
        let place = |at: Point| Place {
            at,
            way: Point::default().along(center.to(at), 1.0 / radius),
            radius,
        };
        Arc {
            segment,
            start: place(at),
            end: place(to),
        }
    }

    /// The line through this place, or so far outside it, with this way, so long, and with this parameter here.
    pub fn line(self, outside: f64, way: Point, length: f64, t: f64) -> Segment {
        let from = self.at.along(self.way, outside).along(way, -t * length);
        segment(from, from.along(way, length), 0.0)
    }
}

pub fn segment(from: Point, to: Point, bulge: f64) -> Segment {
    let vertex = |at, bulge| Vertex { at, bulge };
    Segment {
        from: vertex(from, bulge),
        to: vertex(to, 0.0),
    }
}

pub fn pair(v: Segment, u: Segment, epsilon: f64) -> Pair {
    Pair { v, u, epsilon }
}

/// A way of length 1, seldom along an axis.
pub fn unit(rng: &mut Rng) -> Point {
    let axes = [(1.0, 0.0), (0.0, 1.0), (-1.0, 0.0), (0.0, -1.0)];
    let (x, y) = rng.pick(&axes);
    let way = Point { x, y };
    match rng.one_in(8) {
        true => way,
        false => turned_by(way, rng.between(-0.5, 0.5)),
    }
}

pub fn epsilon(rng: &mut Rng) -> f64 {
    let tenth = two_to(-10);
    match rng.below(12) {
        0 => SMALLEST,
        1 => up(SMALLEST),
        2 => 1e-8,
        3..=5 => 1e-5,
        6..=8 => tenth,
        9 => up(tenth),
        10 => 0.5,
        _ => power(rng, -40, -1),
    }
}

/// One that is usual.
pub fn usual_epsilon(rng: &mut Rng) -> f64 {
    rng.pick(&[two_to(-10), 1e-5, 1e-8, 1e-5])
}

/// A small move of a number of this size: none, some last bits, some epsilons, or a part of the size.
pub fn little(size: f64, epsilon: f64, rng: &mut Rng) -> f64 {
    match rng.below(6) {
        0 => 0.0,
        1 => whole(rng, 6) * size * two_to(-52),
        2 | 3 => nudge(epsilon, rng),
        4 => whole(rng, 4) * epsilon,
        _ => rng.sign() * size * power(rng, -50, -22),
    }
}

/// Bulges of arcs to the left.
pub fn bulge(rng: &mut Rng) -> f64 {
    match rng.below(10) {
        0 => 1.0,
        1 => down(1.0),
        2 => 2f64.sqrt() - 1.0,
        3 => power(rng, -26, -10),
        4 => beside(up(up(up(LINE_LIMIT))), 3, rng),
        _ => rng.between(0.05, 1.0),
    }
}

/// Bulges of arcs that are not flat.
pub fn round(rng: &mut Rng) -> f64 {
    match rng.below(6) {
        0 => 1.0,
        1 => 2f64.sqrt() - 1.0,
        _ => rng.between(0.05, 1.0),
    }
}

/// A radius: usual, about epsilon, or large.
pub fn radius(epsilon: f64, rng: &mut Rng) -> f64 {
    match rng.below(12) {
        0 => epsilon * power(rng, -1, 4),
        1 => power(rng, 10, 18),
        _ => power(rng, -4, 9),
    }
}

/// Somewhere, mostly not far away.
pub fn somewhere(rng: &mut Rng) -> Point {
    let size = rng.pick(&[0.0, 1.0, 1.0, 100.0, 1000.0, 100_000.0]);
    Point {
        x: rng.between(-size, size),
        y: rng.between(-size, size),
    }
}

/// A place on some circle with this radius.
pub fn place(radius: f64, rng: &mut Rng) -> Place {
    Place {
        at: somewhere(rng),
        way: unit(rng),
        radius,
    }
}

/// Any arc: a flat one has a chord of usual length.
pub fn arc(epsilon: f64, rng: &mut Rng) -> Arc {
    let bulge = bulge(rng);
    let radius = match bulge < 1e-3 {
        true => rng.between(0.1, 100.0) / (4.0 * bulge),
        false => radius(epsilon, rng),
    };
    place(radius, rng).arc(bulge)
}

/// A place of an arc's circle: in the arc, opposite to it, beside an end, or anywhere.
pub fn place_of(arc: &Arc, epsilon: f64, rng: &mut Rng) -> Place {
    let bulge = arc.segment.from.bulge;
    match rng.below(8) {
        0..=2 => arc.start.on(bulge * rng.between(0.2, 1.2)),
        3 => arc.start.on(-1.0 / bulge * rng.between(0.8, 1.2)),
        4 => arc.start.beside(-little(arc.start.radius, epsilon, rng)),
        5 => arc.end.beside(little(arc.start.radius, epsilon, rng)),
        6 => arc.end.on(bulge * rng.between(0.05, 0.5)),
        _ => arc.start.on(rng.between(-4.0, 4.0)),
    }
}

/// The length of a line: as short as is usual, as the circle needs it, or as usual.
pub fn length(radius: f64, rng: &mut Rng) -> f64 {
    match rng.below(6) {
        0 => two_to(-5) * rng.between(1.0, 1.1),
        1 => rng.between(1.0, 100.0),
        _ => radius.min(10_000.0) * rng.between(0.05, 4.0),
    }
}
