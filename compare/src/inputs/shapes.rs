//! Pairs of segments in every position that the crossing functions distinguish.

use super::values::{arc_bulge, bulge, coordinate, epsilon, line_bulge, nudge, power, whole};
use super::{Pair, Point, Segment, Vertex};
use crate::rng::Rng;

/// A pair of a random shape. It may have a number beyond a limit.
pub fn draw(rng: &mut Rng) -> Pair {
    let epsilon = epsilon(rng);
    let (v, u) = match rng.below(16) {
        0 => (anywhere(rng), anywhere(rng)),
        1 | 2 => (on_grid(rng), on_grid(rng)),
        3 => together(rng),
        4 => shared_ends(0.0, rng),
        5 => shared_ends(epsilon, rng),
        6 => collinear(0.0, rng),
        7 => collinear(epsilon, rng),
        8 => through(epsilon, rng),
        9 => tangent_line(epsilon, rng),
        10 => secant(epsilon, rng),
        11 => same_circle(epsilon, rng),
        12 => concentric(epsilon, rng),
        13 => touching_circles(epsilon, rng),
        14 => tiny(rng),
        _ => point(epsilon, rng),
    };
    let (v, u) = (either_way(v, rng), either_way(u, rng));
    let (v, u) = if rng.one_in(2) { (v, u) } else { (u, v) };
    Pair { v, u, epsilon }
}

/// The same segment, or the same one from its other end. The last bulge has no effect.
pub fn either_way(s: Segment, rng: &mut Rng) -> Segment {
    let unused = bulge(rng);
    if rng.one_in(2) {
        segment(s.from.at, s.to.at, s.from.bulge, unused)
    } else {
        segment(s.to.at, s.from.at, -s.from.bulge, unused)
    }
}

fn segment(from: Point, to: Point, bulge: f64, unused: f64) -> Segment {
    let vertex = |at, bulge| Vertex { at, bulge };
    Segment {
        from: vertex(from, bulge),
        to: vertex(to, unused),
    }
}

fn arc(from: Point, to: Point, bulge: f64) -> Segment {
    segment(from, to, bulge, 0.0)
}

/// With a bulge that makes a line.
pub fn line(from: Point, to: Point, rng: &mut Rng) -> Segment {
    segment(from, to, line_bulge(rng), 0.0)
}

fn anywhere(rng: &mut Rng) -> Segment {
    let [from, to] = [0; 2].map(|_| Point {
        x: coordinate(rng),
        y: coordinate(rng),
    });
    arc(from, to, bulge(rng))
}

/// Small whole coordinates, on which much meets exactly, and zeros with either sign.
fn on_grid(rng: &mut Rng) -> Segment {
    let [from, to] = [0; 2].map(|_| Point {
        x: rng.sign() * whole(rng, 3),
        y: rng.sign() * whole(rng, 3),
    });
    let bulge = rng.pick(&[0.0, 0.0, 1.0, -1.0, 0.5, -0.25]);
    arc(from, to, bulge)
}

/// A point near `center`.
pub fn near(center: Point, size: f64, rng: &mut Rng) -> Point {
    Point {
        x: center.x + rng.between(-size, size),
        y: center.y + rng.between(-size, size),
    }
}

/// A segment of a random size at a random place; half of the time the size is a usual one.
fn placed(bulge: f64, rng: &mut Rng) -> Segment {
    let size = if rng.one_in(2) {
        rng.pick(&[1.0, 10.0, 1000.0])
    } else {
        power(rng, -20, 19)
    };
    let center = if rng.one_in(2) {
        Point::default()
    } else {
        near(Point::default(), 1e6, rng)
    };
    arc(near(center, size, rng), near(center, size, rng), bulge)
}

/// Two segments of one size at one place.
fn together(rng: &mut Rng) -> (Segment, Segment) {
    let v = placed(bulge(rng), rng);
    let size = v.chord().length();
    let [from, to] = [0; 2].map(|_| near(v.from.at, size, rng));
    (v, arc(from, to, bulge(rng)))
}

/// One shared end or two, up to a small move.
fn shared_ends(epsilon: f64, rng: &mut Rng) -> (Segment, Segment) {
    let (v, mut u) = together(rng);
    u.from.at = moved(v.from.at, epsilon, rng);
    if rng.one_in(2) {
        u.to.at = moved(v.to.at, epsilon, rng);
    }
    (v, u)
}

fn moved(p: Point, epsilon: f64, rng: &mut Rng) -> Point {
    Point {
        x: p.x + nudge(epsilon, rng),
        y: p.y + nudge(epsilon, rng),
    }
}

/// Two segments of one line: overlapping, touching, apart or, after a small move, nearly parallel.
fn collinear(epsilon: f64, rng: &mut Rng) -> (Segment, Segment) {
    let mut v = placed(line_bulge(rng), rng);
    match rng.below(4) {
        0 => v.to.at.x = v.from.at.x,
        1 => v.to.at.y = v.from.at.y,
        _ => {}
    }
    let way = v.chord();
    let place = |rng: &mut Rng| {
        let t = if rng.one_in(2) {
            whole(rng, 8) / 4.0
        } else {
            rng.between(-1.0, 2.0)
        };
        moved(v.from.at.along(way, t), epsilon, rng)
    };
    let (from, to) = (place(rng), place(rng));
    (v, line(from, to, rng))
}

/// A segment, and one through a place of its chord, mostly near an end of one of the two.
fn through(epsilon: f64, rng: &mut Rng) -> (Segment, Segment) {
    let v = placed(bulge(rng), rng);
    let way = v.chord();
    let t = rng.pick(&[0.0, 1.0, 0.5, 0.25]);
    let place = moved(v.from.at.along(way, t), epsilon, rng);
    let other = near(Point::default(), way.length(), rng);
    let back = rng.pick(&[0.0, -1.0, -0.25]);
    let u = arc(
        place.along(other, 1.0),
        place.along(other, back),
        bulge(rng),
    );
    (v, u)
}

pub struct Circle {
    pub center: Point,
    pub radius: f64,
}

impl Circle {
    fn of(s: Segment) -> Circle {
        let b = s.from.bulge;
        let chord = s.chord();
        let middle = s.from.at.along(chord, 0.5);
        Circle {
            center: middle.along(chord.turned(), (1.0 - b * b) / (4.0 * b)),
            radius: chord.length() * (1.0 + b * b) / (4.0 * b.abs()),
        }
    }

    /// The circle's point in this direction from the centre, which has length 1.
    pub fn at(&self, way: Point) -> Point {
        self.center.along(way, self.radius)
    }

    /// The shorter arc between two ways from the centre.
    pub fn arc(&self, from: Point, to: Point) -> Segment {
        let half = from.to(to).length() / 2.0; // the sine of half the sweep
        let bulge = half / (1.0 + (1.0 - half * half).max(0.0).sqrt());
        let left = from.x * to.y - from.y * to.x >= 0.0;
        let bulge = if left { bulge } else { -bulge };
        arc(self.at(from), self.at(to), bulge.clamp(-1.0, 1.0))
    }

    fn some_arc(&self, rng: &mut Rng) -> Segment {
        self.arc(unit(rng), unit(rng))
    }
}

/// A way of length 1, now and then along an axis.
pub fn unit(rng: &mut Rng) -> Point {
    if rng.one_in(4) {
        let (x, y) = rng.pick(&[(1.0, 0.0), (0.0, 1.0), (-1.0, 0.0), (0.0, -1.0)]);
        return Point { x, y };
    }
    let t = rng.between(-1.0, 1.0);
    let x = rng.sign() * (1.0 - t * t) / (1.0 + t * t);
    let y = 2.0 * t / (1.0 + t * t);
    if rng.one_in(2) {
        Point { x, y }
    } else {
        Point { x: y, y: x }
    }
}

/// An arc, and a line that touches its circle, up to a small move.
fn tangent_line(epsilon: f64, rng: &mut Rng) -> (Segment, Segment) {
    let v = placed(arc_bulge(rng), rng);
    let circle = Circle::of(v);
    let way = unit(rng);
    let place = circle.at(way).along(way, nudge(epsilon, rng));
    let far = circle.radius * rng.between(0.0, 2.0);
    let back = -far * rng.pick(&[0.0, 1.0, 0.5, -0.5]);
    let from = place.along(way.turned(), far);
    let to = place.along(way.turned(), back);
    (v, line(from, to, rng))
}

/// An arc, and a line through two places of its circle, which may be the arc's own ends.
fn secant(epsilon: f64, rng: &mut Rng) -> (Segment, Segment) {
    let v = placed(arc_bulge(rng), rng);
    let circle = Circle::of(v);
    let place = |rng: &mut Rng| match rng.below(4) {
        0 => v.from.at,
        1 => v.to.at,
        _ => circle.at(unit(rng)),
    };
    let (from, to) = (place(rng), place(rng));
    let out = rng.pick(&[0.0, 0.0, 0.5, -0.25]);
    let far = to.along(from.to(to), out);
    let (from, far) = (moved(from, epsilon, rng), moved(far, epsilon, rng));
    (v, line(from, far, rng))
}

/// Two arcs of one circle, up to a small move: overlapping, touching or apart.
fn same_circle(epsilon: f64, rng: &mut Rng) -> (Segment, Segment) {
    let v = placed(arc_bulge(rng), rng);
    let mut u = Circle::of(v).some_arc(rng);
    match rng.below(4) {
        0 => u = v,
        1 => u.from.at = v.to.at,
        _ => {}
    }
    if rng.one_in(4) {
        u.from.bulge = -u.from.bulge;
    }
    if rng.one_in(2) {
        u.from.at = moved(u.from.at, epsilon, rng);
        u.to.at = moved(u.to.at, epsilon, rng);
    }
    (v, u)
}

/// Arcs with one centre, up to a small move, with radii that are equal, nearly equal or different.
fn concentric(epsilon: f64, rng: &mut Rng) -> (Segment, Segment) {
    let v = placed(arc_bulge(rng), rng);
    let Circle { center, radius } = Circle::of(v);
    let radius = match rng.below(4) {
        0 => radius,
        1 => radius * rng.unit(),
        _ => radius + nudge(epsilon, rng),
    };
    let center = moved(center, epsilon, rng);
    (v, Circle { center, radius }.some_arc(rng))
}

/// Arcs of two circles that touch from outside or inside, up to a small move, or cross at a place of the first one.
fn touching_circles(epsilon: f64, rng: &mut Rng) -> (Segment, Segment) {
    let circle = Circle::of(placed(arc_bulge(rng), rng));
    let way = unit(rng);
    let v = circle.arc(way, unit(rng));
    let radius = circle.radius * rng.pick(&[1.0, 0.5, 2.0, 0.3]);
    let (to_center, from_center) = if rng.one_in(2) {
        let outside = rng.sign();
        let step = circle.radius + outside * radius + nudge(epsilon, rng);
        (circle.center.along(way, step), way_times(way, -outside))
    } else {
        let other = unit(rng);
        (circle.at(way).along(other, -radius), other)
    };
    let second = Circle {
        center: to_center,
        radius,
    };
    (v, second.arc(from_center, unit(rng)))
}

fn way_times(way: Point, by: f64) -> Point {
    Point {
        x: way.x * by,
        y: way.y * by,
    }
}

/// A chord near the shortest that an arc may have, and a segment near it.
fn tiny(rng: &mut Rng) -> (Segment, Segment) {
    let from = near(Point::default(), rng.pick(&[0.0, 1e-9, 1.0]), rng);
    let to = from.along(unit(rng), power(rng, -40, -16));
    let v = arc(from, to, bulge(rng));
    let size = rng.pick(&[1e-11, 1e-6, 1.0]);
    let [a, b] = [0; 2].map(|_| near(from, size, rng));
    (v, arc(a, b, bulge(rng)))
}

/// A segment, and a line that is a single point, up to a small move: on the segment's chord or circle, or at an end.
fn point(epsilon: f64, rng: &mut Rng) -> (Segment, Segment) {
    let v = placed(bulge(rng), rng);
    let place = match rng.below(4) {
        0 => v.from.at,
        1 if v.from.bulge != 0.0 => Circle::of(v).at(unit(rng)),
        _ => v.from.at.along(v.chord(), rng.unit()),
    };
    let from = moved(place, epsilon, rng);
    let to = if rng.one_in(2) {
        from
    } else {
        moved(from, epsilon, rng)
    };
    (v, line(from, to, rng))
}
