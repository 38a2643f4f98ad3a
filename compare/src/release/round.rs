//! Arcs at the extremes: next to a line on a long chord, and arcs of one circle.

use super::draw::{turned, Drawn, Segment};
use super::numbers::{bulge, far, least_bulge, nudge, point, ulps, Point};
use super::straight::along;
use crate::crossing::faults::two_to;
use crate::inputs::values::{power, whole, LINE_LIMIT};
use crate::rng::Rng;

/// A long chord.
fn long(rng: &mut Rng) -> (Point, Point) {
    let from = [far(rng), if rng.one_in(2) { 0.0 } else { far(rng) }];
    let to = match rng.below(4) {
        0 => [-from[0], -from[1]],
        1 => [-from[0], from[1]],
        2 => [-from[0], ulps(from[1], 4, rng)],
        _ => [far(rng), far(rng)],
    };
    (from, to)
}

/// Two arcs with bulges next to 1e-8 on one long chord, either way round, or with ends a few floats apart.
pub fn flat_arcs(epsilon: f64, rng: &mut Rng) -> Drawn {
    let (v1, v2) = long(rng);
    let near = |p: Point, rng: &mut Rng| match rng.below(4) {
        0 => [ulps(p[0], 2, rng), ulps(p[1], 2, rng)],
        1 => [p[0] + nudge(epsilon, rng), p[1]],
        _ => p,
    };
    let (mut u1, mut u2) = (near(v1, rng), near(v2, rng));
    let (b, mut c) = (least_bulge(rng), least_bulge(rng));
    if rng.one_in(2) {
        (u1, u2, c) = (u2, u1, -c);
    }
    ((v1, b, v2), (u1, c, u2), epsilon)
}

/// An arc next to a line, and a line along it or across.
pub fn flat_arc_and_line(epsilon: f64, rng: &mut Rng) -> Drawn {
    let (v1, v2) = long(rng);
    let on = |rng: &mut Rng| match rng.below(4) {
        0 => v1,
        1 => v2,
        2 => along(v1, v2, rng.unit(), nudge(LINE_LIMIT, rng)),
        _ => point(rng),
    };
    let (u1, u2) = (on(rng), on(rng));
    turned((v1, least_bulge(rng), v2), (u1, 0.0, u2), epsilon, rng)
}

/// Points on the circle of radius 5 around 0, in order.
const ON_CIRCLE: [Point; 12] = [
    [5.0, 0.0],
    [4.0, 3.0],
    [3.0, 4.0],
    [0.0, 5.0],
    [-3.0, 4.0],
    [-4.0, 3.0],
    [-5.0, 0.0],
    [-4.0, -3.0],
    [-3.0, -4.0],
    [0.0, -5.0],
    [3.0, -4.0],
    [4.0, -3.0],
];

/// A circle with points whose coordinates are exact, if its size and place allow it.
pub struct Circle {
    center: Point,
    scale: f64,
}

impl Circle {
    pub fn draw(rng: &mut Rng) -> Circle {
        let scale = match rng.below(4) {
            0 => 1.0,
            1 => power(rng, -40, 17),
            2 => two_to(rng.below(57) as i32 - 40),
            _ => power(rng, -3, 3),
        };
        let middle = |rng: &mut Rng| match rng.below(4) {
            0 => whole(rng, 8),
            1 => rng.sign() * (1_048_576.0 - 5.0 * scale),
            2 => whole(rng, 8) * scale,
            _ => rng.pick(&[0.0, -0.0]),
        };
        Circle {
            center: [middle(rng), middle(rng)],
            scale,
        }
    }

    pub fn at(&self, place: usize) -> Point {
        let [x, y] = ON_CIRCLE[place % 12];
        // a product with 0 keeps the sign of the centre's zero
        let on = |middle: f64, x: f64| {
            if x == 0.0 {
                middle
            } else {
                middle + self.scale * x
            }
        };
        [on(self.center[0], x), on(self.center[1], y)]
    }

    /// The bulge of the arc of this circle between two of its points that is no more than a half circle, or of the other one.
    pub fn bulge(from: usize, to: usize, major: bool) -> f64 {
        let ([a, b], [c, d]) = (ON_CIRCLE[from % 12], ON_CIRCLE[to % 12]);
        let chord = ((c - a) * (c - a) + (d - b) * (d - b)).sqrt();
        let half = chord / 2.0;
        let beyond = (25.0 - half * half).max(0.0).sqrt();
        let side = if a * d - b * c < 0.0 { -1.0 } else { 1.0 };
        if major {
            -side * (5.0 + beyond) / half
        } else {
            side * (5.0 - beyond) / half
        }
    }

    /// Some arc of it.
    pub fn arc(&self, large: bool, rng: &mut Rng) -> Segment {
        let from = rng.below(12) as usize;
        let to = from + 1 + rng.below(11) as usize;
        let major = large && rng.one_in(2);
        let mut b = Circle::bulge(from, to, major);
        if (to - from) % 12 == 6 && rng.one_in(2) {
            b = -b;
        }
        (self.at(from), b, self.at(to))
    }
}

/// Two arcs of one circle. Now and then the second is moved by epsilon, or has a bulge a few floats off.
pub fn one_circle(epsilon: f64, large: bool, rng: &mut Rng) -> Drawn {
    let circle = Circle::draw(rng);
    let v = circle.arc(large, rng);
    let (mut u1, mut c, mut u2) = circle.arc(large, rng);
    match rng.below(8) {
        0 => {
            let by = [nudge(epsilon, rng), nudge(epsilon, rng)];
            let way = rng.below(3);
            let moved = |p: Point| match way {
                0 => [p[0] + by[0], p[1]],
                1 => [p[0], p[1] + by[1]],
                _ => [p[0] + by[0], p[1] + by[1]],
            };
            (u1, u2) = (moved(u1), moved(u2));
        }
        1 => c = ulps(c, 4, rng),
        2 => u2 = [ulps(u2[0], 1, rng), ulps(u2[1], 1, rng)],
        _ => {}
    }
    (v, (u1, c, u2), epsilon)
}

/// An arc twice, either way round, with zeros of other signs.
pub fn the_same_arc(epsilon: f64, large: bool, rng: &mut Rng) -> Drawn {
    let (v1, b, v2) = match rng.below(3) {
        0 => {
            let (from, to) = long(rng);
            (from, least_bulge(rng), to)
        }
        1 => (point(rng), bulge(large, rng), point(rng)),
        _ => Circle::draw(rng).arc(large, rng),
    };
    let other_zero = |x: f64| if x == 0.0 { -x } else { x };
    let flip = rng.one_in(2);
    let ends = |p: Point| if flip { p.map(other_zero) } else { p };
    let (mut u1, mut c, mut u2) = (ends(v1), b, ends(v2));
    if rng.one_in(2) {
        (u1, c, u2) = (u2, -c, u1);
    }
    if rng.one_in(4) {
        c = ulps(c, 1, rng);
    }
    ((v1, b, v2), (u1, c, u2), epsilon)
}
