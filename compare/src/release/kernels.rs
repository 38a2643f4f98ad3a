//! Operands of the kernels with circles: those of pairs, and circles at the kernels' own limits.

use cavalier_contours::polyline::{seg_arc_radius_and_center, PlineVertex};

use super::draw::{arcs, line_and_arc, Segment};
use super::numbers::{epsilon, nudge, point, ulps};
use crate::crossing::faults::two_to;
use crate::inputs::values::{beside, down, power, up, whole};
use crate::rng::Rng;

/// A line's ends, a circle and an epsilon.
pub fn line_and_circle(rng: &mut Rng) -> [f64; 8] {
    let (v, u, given) = line_and_arc(rng);
    if rng.one_in(2) {
        let (line, arc) = if v.1.abs() < 1e-8 { (v, u) } else { (u, v) };
        let ([a, b], _, [c, d]) = line;
        let [radius, x, y] = circle(arc);
        return [a, b, c, d, radius, x, y, given];
    }
    let ([a, b], _, [c, d]) = if rng.one_in(2) { v } else { u };
    let epsilon = epsilon(rng);
    let radius = radius(rng);
    // around the line, at the radius from its start, or anywhere
    let beside_line = |start: f64, rng: &mut Rng| match rng.below(8) {
        0 => start,
        1 | 2 => start + rng.sign() * radius,
        3 => start + rng.sign() * radius + nudge(epsilon, rng),
        4 => start + radius * whole(rng, 16) / 16.0,
        _ => center(rng),
    };
    let (x, y) = (beside_line(a, rng), beside_line(b, rng));
    [a, b, c, d, radius, x, y, epsilon]
}

/// Two circles and an epsilon.
pub fn circles(rng: &mut Rng) -> [f64; 7] {
    if rng.one_in(2) {
        let (v, u, epsilon) = arcs(rng);
        let ([r, x, y], [s, a, b]) = (circle(v), circle(u));
        return [r, x, y, s, a, b, epsilon];
    }
    let epsilon = epsilon(rng);
    let (r, x, y) = (radius(rng), center(rng), center(rng));
    let s = match rng.below(8) {
        0..=2 => r,
        3 => ulps(r, 2, rng),
        4 => r + nudge(epsilon, rng),
        5 => r * power(rng, -4, 4),
        _ => radius(rng),
    };
    let apart = match rng.below(8) {
        0 => 0.0,
        1..=3 => beside(epsilon, 2, rng),
        4 => r + s + nudge(epsilon, rng),
        5 => (r - s).abs() + nudge(epsilon, rng),
        6 => ulps(r + s, 2, rng),
        _ => rng.unit() * (r + s),
    };
    let apart = rng.sign() * apart;
    let (dx, dy) = match rng.below(4) {
        0 => (apart, 0.0),
        1 => (0.0, apart),
        2 => (apart * 0.75, apart * 1.25),
        _ => (apart * 0.6, apart * 0.8),
    };
    [r, x, y, s, x + dx, y + dy, epsilon]
}

/// Of an arc; around a line's start through its end.
fn circle((from, bulge, to): Segment) -> [f64; 3] {
    if bulge.abs() < 1e-8 {
        let (dx, dy) = (to[0] - from[0], to[1] - from[1]);
        return [(dx * dx + dy * dy).sqrt(), from[0], from[1]];
    }
    let vertex = |p: [f64; 2], bulge: f64| PlineVertex::new(p[0], p[1], bulge);
    let (radius, center) = seg_arc_radius_and_center(vertex(from, bulge), vertex(to, 0.0));
    [radius, center.x, center.y]
}

/// From 2^-42 to 2^47; now and then the float beyond.
fn radius(rng: &mut Rng) -> f64 {
    match rng.below(16) {
        0..=2 => two_to(-42),
        3 => up(two_to(-42)),
        4..=6 => two_to(47),
        7 => down(two_to(47)),
        8 => power(rng, 40, 47),
        9 => power(rng, -42, -36),
        10 if rng.one_in(16) => rng.pick(&[down(two_to(-42)), up(two_to(47))]),
        11 => 1.0,
        _ => power(rng, -42, 47),
    }
}

/// Up to 2^48; now and then the float beyond.
fn center(rng: &mut Rng) -> f64 {
    match rng.below(16) {
        0..=2 => rng.sign() * two_to(48),
        3 => rng.sign() * down(two_to(48)),
        4 => rng.sign() * two_to(47),
        5 => rng.sign() * power(rng, 40, 48),
        6 if rng.one_in(16) => rng.sign() * up(two_to(48)),
        7..=10 => rng.pick(&[0.0, -0.0]),
        11 => whole(rng, 8),
        _ => point(rng)[0],
    }
}
