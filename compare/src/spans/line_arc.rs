//! The edges of a line and an arc.

use super::edges::{beside, by_guess, change, far_off, near, Edge};
use super::model::{guess_of, RULE, TOO_LARGE};
use super::seen::{dot, LineArc};
use super::shapes::{
    self, arc, bulge, length, little, pair, place, place_of, round, segment, somewhere, unit,
    usual_epsilon, Arc, Place,
};
use crate::crossing::faults::two_to;
use crate::inputs::{Pair, Point};
use crate::rng::Rng;

/// A line through a place of an arc's circle.
pub fn through(arc: &Arc, at: Place, t: f64, epsilon: f64, rng: &mut Rng) -> Pair {
    let line = at.line(0.0, unit(rng), length(at.radius, rng), t);
    pair(line, arc.segment, epsilon)
}

/// Any of the segment's places, and some beside it.
pub fn parameter(rng: &mut Rng) -> f64 {
    rng.between(-0.25, 1.25)
}

/// A line through an arc's circle anywhere.
pub fn any(epsilon: f64, rng: &mut Rng) -> Option<Pair> {
    let arc = arc(epsilon, rng);
    let at = place_of(&arc, epsilon, rng);
    Some(through(&arc, at, parameter(rng), epsilon, rng))
}

/// A parameter about an edge: as a number, or as a length along the segment less some epsilons.
fn of_parameter(name: &str, edge: f64, epsilons: f64) -> Edge {
    let draw = move |epsilon: f64, rng: &mut Rng| {
        let arc = arc(epsilon, rng);
        let at = place_of(&arc, epsilon, rng);
        let length = match rng.one_in(4) {
            true => two_to(-5) * rng.between(1.0, 1.01),
            false => length(at.radius, rng),
        };
        let t = edge + (epsilons * epsilon + little(1.0, epsilon, rng)) / length;
        let line = at.line(0.0, unit(rng), length, t);
        Some(pair(line, arc.segment, epsilon))
    };
    Edge::new(name, draw, move |pair| {
        let seen = LineArc::of(pair)?;
        let length = seen.length;
        let along = edge * length + epsilons * seen.epsilon;
        let side = |(_, t): (Point, f64)| beside(t * length, along, near(length, seen.epsilon));
        let [a, b] = seen.points?;
        side(a).or(side(b))
    })
}

/// A point so many epsilons outside the ray to the arc's start, or to its end.
fn of_ray(name: &str, ray: usize, epsilons: f64) -> Edge {
    let draw = move |epsilon: f64, rng: &mut Rng| {
        let arc = arc(epsilon, rng);
        let off = epsilons * epsilon + little(arc.start.radius, epsilon, rng);
        // a pair is drawn from either end, so both rays are drawn for
        let at = match rng.one_in(2) {
            true => arc.start.beside(-off),
            false => arc.end.beside(off),
        };
        Some(through(&arc, at, parameter(rng), epsilon, rng))
    };
    Edge::new(name, draw, move |pair| {
        let seen = LineArc::of(pair)?;
        let (sweep, epsilon) = (seen.sweep(), seen.epsilon);
        let near = near(seen.radius, epsilon);
        let side =
            |(at, _): (Point, f64)| beside(sweep.outside(ray, at)?, epsilons * epsilon, near);
        let [a, b] = seen.points?;
        side(a).or(side(b))
    })
}

/// A line so far from the centre: what part of the radius, and how many epsilons more.
fn tangent(part: f64, epsilons: f64, epsilon: f64, rng: &mut Rng) -> Option<Pair> {
    let arc = arc(epsilon, rng);
    let at = place_of(&arc, epsilon, rng);
    let off = (part - 1.0) * at.radius + epsilons * epsilon + little(at.radius, epsilon, rng);
    let way = at.way.turned();
    let line = at.line(off, way, length(at.radius, rng), parameter(rng));
    Some(pair(line, arc.segment, epsilon))
}

fn of_distance(name: &str, part: f64, epsilons: f64, compared: fn(&LineArc) -> [f64; 2]) -> Edge {
    let draw = move |epsilon: f64, rng: &mut Rng| tangent(part, epsilons, epsilon, rng);
    Edge::new(name, draw, move |pair| {
        let seen = LineArc::of(pair)?;
        // a segment within epsilon is a point for the Rust, which then takes no distance of a line
        if seen.way.x.abs().max(seen.way.y.abs()) < seen.epsilon {
            return None;
        }
        let [number, edge] = compared(&seen);
        beside(number, edge, near(edge, seen.epsilon))
    })
}

/// Two points about epsilon apart: half of the time on a circle that is not much larger.
fn close(epsilon: f64, rng: &mut Rng) -> Option<Pair> {
    let radius = match rng.one_in(2) {
        true => epsilon * rng.between(0.5, 8.0),
        false => shapes::radius(epsilon, rng),
    };
    let arc = place(radius, rng).arc(round(rng));
    let at = place_of(&arc, epsilon, rng);
    let way = at.way.turned();
    let half = epsilon * (1.0 + little(1.0, 0.01, rng)) / (2.0 * way.x.abs().max(way.y.abs()));
    // the distance of the chord from the circle's place
    let depth = half * half / (at.radius + (at.radius * at.radius - half * half).max(0.0).sqrt());
    let length = rng.pick(&[two_to(-4), 1.0, 10.0]);
    let line = at.line(-depth, way, length, parameter(rng));
    Some(pair(line, arc.segment, epsilon))
}

/// A line from about one point of the circle to about another.
fn from_side_to_side(epsilon: f64, rng: &mut Rng) -> Option<Pair> {
    let arc = arc(epsilon, rng);
    let one = place_of(&arc, epsilon, rng);
    let other = one.on(rng.sign() * rng.between(0.1, 3.0));
    let chord = one.at.to(other.at);
    let part = 1.0 / chord.length();
    let out = little(one.radius, epsilon, rng) * part;
    let line = segment(one.at.along(chord, -out), other.at.along(chord, out), 0.0);
    Some(pair(line, arc.segment, epsilon))
}

fn middle_or_opposite(epsilon: f64, rng: &mut Rng) -> Option<Pair> {
    let bulge = bulge(rng);
    let radius = if bulge < 1e-3 {
        1.0 / bulge
    } else {
        shapes::radius(epsilon, rng)
    };
    let arc = Place {
        at: somewhere(rng),
        way: unit(rng),
        radius,
    }
    .arc(bulge);
    let at = rng.pick(&[bulge, -1.0 / bulge]);
    let at = arc.start.on(at).beside(little(radius, epsilon, rng));
    Some(through(&arc, at, parameter(rng), epsilon, rng))
}

/// The square of how far the two points are from the middle.
fn square(pair: &Pair) -> Option<f64> {
    let seen = LineArc::of(pair)?;
    seen.points.map(|_| seen.square)
}

pub fn edges() -> Vec<Edge> {
    let line_and_arc = |what: &str| format!("{what}, a line and an arc");
    vec![
        of_parameter("t at -1/32", -1.0 / 32.0, 0.0),
        of_parameter("t at 33/32", 33.0 / 32.0, 0.0),
        of_parameter("t at 0", 0.0, 0.0),
        of_parameter("t at 1", 1.0, 0.0),
        of_parameter("t * length at -eps", 0.0, -1.0),
        of_parameter("t * length at eps", 0.0, 1.0),
        of_parameter("t * length at length - eps", 1.0, -1.0),
        of_parameter("t * length at length + eps", 1.0, 1.0),
        of_ray("a point at the start's ray", 0, 0.0),
        of_ray("a point at the end's ray", 1, 0.0),
        of_ray("a point eps outside the start's ray", 0, 1.0),
        of_ray("a point eps outside the end's ray", 1, 1.0),
        of_ray("a point eps inside the start's ray", 0, -1.0),
        of_ray("a point eps inside the end's ray", 1, -1.0),
        Edge::new(
            "a point opposite to the middle, or in the middle",
            middle_or_opposite,
            |pair| {
                let seen = LineArc::of(pair)?;
                let sweep = seen.sweep();
                let (start, end) = (sweep.start, sweep.end);
                let turned = if sweep.clockwise { -1.0 } else { 1.0 };
                let across = start.to(end).turned();
                // away from the arc for an arc to the left
                let middle = Point::default().along(across, -turned / across.length());
                let side = |(at, _): (Point, f64)| {
                    let part = dot(middle, seen.center.to(at)) / seen.radius;
                    (part.abs() > 1.0 - 1.0 / 1024.0).then_some(part > 0.0)
                };
                let [a, b] = seen.points?;
                side(a).or(side(b))
            },
        ),
        of_distance("distance at the radius", 1.0, 0.0, |seen| {
            [seen.distance, seen.radius]
        }),
        of_distance(
            "distance at 255/256 of the radius",
            255.0 / 256.0,
            0.0,
            |seen| [seen.distance, seen.radius * (255.0 / 256.0)],
        ),
        of_distance(
            "|c| where the shortcut finds that a line goes through",
            (255.0 / 256.0) * (255.0 / 256.0) * (513.0 / 512.0),
            0.0,
            |seen| seen.through,
        ),
        of_distance("distance at radius + eps", 1.0, 1.0, |seen| {
            // the float above, since the Rust still takes this one
            [seen.distance, (seen.radius + seen.epsilon).next_up()]
        })
        .no_row(1),
        Edge::new("the points eps apart, a line and an arc", close, |pair| {
            let seen = LineArc::of(pair)?;
            let [(a, _), (b, _)] = seen.points?;
            let gap = a.to(b);
            beside(
                gap.x.abs().max(gap.y.abs()),
                seen.epsilon,
                seen.epsilon / 4.0,
            )
        }),
        Edge::new("both ends at the circle", from_side_to_side, |pair| {
            let seen = LineArc::of(pair)?;
            let near = near(seen.radius, seen.epsilon);
            let out = |at: Point| beside(seen.center.to(at).length(), seen.radius, near);
            let [a, b] = [seen.line.from.at, seen.line.to.at].map(out);
            (a? == b?).then_some(a?)
        }),
        Edge::new(
            line_and_arc("the guess of the root far off"),
            |epsilon, rng| by_guess(any, square, false, epsilon, rng),
            |pair| far_off(square(pair)?),
        )
        .with_epsilon(usual_epsilon),
        Edge::new(
            line_and_arc("the guess of the root just too large"),
            |epsilon, rng| by_guess(any, square, true, epsilon, rng),
            |pair| beside(guess_of(square(pair)?), TOO_LARGE, 1.0 / 1024.0),
        )
        .with_epsilon(usual_epsilon),
        Edge::new(
            line_and_arc("the arc to the left, or to the right"),
            any,
            |pair| LineArc::of(pair).map(|seen| seen.arc.from.bulge > 0.0),
        ),
        Edge::new(
            line_and_arc("the shortcut's answer changes to yes"),
            |epsilon, rng| change(any, epsilon, rng),
            |pair| LineArc::of(pair).map(|_| RULE.misses(pair)),
        )
        .with_epsilon(usual_epsilon)
        .few_rows(0)
        .no_row(1),
    ]
}
