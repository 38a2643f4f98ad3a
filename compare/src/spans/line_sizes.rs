//! The edges of a line and an arc by what they are: the line's way and length, epsilon, the arc's radius and bulge.

use super::edges::{beside, Edge, PART};
use super::line_arc::{any, parameter, through};
use super::seen::{dot, LineArc};
use super::shapes::{
    self, arc, length, little, pair, place, place_of, round, segment, unit, Arc, Place,
};
use crate::crossing::faults::two_to;
use crate::inputs::values::{beside as steps, power, whole, LINE_LIMIT, SMALLEST};
use crate::inputs::{Pair, Point};
use crate::rng::Rng;

/// A line along a way that is given with its length, through a place.
fn along(arc: &Arc, at: Place, way: Point, epsilon: f64, rng: &mut Rng) -> Pair {
    let from = at.at.along(way, -parameter(rng));
    let to = Point {
        x: from.x + way.x,
        y: from.y + way.y,
    };
    pair(segment(from, to, 0.0), arc.segment, epsilon)
}

/// An arc near the origin, so that coordinates have small last bits.
fn about_zero(epsilon: f64, rng: &mut Rng) -> (Arc, Place) {
    let at = Point {
        x: rng.between(-1.0, 1.0),
        y: rng.between(-1.0, 1.0),
    };
    let way = unit(rng);
    let radius = power(rng, -4, 2);
    let arc = Place { at, way, radius }.arc(round(rng));
    let place = place_of(&arc, epsilon, rng);
    (arc, place)
}

pub fn edges() -> Vec<Edge> {
    let mut edges = of_ways();
    edges.extend(of_sizes());
    edges
}

fn of_ways() -> Vec<Edge> {
    let diagonal = |epsilon: f64, rng: &mut Rng| {
        let (arc, at) = about_zero(epsilon, rng);
        let size = at.radius * rng.between(0.2, 4.0);
        let other = size * (1.0 + rng.pick(&[0.0, 1.0, -1.0, 2.0, -3.0, 8.0]) * two_to(-52));
        let way = Point {
            x: rng.sign() * size,
            y: rng.sign() * other,
        };
        Some(along(&arc, at, way, epsilon, rng))
    };
    let upright = |epsilon: f64, rng: &mut Rng| {
        let (arc, at) = about_zero(epsilon, rng);
        let way = Point {
            x: rng.sign() * 1e-8 * (1.0 + whole(rng, 4) * power(rng, -27, -4)),
            y: rng.sign() * at.radius * rng.between(0.2, 4.0),
        };
        Some(along(&arc, at, way, epsilon, rng))
    };
    let level = |epsilon: f64, rng: &mut Rng| {
        let arc = arc(epsilon, rng);
        let at = place_of(&arc, epsilon, rng);
        let long = length(at.radius, rng);
        let way = Point {
            x: rng.sign() * long,
            y: little(long, epsilon.min(PART * long), rng),
        };
        Some(along(&arc, at, way, epsilon, rng))
    };
    vec![
        Edge::new("|dx| at |dy|", diagonal, |pair| {
            let Point { x, y } = LineArc::of(pair)?.way;
            beside(x.abs(), y.abs(), y.abs() * two_to(-44))
        }),
        Edge::new("|dx| at 1e-8", upright, |pair| {
            beside(LineArc::of(pair)?.way.x.abs(), 1e-8, 4e-9)
        }),
        Edge::new("dy at 0", level, |pair| {
            let seen = LineArc::of(pair)?;
            beside(seen.way.y, 0.0, 16.0 * PART * seen.length)
        }),
    ]
}

fn of_sizes() -> Vec<Edge> {
    let short = |epsilon: f64, rng: &mut Rng| {
        let (arc, at) = about_zero(epsilon, rng);
        let long = two_to(-5) * (1.0 + little(1.0, PART, rng) / 16.0);
        let t = rng.pick(&[1.0, 33.0 / 32.0, -1.0 / 32.0, 0.0]) + little(1.0, epsilon, rng) / long;
        let line = at.line(0.0, unit(rng), long, t);
        Some(pair(line, arc.segment, epsilon))
    };
    let long = |epsilon: f64, rng: &mut Rng| {
        let x = two_to(21) - rng.between(0.0, two_to(17));
        let y = (two_to(42) - x * x).sqrt() * (1.0 + little(1.0, PART, rng) / 4.0);
        let from = Point {
            x: -x / 2.0,
            y: -y / 2.0,
        };
        let line = segment(from, from.along(Point { x, y }, 1.0), 0.0);
        let at = from.along(Point { x, y }, rng.between(-0.02, 1.02));
        let radius = power(rng, 0, 19);
        let there = Place {
            at,
            way: unit(rng),
            radius,
        };
        let arc = there.on(-rng.between(-0.5, 1.0)).arc(round(rng));
        Some(pair(line, arc.segment, epsilon))
    };
    let tiny = |epsilon: f64, rng: &mut Rng| {
        let radius = epsilon * rng.pick(&[0.75, 1.0, 1.0, 1.0, 1.25, 1.9]);
        let radius = radius + little(radius, radius * PART, rng);
        let arc = place(radius, rng).arc(round(rng));
        let at = place_of(&arc, epsilon, rng);
        let long = rng.pick(&[two_to(-5), 1.0, 10.0, 4.0 * epsilon]);
        let line = at.line(0.0, unit(rng), long, parameter(rng));
        Some(pair(line, arc.segment, epsilon))
    };
    let flat = |epsilon: f64, bulge: f64, rng: &mut Rng| {
        let radius = rng.pick(&[1.0, 10.0, 1000.0]) * rng.between(0.5, 2.0) / (4.0 * bulge);
        let arc = place(radius, rng).arc(bulge);
        let at = arc.start.on(bulge * rng.between(-1.0, 3.0));
        let long = 4.0 * radius * bulge * rng.between(0.05, 2.0);
        let line = at.line(little(1.0, epsilon, rng), unit(rng), long, parameter(rng));
        Some(pair(line, arc.segment, epsilon))
    };
    let bulge_of = |pair: &Pair| pair.v.from.bulge.abs().max(pair.u.from.bulge.abs());
    vec![
        Edge::new("square of the length at 2^-10", short, |pair| {
            let way = LineArc::of(pair)?.way;
            beside(dot(way, way), two_to(-10), two_to(-32))
        }),
        Edge::new("length at 2^21", long, |pair| {
            beside(LineArc::of(pair)?.length, two_to(21), 64.0)
        }),
        Edge::new("epsilon at 2^-10, short line", short, |pair| {
            let off = pair.epsilon - two_to(-10);
            (off.abs() < two_to(-50)).then_some(off > 0.0)
        })
        .with_epsilon(|rng| steps(two_to(-10), 3, rng)),
        Edge::new("epsilon at 2^-40, from there on", any, |pair| {
            Some(pair.epsilon > SMALLEST)
        })
        .with_epsilon(|rng| SMALLEST * (1.0 + rng.pick(&[0.0, 1.0, 2.0]) * two_to(-52))),
        Edge::new("epsilon at 1/2, up to there", any, |pair| {
            Some(pair.epsilon == 0.5)
        })
        .with_epsilon(|rng| 0.5 - rng.pick(&[0.0, 1.0, 2.0]) * two_to(-54)),
        Edge::new("radius at epsilon", tiny, |pair| {
            let seen = LineArc::of(pair)?;
            beside(seen.radius, seen.epsilon, 1.5 * seen.epsilon)
        }),
        Edge::new(
            "bulge at 1e-8",
            move |epsilon, rng| {
                let bulge = steps(LINE_LIMIT, 3, rng);
                flat(epsilon, bulge, rng)
            },
            move |pair| beside(bulge_of(pair), LINE_LIMIT, 1e-20),
        ),
        Edge::new(
            "bulge at 1e-5, from 1e-8 to 1e-3",
            move |epsilon, rng| {
                let bulge = power(rng, -26, -10).clamp(1e-8, 1e-3);
                flat(epsilon, bulge, rng)
            },
            move |pair| beside(bulge_of(pair), 1e-5, 1e-3),
        ),
        Edge::new(
            "bulge at 1, up to there",
            |epsilon, rng| {
                let bulge = 1.0 - whole(rng, 1).abs() * rng.pick(&[1.0, 2.0, 1e6]) * two_to(-53);
                let arc = place(shapes::radius(epsilon, rng), rng).arc(bulge);
                let at = place_of(&arc, epsilon, rng);
                Some(through(&arc, at, parameter(rng), epsilon, rng))
            },
            move |pair| Some(bulge_of(pair) == 1.0),
        ),
    ]
}
