//! The edges of two arcs.

use super::edges::{beside, by_guess, change, far_off, near, Edge, PART};
use super::model::{guess_of, RULE, TOO_LARGE};
use super::seen::Arcs;
use super::shapes::{
    self, arc, bulge, little, pair, place, place_of, round, somewhere, unit, usual_epsilon, Arc,
    Place,
};
use crate::crossing::faults::two_to;
use crate::inputs::values::{power, whole};
use crate::inputs::{Pair, Point};
use crate::rng::Rng;

/// An arc of a circle through a place: the place is in the arc, beside an end, or off it.
fn arc_at(there: Place, epsilon: f64, rng: &mut Rng) -> Arc {
    let bulge = round(rng);
    let t = match rng.below(8) {
        0..=3 => bulge * rng.between(0.2, 1.2),
        4 => little(there.radius, epsilon, rng) / there.radius,
        5 => -rng.between(0.05, 0.5),
        _ => rng.between(-3.0, 3.0),
    };
    there.on(-t).arc(bulge)
}

/// Another circle through the same point.
fn other(at: Point, radius: f64, rng: &mut Rng) -> Place {
    let way = unit(rng);
    Place { at, way, radius }
}

fn radius_like(radius: f64, rng: &mut Rng) -> f64 {
    radius * rng.between(0.25, 4.0)
}

pub fn any(epsilon: f64, rng: &mut Rng) -> Option<Pair> {
    let first = arc(epsilon, rng);
    let at = place_of(&first, epsilon, rng);
    let radius = match rng.one_in(8) {
        true => at.radius * power(rng, -12, 4),
        false => radius_like(at.radius, rng),
    };
    let second = arc_at(other(at.at, radius, rng), epsilon, rng);
    Some(pair(first.segment, second.segment, epsilon))
}

/// Either first.
fn either(v: &Arc, u: &Arc, epsilon: f64, rng: &mut Rng) -> Option<Pair> {
    let (v, u) = if rng.one_in(2) { (v, u) } else { (u, v) };
    Some(pair(v.segment, u.segment, epsilon))
}

/// A point so many epsilons outside a ray of one of the two arcs.
fn of_ray(name: &str, which: usize, ray: usize, epsilons: f64) -> Edge {
    let draw = move |epsilon: f64, rng: &mut Rng| {
        let first = arc(epsilon, rng);
        let off = epsilons * epsilon + little(first.start.radius, epsilon, rng);
        let at = match rng.one_in(2) {
            true => first.start.beside(-off),
            false => first.end.beside(off),
        };
        let radius = radius_like(at.radius, rng);
        let second = arc_at(other(at.at, radius, rng), epsilon, rng);
        let (v, u) = if which == 0 {
            (first, second)
        } else {
            (second, first)
        };
        Some(pair(v.segment, u.segment, epsilon))
    };
    Edge::new(name, draw, move |pair| {
        let seen = Arcs::of(pair)?;
        let (sweep, epsilon) = (seen.sweep(which), seen.epsilon);
        let near = near(seen.radii[which], epsilon);
        let side = |at: Point| beside(sweep.outside(ray, at)?, epsilons * epsilon, near);
        let [a, b] = seen.points?;
        side(a).or(side(b))
    })
}

/// Circles whose centres are so far apart: the sum of the radii or their difference, and some epsilons more.
fn of_tangent(name: &str, outside: bool, epsilons: f64) -> Edge {
    let draw = move |epsilon: f64, rng: &mut Rng| {
        let first = place(shapes::radius(epsilon, rng), rng).arc(round(rng));
        let at = place_of(&first, epsilon, rng);
        let radius = match outside {
            true => radius_like(at.radius, rng),
            false => at.radius * rng.between(0.1, 0.99),
        };
        let off = epsilons * epsilon + little(at.radius, epsilon, rng);
        let turned = if outside { -1.0 } else { 1.0 };
        let there = Place {
            at: at.at.along(at.way, off),
            way: Point::default().along(at.way, turned),
            radius,
        };
        let second = arc_at(there, epsilon, rng);
        either(&first, &second, epsilon, rng)
    };
    Edge::new(name, draw, move |pair| {
        let seen = Arcs::of(pair)?;
        let [r1, r2] = seen.radii;
        // as the Rust compares them
        let (number, edge) = match outside {
            true => (seen.d, r1 + r2 + epsilons * seen.epsilon),
            false => (seen.d - epsilons * seen.epsilon, (r1 - r2).abs()),
        };
        beside(number, edge, near(r1.min(r2), seen.epsilon))
    })
}

/// An end of one of the two about epsilon off the other's circle.
fn of_end(name: &str, which: usize, epsilons: f64) -> Edge {
    let draw = move |epsilon: f64, rng: &mut Rng| {
        let first = arc(epsilon, rng);
        let end = if rng.one_in(2) {
            first.start
        } else {
            first.end
        };
        let way = unit(rng);
        let size = epsilons * epsilon;
        let off = rng.sign() * size + rng.pick(&[0.0, 0.0, 0.25, -0.25]) * epsilon * rng.unit();
        let off = off + whole(rng, 3) * size * two_to(-52);
        let there = Place {
            at: end.at.along(way, off),
            way,
            radius: radius_like(first.start.radius, rng),
        };
        let second = arc_at(there, epsilon, rng);
        let (v, u) = if which == 0 {
            (first, second)
        } else {
            (second, first)
        };
        Some(pair(v.segment, u.segment, epsilon))
    };
    Edge::new(name, draw, move |pair| {
        let seen = Arcs::of(pair)?;
        let (arc, other) = (seen.arcs[which], 1 - which);
        let epsilon = seen.epsilon;
        let side = |at: Point| {
            let off = seen.centers[other].to(at).length() - seen.radii[other];
            beside(off.abs(), epsilons * epsilon, epsilon / 4.0)
        };
        side(arc.from.at).or(side(arc.to.at))
    })
}

/// Centres about epsilon apart.
fn near_centers(epsilon: f64, rng: &mut Rng) -> Option<Pair> {
    let radius = match rng.one_in(2) {
        true => epsilon * rng.between(0.75, 16.0),
        false => power(rng, -3, 6).max(epsilon),
    };
    let first = place(radius, rng).arc(round(rng));
    let at = place_of(&first, epsilon, rng);
    let d = epsilon * (1.0 + little(1.0, 0.01, rng));
    let to = unit(rng);
    let second = Place {
        at: at
            .at
            .along(to, d)
            .along(at.way, epsilon * rng.pick(&[0.0, 0.4, -0.4]) * rng.unit()),
        way: at.way,
        radius: at.radius + epsilon * rng.pick(&[0.0, 0.5, -0.5, 0.9]) * rng.unit(),
    };
    // the same centre but for d, if the radius is another
    let second = Place {
        at: second.at.along(at.way, second.radius - at.radius),
        ..second
    };
    let second = arc_at(second, epsilon, rng);
    either(&first, &second, epsilon, rng)
}

/// One centre, radii about epsilon apart.
fn same_center(epsilon: f64, rng: &mut Rng) -> Option<Pair> {
    let radius = power(rng, -3, 6).max(4.0 * epsilon);
    let first = place(radius, rng).arc(round(rng));
    let at = place_of(&first, epsilon, rng);
    let more = epsilon * rng.sign() * (1.0 + little(1.0, 0.01, rng));
    let second = Place {
        at: at.at.along(at.way, more),
        way: at.way,
        radius: at.radius + more,
    };
    let second = arc_at(second, epsilon, rng);
    either(&first, &second, epsilon, rng)
}

/// The first circle's point beside its own centre, so that the middle is at the centre.
fn foot_at_center(epsilon: f64, rng: &mut Rng) -> Option<Pair> {
    let first = place(shapes::radius(epsilon, rng), rng).arc(round(rng));
    let at = place_of(&first, epsilon, rng);
    let d = at.radius * rng.between(0.1, 3.0);
    let off = little(at.radius, epsilon, rng);
    let center = at.way.turned();
    let root = (d * d + at.radius * at.radius).sqrt();
    let way = Point {
        x: (at.way.x * at.radius - center.x * d) / root,
        y: (at.way.y * at.radius - center.y * d) / root,
    };
    let there = Place {
        at: at.at.along(way, off),
        way,
        radius: root + off,
    };
    let second = arc_at(there, epsilon, rng);
    Some(pair(first.segment, second.segment, epsilon))
}

/// Two points about epsilon apart.
fn close(epsilon: f64, rng: &mut Rng) -> Option<Pair> {
    let radius = match rng.one_in(2) {
        true => epsilon * rng.between(0.5, 8.0),
        false => power(rng, -3, 9),
    };
    let first = place(radius, rng).arc(round(rng));
    let at = place_of(&first, epsilon, rng);
    let way = at.way.turned();
    let half = epsilon * (1.0 + little(1.0, 0.01, rng)) / (2.0 * way.x.abs().max(way.y.abs()));
    let other = radius_like(at.radius, rng);
    let depth = |r: f64| half * half / (r + (r * r - half * half).max(0.0).sqrt());
    let there = Place {
        at: at.at.along(at.way, -depth(at.radius) - depth(other)),
        way: Point::default().along(at.way, -1.0),
        radius: other,
    };
    let second = arc_at(there, epsilon, rng);
    either(&first, &second, epsilon, rng)
}

fn equal_radii(epsilon: f64, rng: &mut Rng) -> Option<Pair> {
    let bulge = bulge(rng);
    let radius = if bulge < 1e-3 {
        1.0 / bulge
    } else {
        shapes::radius(epsilon, rng)
    };
    let first = Place {
        at: somewhere(rng),
        way: unit(rng),
        radius,
    }
    .arc(bulge);
    let at = place_of(&first, epsilon, rng);
    let radius = at.radius * (1.0 + whole(rng, 3) * two_to(-52));
    let second = arc_at(other(at.at, radius, rng), epsilon, rng);
    Some(pair(first.segment, second.segment, epsilon))
}

fn unequal_radii(epsilon: f64, rng: &mut Rng) -> Option<Pair> {
    let first = place(power(rng, -2, 4), rng).arc(round(rng));
    let at = place_of(&first, epsilon, rng);
    let times = power(rng, 8, 16);
    let radius = at.radius * rng.pick(&[times, 1.0 / times]);
    let second = arc_at(other(at.at, radius, rng), epsilon, rng);
    either(&first, &second, epsilon, rng)
}

fn tiny(epsilon: f64, rng: &mut Rng) -> Option<Pair> {
    let radius = epsilon * rng.pick(&[0.75, 1.0, 1.0, 1.0, 1.25, 1.9]);
    let radius = radius + little(radius, radius * PART, rng);
    let first = place(radius, rng).arc(round(rng));
    let at = place_of(&first, epsilon, rng);
    let radius = at.radius * rng.pick(&[1.0, 1.0, 8.0, 1024.0]) * rng.between(0.5, 2.0);
    let second = arc_at(other(at.at, radius, rng), epsilon, rng);
    Some(pair(first.segment, second.segment, epsilon))
}

/// Whether both points are off the same arc, or else each is off one only, and not the same.
fn off_each(pair: &Pair) -> Option<bool> {
    let seen = Arcs::of(pair)?;
    let sweeps = [0, 1].map(|which| seen.sweep(which));
    let on = seen
        .points?
        .map(|at| [0, 1].map(|which: usize| sweeps[which].has(at)));
    match on {
        [[false, _], [false, _]] | [[_, false], [_, false]] => Some(false),
        [[false, true], [true, false]] | [[true, false], [false, true]] => Some(true),
        _ => None,
    }
}

/// The square of how far the two points are from the middle.
fn square(pair: &Pair) -> Option<f64> {
    let seen = Arcs::of(pair)?;
    seen.points.map(|_| seen.diff)
}

pub fn edges() -> Vec<Edge> {
    let arcs = |what: &str| format!("{what}, two arcs");
    let mut edges = Vec::new();
    for (which, of) in ["the first's", "the second's"].into_iter().enumerate() {
        for (ray, end) in ["start", "end"].into_iter().enumerate() {
            edges.push(of_ray(
                &format!("a point at {of} ray to its {end}"),
                which,
                ray,
                0.0,
            ));
            edges.push(of_ray(
                &format!("a point eps outside {of} ray to its {end}"),
                which,
                ray,
                1.0,
            ));
        }
        edges.push(of_end(
            &format!("an end of {of} at eps from the other's circle"),
            which,
            1.0,
        ));
    }
    edges.extend([
        Edge::new(
            arcs("both points off one arc, or each off another"),
            any,
            off_each,
        ),
        of_tangent("circles touching outside", true, 0.0),
        of_tangent("circles eps apart", true, 1.0).no_row(1),
        of_tangent("circles touching inside", false, 0.0),
        of_tangent("circles eps inside each other", false, -1.0).no_row(0),
        Edge::new("centres eps apart", near_centers, |pair| {
            let seen = Arcs::of(pair)?;
            beside(seen.d, seen.epsilon, seen.epsilon / 4.0)
        }),
        Edge::new("radii eps apart, one centre", same_center, |pair| {
            let seen = Arcs::of(pair)?;
            let [r1, r2] = seen.radii;
            let side = beside((r1 - r2).abs(), seen.epsilon, seen.epsilon / 4.0);
            side.filter(|_| seen.d < seen.epsilon)
        })
        .no_row(1),
        Edge::new("the middle at the first centre", foot_at_center, |pair| {
            let seen = Arcs::of(pair)?;
            let size = seen.radii[0] * seen.radii[0];
            beside(seen.n, 0.0, near(size, seen.epsilon * seen.radii[0]))
        }),
        Edge::new(arcs("radii equal"), equal_radii, |pair| {
            let [r1, r2] = Arcs::of(pair)?.radii;
            beside(r1, r2, r2 * two_to(-40))
        }),
        Edge::new(
            "the first radius much the smaller, or the larger",
            unequal_radii,
            |pair| {
                let [r1, r2] = Arcs::of(pair)?.radii;
                Some(r1 > r2)
            },
        ),
        Edge::new("the points eps apart, two arcs", close, |pair| {
            let seen = Arcs::of(pair)?;
            let [a, b] = seen.points?;
            let gap = a.to(b);
            beside(
                gap.x.abs().max(gap.y.abs()),
                seen.epsilon,
                seen.epsilon / 4.0,
            )
        }),
        Edge::new(arcs("the first radius at epsilon"), tiny, |pair| {
            let seen = Arcs::of(pair)?;
            beside(seen.radii[0], seen.epsilon, 1.5 * seen.epsilon)
        }),
        Edge::new(
            arcs("the guess of the root far off"),
            |epsilon, rng| by_guess(any, square, false, epsilon, rng),
            |pair| far_off(square(pair)?),
        )
        .with_epsilon(usual_epsilon),
        Edge::new(
            arcs("the guess of the root just too large"),
            |epsilon, rng| by_guess(any, square, true, epsilon, rng),
            |pair| beside(guess_of(square(pair)?), TOO_LARGE, 1.0 / 512.0),
        )
        .with_epsilon(usual_epsilon),
        Edge::new(
            arcs("the first to the left, or to the right"),
            any,
            |pair| Arcs::of(pair).map(|seen| seen.arcs[0].from.bulge > 0.0),
        ),
        Edge::new(
            arcs("the shortcut's answer changes to yes"),
            |epsilon, rng| change(any, epsilon, rng),
            |pair| Arcs::of(pair).map(|_| RULE.misses(pair)),
        )
        .few_rows(0)
        .no_row(1),
    ]);
    edges
}
