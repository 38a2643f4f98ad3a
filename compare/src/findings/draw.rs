//! Pairs made for rare cells: where a line or an arc meets an arc near its ends, with radii from epsilon's size on, and pairs in
//! small whole numbers on which comparisons are ties.

use super::exact;
use crate::crossing::Way;
use crate::inputs::shapes::{either_way, line, near, unit, Circle};
use crate::inputs::values::{epsilon, power, LARGEST_EPSILON};
use crate::inputs::{Pair, Point, Segment};
use crate::numbers::Numbers;
use crate::rng::Rng;

/// All numbers of a pair that count: two bulges do not.
const PLACES: [usize; 11] = [0, 1, 2, 3, 4, 6, 7, 8, 9, 10, 12];

pub fn draw(rng: &mut Rng) -> Pair {
    match rng.below(16) {
        0 | 1 => exact::draw(rng),
        2..=4 => in_any_order(line_and_arc(rng), rng),
        5 | 6 => in_any_order(grazing(rng), rng),
        7 => in_any_order(at_the_far_end(rng), rng),
        8..=11 => in_any_order(two_arcs(rng), rng),
        12 | 13 => in_any_order(with_a_gap(rng), rng),
        _ => in_any_order(small_arcs(rng), rng),
    }
}

fn in_any_order(pair: Pair, rng: &mut Rng) -> Pair {
    let (v, u) = (either_way(pair.v, rng), either_way(pair.u, rng));
    let (v, u) = if rng.one_in(2) { (v, u) } else { (u, v) };
    Pair { v, u, ..pair }
}

/// The same pair, with some numbers a little off: by parts of epsilon, or of themselves.
pub fn shaken(input: &Numbers, rng: &mut Rng) -> Numbers {
    let mut shaken = *input;
    for _ in 0..1 + rng.below(3) {
        let place = rng.pick(&PLACES);
        let number = input[place];
        let by = match place {
            2 | 8 | 12 => number * rng.between(-0.05, 0.05),
            _ => input[12] * rng.between(-0.125, 0.125),
        };
        shaken.put(place, number + by);
    }
    shaken
}

/// The input with a number that moves: a coordinate by some epsilons, a bulge by a part of itself, or epsilon.
pub fn way(input: &Numbers, rng: &mut Rng) -> Way {
    let place = rng.pick(&PLACES);
    match place {
        2 | 8 | 12 => Way::in_parts(*input, place, 0.5),
        _ => Way::new(*input, place, input[12] * rng.pick(&[1.0, 4.0, 32.0])),
    }
}

/// Mostly large, so that small radii are accepted too.
fn some_epsilon(rng: &mut Rng) -> f64 {
    match rng.below(4) {
        0 => LARGEST_EPSILON,
        1 => 1.0 / 1024.0,
        2 => power(rng, -20, -1),
        _ => epsilon(rng),
    }
}

/// Of epsilon's size, where the centre is near; some epsilons; or any.
fn some_radius(epsilon: f64, rng: &mut Rng) -> f64 {
    match rng.below(16) {
        0 => epsilon * rng.between(0.05, 0.5),
        1..=4 => epsilon * rng.between(0.5, 1.0),
        5..=10 => epsilon * rng.between(1.0, 1.5),
        11..=13 => epsilon * rng.between(1.5, 5.0),
        14 => epsilon * power(rng, 2, 12),
        _ => epsilon * power(rng, 2, 30),
    }
}

fn some_center(radius: f64, rng: &mut Rng) -> Point {
    match rng.below(4) {
        0 => near(Point::default(), radius * 16.0, rng),
        _ => Point::default(),
    }
}

/// Turned by the angle whose half has this tangent: about twice the part of a whole radius.
fn turned_by(way: Point, half: f64) -> Point {
    let whole = 1.0 + half * half;
    let (a, b) = ((1.0 - half * half) / whole, 2.0 * half / whole);
    Point {
        x: a * way.x - b * way.y,
        y: b * way.x + a * way.y,
    }
}

/// An arc of the circle of which each end is beside one of these points, by some epsilons, or anywhere.
fn arc_by(circle: &Circle, places: &[Point], epsilon: f64, rng: &mut Rng) -> Segment {
    let mut way = || {
        let place = rng.pick(places);
        let to = circle.center.to(place);
        let length = to.length();
        if rng.one_in(3) || length == 0.0 {
            return unit(rng);
        }
        let way = Point::default().along(to, 1.0 / length);
        let reach = rng.pick(&[0.0, 0.25, 0.55, 0.55, 1.0]) * epsilon / circle.radius;
        turned_by(way, rng.between(-reach, reach))
    };
    let (from, to) = (way(), way());
    let opposite = Point::default().along(from, -1.0);
    circle.arc(from, if rng.one_in(4) { opposite } else { to })
}

fn line_and_arc(rng: &mut Rng) -> Pair {
    let epsilon = some_epsilon(rng);
    let radius = some_radius(epsilon, rng);
    let center = some_center(radius, rng);
    let circle = Circle { center, radius };
    // half of the chord that the circle cuts out of the line; none if the line passes by
    let half = match rng.below(4) {
        0 => epsilon * rng.between(0.45, 1.1),
        1 => radius * rng.unit(),
        2 => epsilon * rng.between(0.0, 3.0),
        _ => 0.0,
    };
    let far = if half > 0.0 && half < radius {
        (radius * radius - half * half).sqrt()
    } else {
        radius
            + epsilon
                * match rng.below(3) {
                    0 => 0.0,
                    1 => 1.0,
                    _ => rng.unit(),
                }
    };
    let half = half.min(radius);
    let way = unit(rng);
    let along = way.turned();
    let foot = center.along(way, far);
    let mut step = || match rng.below(5) {
        0 => -half + epsilon * rng.between(-1.5, 1.5),
        1 => half + epsilon * rng.between(-1.5, 1.5),
        2 => epsilon * rng.between(-1.5, 1.5),
        3 => rng.sign() * (radius + epsilon) * rng.between(1.0, 4.0),
        _ => radius * rng.between(-1.5, 1.5),
    };
    let [p0, p1] = [step(), step()].map(|step| foot.along(along, step));
    let places = [
        foot.along(along, -half),
        foot.along(along, half),
        foot,
        p0,
        p1,
    ];
    Pair {
        v: line(p0, p1, rng),
        u: arc_by(&circle, &places, epsilon, rng),
        epsilon,
    }
}

/// A line that cuts a chord of one to two epsilons out of a circle, mostly with one end between the two points or beside them;
/// and an arc of that circle that ends beside them too.
fn grazing(rng: &mut Rng) -> Pair {
    let epsilon = some_epsilon(rng);
    let radius = epsilon * rng.between(0.6, 8.0);
    let circle = Circle {
        center: Point::default(),
        radius,
    };
    let half = (epsilon * rng.between(0.5, 0.9)).min(radius);
    let way = unit(rng);
    let along = way.turned();
    let foot = circle
        .center
        .along(way, (radius * radius - half * half).sqrt());
    let away = rng.sign() * (radius + epsilon);
    let far = foot.along(along, away * rng.between(1.0, 4.0));
    let end = if rng.one_in(3) {
        foot.along(along, -away)
    } else {
        foot.along(along, epsilon * rng.between(-0.8, 0.8))
    };
    let points = [-half, half].map(|step| foot.along(along, step));
    let beside = |rng: &mut Rng| {
        let to = Point::default().along(rng.pick(&points), 1.0 / radius);
        let reach = 0.5 * epsilon / radius;
        turned_by(to, rng.sign() * rng.between(0.2, 1.1) * reach)
    };
    let from = beside(rng);
    let to = match rng.below(3) {
        0 => unit(rng),
        1 => beside(rng),
        _ => Point::default().along(from, -1.0),
    };
    Pair {
        v: line(end, far, rng),
        u: circle.arc(from, to),
        epsilon,
    }
}

/// The same beside the end of half a circle: of two points the one that is outside may be nearer to the arc's start.
fn at_the_far_end(rng: &mut Rng) -> Pair {
    let epsilon = some_epsilon(rng);
    let radius = epsilon * rng.between(1.0, 8.0);
    let circle = Circle {
        center: Point::default(),
        radius,
    };
    let half = epsilon * rng.between(0.5, 0.75);
    let way = unit(rng);
    let along = way.turned();
    let foot = circle
        .center
        .along(way, (radius * radius - half * half).sqrt());
    // of one of the points, towards the other
    let side = rng.sign();
    let outside = foot.along(along, side * half);
    let to = Point::default().along(outside, 1.0 / radius);
    let end = turned_by(to, -side * rng.between(0.5, 1.0) * 0.5 * epsilon / radius);
    let away = (radius + epsilon) * rng.between(1.0, 4.0);
    let [p0, p1] = if rng.one_in(4) {
        [-away, away]
    } else {
        [
            side * (half - epsilon * rng.between(0.5, 1.0)),
            rng.sign() * away,
        ]
    };
    Pair {
        v: line(foot.along(along, p0), foot.along(along, p1), rng),
        u: circle.arc(end, Point::default().along(end, -1.0)),
        epsilon,
    }
}

fn two_arcs(rng: &mut Rng) -> Pair {
    let epsilon = some_epsilon(rng);
    let radius = some_radius(epsilon, rng);
    let other = match rng.below(4) {
        0 => radius,
        1 => (radius + epsilon * rng.between(-2.0, 2.0)).abs(),
        _ => some_radius(epsilon, rng),
    };
    let (most, least) = (radius + other, (radius - other).abs());
    let far = match rng.below(5) {
        0 => rng.between(least, most),
        1 => most + epsilon * rng.between(-2.0, 1.05),
        2 => least + epsilon * rng.between(-1.05, 2.0),
        3 => epsilon * rng.between(1.0, 3.0),
        _ => most + epsilon * rng.between(0.5, 1.0),
    };
    let center = some_center(radius, rng);
    let crossing = Crossing::new(center, [radius, other], far, rng);
    let Crossing {
        circles: [first, second],
        points: [p, q],
        middle,
    } = crossing;
    let v = arc_by(&first, &[p, q, middle], epsilon, rng);
    let u = arc_by(&second, &[p, q, middle, v.from.at, v.to.at], epsilon, rng);
    Pair { v, u, epsilon }
}

/// Two circles, and where they meet.
struct Crossing {
    circles: [Circle; 2],
    points: [Point; 2],
    middle: Point,
}

impl Crossing {
    fn new(center: Point, [radius, other]: [f64; 2], far: f64, rng: &mut Rng) -> Crossing {
        let way = unit(rng);
        let second = center.along(way, far);
        // from the first centre towards the second, and across
        let along = (radius * radius - other * other + far * far) / (2.0 * far);
        let across = (radius * radius - along * along).max(0.0).sqrt();
        let middle = center.along(way, along);
        let circle = |center: Point, radius: f64| Circle { center, radius };
        Crossing {
            circles: [circle(center, radius), circle(second, other)],
            points: [-across, across].map(|step| middle.along(way.turned(), step)),
            middle,
        }
    }
}

/// Arcs that both end beside a point where their circles cross, most of an epsilon from it, so that neither end is on the other.
fn with_a_gap(rng: &mut Rng) -> Pair {
    let epsilon = some_epsilon(rng);
    let [radius, other] = [0; 2].map(|_| match rng.below(2) {
        0 => epsilon * rng.between(1.0, 1.6),
        _ => epsilon * rng.between(1.0, 16.0),
    });
    let far = rng.between((radius - other).abs().max(epsilon), radius + other);
    let crossing = Crossing::new(Point::default(), [radius, other], far, rng);
    let place = rng.pick(&crossing.points);
    let [v, u] = crossing.circles.map(|circle| {
        let to = circle.center.to(place);
        let way = Point::default().along(to, 1.0 / circle.radius);
        let reach = 0.5 * epsilon / circle.radius;
        let from = turned_by(way, rng.sign() * rng.between(0.4, 1.2) * reach);
        let opposite = Point::default().along(from, -1.0);
        let to = if rng.one_in(2) { opposite } else { unit(rng) };
        circle.arc(from, to)
    });
    Pair { v, u, epsilon }
}

/// Anyhow, with both radii of epsilon's size.
fn small_arcs(rng: &mut Rng) -> Pair {
    let epsilon = some_epsilon(rng);
    let radius = epsilon * rng.between(0.5, 1.0);
    let other = epsilon * rng.between(0.5, 2.5);
    let far = rng.between((radius - other).abs().max(epsilon), radius + other);
    let crossing = Crossing::new(Point::default(), [radius, other], far, rng);
    let [v, u] = crossing.circles.map(|circle| {
        let (from, to) = (unit(rng), unit(rng));
        circle.arc(from, to)
    });
    Pair { v, u, epsilon }
}
