//! Paths of which most pairs lie on an edge: the lines of one path all go through a point, or towards it, and end where a
//! parameter decides; those of the other path go through that point too. Each line is walked to and fro, so that its other end is
//! at the point as well and each product comes with either sign.
//!
//! On a lattice of powers of two every product is exact, so that pairs are at the edge itself. Elsewhere the last bits of the
//! coordinates put them on either side.

use super::edges::Family;
use super::lines::{beside_circle, Circle, Side};
use super::places::unjudged;
use crate::crossing::faults::two_to;
use crate::inputs::shapes::{near, unit};
use crate::inputs::values::{line_bulge, power, whole};
use crate::inputs::{Point, Vertex};
use crate::listings::layout::{Call, Drawn, Layout};
use crate::rng::Rng;

/// Lines a path, at least, each of which is walked three times; and so many more in the second.
const LINES: usize = 16;
const MORE: u64 = 24;

/// A line from one point to another.
type Line = [Point; 2];

struct Star {
    lines: [Vec<Line>; 2],
    epsilon: f64,
}

/// Bulges of a path's vertices: a line's, or a half circle's to either side.
fn bulge(arcs: bool, rng: &mut Rng) -> f64 {
    match arcs {
        true => rng.sign(),
        false => line_bulge(rng),
    }
}

/// A listing of a star for this family. If it is `exact`, on a lattice.
pub fn draw(family: Family, exact: bool, rng: &mut Rng) -> (Layout, Call) {
    let star = match family {
        Family::Clear(which) => clear(which, exact, rng),
        Family::Ends(which) => ends(which, exact, rng),
        Family::Ways => ways(exact, rng),
        Family::Apart(which) => apart(which, exact, rng),
        Family::Square(which) => as_short_as_usual(which, exact, rng),
        Family::Largest(which) => by_epsilon(two_to(-10), which, exact, rng),
        Family::Smallest(which) => by_epsilon(two_to(-40), which, exact, rng),
        Family::Round(which) => round(which, rng),
    };
    let shaken = !exact;
    let arcs = match family {
        Family::Round(which) => [which == 1, which == 0],
        _ => [false; 2],
    };
    let [first, mut second] =
        [0, 1].map(|at: usize| walked(&star.lines[at], arcs[at], shaken, rng));
    let closed = [0; 2].map(|_| rng.one_in(4));
    let epsilon = star.epsilon;
    let own = rng.one_in(4);
    let rest = pad(if own { &first } else { &[] }, &second, epsilon);
    second.extend(rest);
    if own {
        let first = Drawn::new(&[first, second].concat(), closed[0]);
        let second = Drawn::default();
        let layout = Layout {
            first,
            second,
            epsilon,
        };
        return (layout, Call::Own);
    }
    let layout = Layout {
        first: Drawn::new(&first, closed[0]),
        second: Drawn::new(&second, closed[1]),
        epsilon,
    };
    (layout, Call::Mutual)
}

/// Usual lines far away, so many that the sieve judges seven of eight segments of the second path, or of both in one.
fn pad(first: &[Vertex], second: &[Vertex], epsilon: f64) -> Vec<Vertex> {
    let all = [first, second].concat();
    let drawn = Drawn::new(&all, true);
    let unjudged = unjudged(&Side::all(drawn.path()), epsilon);
    let missing = (8 * (unjudged + 2)).saturating_sub(all.len());
    if missing > MOST_PADDING {
        return Vec::new();
    }
    let far = |v: &Vertex| v.at.x.abs().max(v.at.y.abs());
    let far = 10.0 + 4.0 * all.iter().map(far).fold(0.0, f64::max);
    let place = |k: usize| at(far + (k % 2) as f64, far + (k / 16) as f64);
    (0..missing)
        .map(|k| Vertex {
            at: place(k),
            bulge: 0.0,
        })
        .collect()
}

/// More than this no padding helps.
const MOST_PADDING: usize = 2000;

/// How many lines each path has.
fn counts(rng: &mut Rng) -> [usize; 2] {
    [LINES, LINES + rng.below(MORE) as usize]
}

/// Each line there, back and there again, one after the other.
fn walked(lines: &[Line], arcs: bool, shaken: bool, rng: &mut Rng) -> Vec<Vertex> {
    let mut path = Vec::new();
    for [from, to] in lines {
        for at in [from, to, from, to] {
            let mut at = *at;
            if shaken {
                at = Point {
                    x: beside(at.x, rng),
                    y: beside(at.y, rng),
                };
            }
            let bulge = bulge(arcs, rng);
            path.push(Vertex { at, bulge });
        }
    }
    path
}

/// The number, or mostly a float next to it; a zero stays.
fn beside(x: f64, rng: &mut Rng) -> f64 {
    let steps = rng.pick(&[0, 0, 0, 0, 1, 1, 2]);
    let magnitude = x.abs().to_bits();
    if magnitude == 0 {
        return x;
    }
    let moved = if rng.one_in(2) {
        magnitude + steps
    } else {
        magnitude.saturating_sub(steps).max(1)
    };
    f64::from_bits(moved).copysign(x)
}

fn at(x: f64, y: f64) -> Point {
    Point { x, y }
}

/// A point on a lattice.
fn on(cell: f64, most: u64, rng: &mut Rng) -> Point {
    at(cell * whole(rng, most), cell * whole(rng, most))
}

/// A way on a lattice that is not zero.
fn way_on(cell: f64, most: u64, rng: &mut Rng) -> Point {
    loop {
        let way = on(cell, most, rng);
        if way.x != 0.0 || way.y != 0.0 {
            return way;
        }
    }
}

/// One of the axes, either way.
fn axis(rng: &mut Rng) -> Point {
    let sign = rng.sign();
    rng.pick(&[at(sign, 0.0), at(0.0, sign)])
}

fn usual_epsilon(rng: &mut Rng) -> f64 {
    match rng.below(4) {
        0 => two_to(-10),
        1 => 1e-5,
        2 => rng.pick(&[1e-8, two_to(-20), two_to(-40)]),
        _ => power(rng, -40, -10),
    }
}

/// The lines that the edge is about, and the others, in this order or in the other.
fn in_order(which: usize, about: Vec<Line>, others: Vec<Line>) -> [Vec<Line>; 2] {
    if which == 0 {
        [about, others]
    } else {
        [others, about]
    }
}

/// The line along a way that has the point at this parameter.
fn line_at(hub: Point, way: Point, t: f64) -> Line {
    [hub.along(way, -t), hub.along(way, 1.0 - t)]
}

/// Lines through a point, which lies mostly well within them; on a lattice with this cell.
fn through_on(hub: Point, cell: f64, most: u64, count: usize, rng: &mut Rng) -> Vec<Line> {
    let mut line = || {
        let way = way_on(cell, most, rng);
        let [before, behind] = [0; 2].map(|_| 1.0 + rng.below(3) as f64);
        [hub.along(way, -before), hub.along(way, behind)]
    };
    (0..count).map(|_| line()).collect()
}

/// The same anywhere. One in eight has the point beside an end too.
fn through(hub: Point, size: f64, count: usize, rng: &mut Rng) -> Vec<Line> {
    let mut line = || {
        let length = size * rng.between(0.25, 2.0);
        let way = Point::default().along(unit(rng), length.max(two_to(-4)));
        let t = match rng.below(8) {
            0 => rng.pick(&[-1.0 / 32.0, 0.0, 31.0 / 32.0, 1.0, 33.0 / 32.0]),
            _ => rng.between(0.05, 0.95),
        };
        line_at(hub, way, t)
    };
    (0..count).map(|_| line()).collect()
}

/// A length as short as is usual, or a little more.
fn hardly_usual(rng: &mut Rng) -> f64 {
    let longer = rng.pick(&[0.0, two_to(-52), two_to(-51), two_to(-50), two_to(-30)]);
    two_to(-5) * (1.0 + longer)
}

/// Lines that the point lies beyond, by a 32nd of their length. Half of the time they are as short as is usual and epsilon is the
/// largest usual one: there the clear part begins where the Rust's own begins.
fn clear(which: usize, exact: bool, rng: &mut Rng) -> Star {
    let [few, many] = counts(rng);
    let corner = rng.one_in(2);
    if exact {
        let cell = if corner {
            two_to(-10)
        } else {
            two_to(rng.below(9) as i32 - 4)
        };
        let hub = on(cell, 100, rng);
        let mut line = || {
            let step = if corner {
                Point::default().along(axis(rng), cell)
            } else {
                way_on(cell, 3, rng)
            };
            // from 33 steps before the point to one before it, or from one behind it
            if rng.one_in(2) {
                [hub.along(step, -33.0), hub.along(step, -1.0)]
            } else {
                [hub.along(step, 1.0), hub.along(step, 33.0)]
            }
        };
        let about = (0..few).map(|_| line()).collect();
        let others = through_on(hub, 32.0 * cell, 3, many, rng);
        return Star {
            lines: in_order(which, about, others),
            epsilon: if corner {
                two_to(-10)
            } else {
                usual_epsilon(rng)
            },
        };
    }
    let size = power(rng, -4, 12);
    let far = if corner { 0.1 } else { size };
    let hub = near(Point::default(), rng.pick(&[0.0, far]), rng);
    let mut line = || {
        let length = match corner {
            true => hardly_usual(rng),
            false => size * rng.between(0.5, 2.0),
        };
        let way = Point::default().along(unit(rng), length);
        let t = rng.pick(&[33.0 / 32.0, -1.0 / 32.0]);
        // now and then a little less than clear, which only the shortest lines tell from the end
        let t = t * (1.0 - rng.pick(&[0.0, 0.0, 0.0, two_to(-52), two_to(-46), two_to(-34)]));
        line_at(hub, way, t)
    };
    let about = (0..few).map(|_| line()).collect();
    let others = through(hub, if corner { 0.5 } else { size }, many, rng);
    Star {
        lines: in_order(which, about, others),
        epsilon: if corner {
            two_to(-10)
        } else {
            usual_epsilon(rng)
        },
    }
}

/// Lines that the point lies an epsilon before, or as far within.
fn ends(which: usize, exact: bool, rng: &mut Rng) -> Star {
    let [few, many] = counts(rng);
    if exact {
        let epsilon = two_to(-10 * (1 + rng.below(4) as i32));
        let hub = on(1.0, 8, rng);
        let mut line = || {
            let (way, length) = (axis(rng), two_to(rng.below(11) as i32 - 5));
            let from = hub.along(way, rng.sign() * epsilon);
            [from, from.along(way, length)]
        };
        let about = (0..few).map(|_| line()).collect();
        let others = through_on(hub, 1.0, 8, many, rng);
        return Star {
            lines: in_order(which, about, others),
            epsilon,
        };
    }
    let epsilon = usual_epsilon(rng);
    let size = power(rng, -4, 8);
    let hub = near(Point::default(), rng.pick(&[0.0, size]), rng);
    let mut line = || {
        let length = match rng.below(4) {
            0 => hardly_usual(rng),
            _ => size * rng.between(0.5, 2.0),
        };
        let way = Point::default().along(unit(rng), length);
        line_at(hub, way, rng.sign() * epsilon / length)
    };
    let about = (0..few).map(|_| line()).collect();
    let others = through(hub, size, many, rng);
    Star {
        lines: in_order(which, about, others),
        epsilon,
    }
}

/// The same with its axes changed round, or turned by some angle, or as it is.
fn turned(star: Star, exact: bool, rng: &mut Rng) -> Star {
    let by = match rng.below(8) {
        0..=3 => return star,
        4 if !exact => unit(rng),
        _ => at(0.0, 1.0),
    };
    let point = |p: Point| at(by.x * p.x - by.y * p.y, by.y * p.x + by.x * p.y);
    let line = |ends: Line| ends.map(point);
    let lines = star
        .lines
        .map(|lines| lines.into_iter().map(line).collect());
    Star { lines, ..star }
}

/// Lines along an axis, all of one length, and others that rise by epsilon divided by it.
fn ways(exact: bool, rng: &mut Rng) -> Star {
    let [few, many] = counts(rng);
    let (epsilon, length) = of_powers(exact, rng);
    let rise = epsilon / length;
    let mut flat = || {
        let x = length * whole(rng, 2) / 2.0;
        let y = rise * rng.pick(&[0.0, 0.25, 0.5, 1.0, -1.0 / 64.0, 65.0 / 64.0]);
        [at(x, y), at(x + length, y)]
    };
    let flat = (0..few).map(|_| flat()).collect();
    let mut rising = || {
        let [from, to] = [0; 2].map(|_| length * whole(rng, 128) / 64.0);
        [at(from, 0.0), at(to, rise)]
    };
    let rising = (0..many).map(|_| rising()).collect();
    let lines = in_order(rng.below(2) as usize, flat, rising);
    turned(Star { lines, epsilon }, exact, rng)
}

/// Lines along an axis, and others beside them, which are as far away as epsilon divided by the first ones' length.
fn apart(which: usize, exact: bool, rng: &mut Rng) -> Star {
    let [few, many] = counts(rng);
    let (epsilon, length) = of_powers(exact, rng);
    let rise = epsilon / length;
    let mut along = || {
        let x = length * whole(rng, 2) / 4.0;
        [at(x, 0.0), at(x + length, 0.0)]
    };
    let about = (0..few).map(|_| along()).collect();
    let mut beside = || {
        let side = rng.sign() * rise;
        let from = length * whole(rng, 128) / 128.0;
        let to = from + length * whole(rng, 64) / 64.0;
        [at(from, side), at(to, side)]
    };
    let others = (0..many).map(|_| beside()).collect();
    // u perp w has the second's length
    let lines = in_order(1 - which, about, others);
    turned(Star { lines, epsilon }, exact, rng)
}

/// An epsilon and a length: powers of two, or any.
fn of_powers(exact: bool, rng: &mut Rng) -> (f64, f64) {
    if exact {
        let epsilon = two_to(-10 - rng.below(31) as i32);
        return (epsilon, two_to(rng.below(11) as i32 - 5));
    }
    (usual_epsilon(rng), power(rng, -5, 6))
}

/// Lines of length 2^-5, which the point lies beyond or an epsilon away from.
fn as_short_as_usual(which: usize, exact: bool, rng: &mut Rng) -> Star {
    let epsilon = rng.pick(&[two_to(-10), two_to(-10), 1e-5, two_to(-20)]);
    short(which, epsilon, exact, rng)
}

fn short(which: usize, epsilon: f64, exact: bool, rng: &mut Rng) -> Star {
    let [few, many] = counts(rng);
    let cell = two_to(-10);
    let hub = match exact {
        true => on(cell, 100, rng),
        false => near(Point::default(), rng.pick(&[0.0, 0.1]), rng),
    };
    let mut line = || {
        let (way, less) = match exact {
            true => (axis(rng), 0.0),
            // now and then a little shorter, so that the segment ends a little behind 33/32
            false => (
                unit(rng),
                rng.pick(&[0.0, 0.0, 0.0, two_to(-31), two_to(-21)]),
            ),
        };
        let length = two_to(-5) * (1.0 - less);
        let away = epsilon / length;
        let between = (1.0 / 32.0 + away) / 2.0;
        let clear = [33.0 / 32.0, -1.0 / 32.0];
        let t = match rng.below(3) {
            0 => rng.pick(&clear),
            1 => rng.pick(&[1.0 + away, -away]),
            _ => rng.pick(&[1.0 + between, -between]),
        };
        line_at(hub, Point::default().along(way, length), t)
    };
    let about = (0..few).map(|_| line()).collect();
    let others = match exact {
        true => through_on(hub, 32.0 * cell, 3, many, rng),
        false => through(hub, 0.5, many, rng),
    };
    Star {
        lines: in_order(which, about, others),
        epsilon,
    }
}

/// An epsilon at a limit of what is usual, or a few floats beside it, with lines at whose ends it decides.
fn by_epsilon(limit: f64, which: usize, exact: bool, rng: &mut Rng) -> Star {
    let epsilon = match exact {
        true => limit,
        false => {
            let steps = match rng.below(4) {
                0 => 1 << rng.below(33),
                _ => 1 + rng.below(4),
            };
            let bits = limit.to_bits();
            f64::from_bits(if rng.one_in(2) {
                bits + steps
            } else {
                bits - steps
            })
        }
    };
    if rng.one_in(2) {
        return short(which, epsilon, exact, rng);
    }
    let [few, many] = counts(rng);
    let hub = near(Point::default(), rng.pick(&[0.0, 1.0]), rng);
    let mut line = || {
        let length = power(rng, -5, 4);
        let way = Point::default().along(unit(rng), length);
        let away = epsilon / length;
        let t = rng.pick(&[-away, 1.0 + away, 33.0 / 32.0]);
        line_at(hub, way, t)
    };
    let about = (0..few).map(|_| line()).collect();
    let others = through(hub, 2.0, many, rng);
    Star {
        lines: in_order(which, about, others),
        epsilon,
    }
}

/// Half circles of one circle, and lines about as far from it as an epsilon, or as the quick test's margin.
fn round(which: usize, rng: &mut Rng) -> Star {
    let [few, many] = counts(rng);
    let epsilon = usual_epsilon(rng);
    let radius = power(rng, -3, 8);
    let center = near(Point::default(), rng.pick(&[0.0, radius]), rng);
    let mut arc = || {
        let way = unit(rng);
        [center.along(way, radius), center.along(way, -radius)]
    };
    let arcs = (0..many).map(|_| arc()).collect();
    let reach = radius + epsilon;
    let mut line = || {
        let way = unit(rng);
        let [before, behind] = [0; 2].map(|_| radius * rng.between(0.1, 1.0));
        let at_distance = |far: f64| {
            let foot = center.along(way, far);
            let along = way.turned();
            [foot.along(along, -before), foot.along(along, behind)]
        };
        match rng.one_in(2) {
            true => at_distance(reach),
            false => at_distance(reach * margin(at_distance(reach), center, radius, epsilon)),
        }
    };
    let lines = (0..few).map(|_| line()).collect();
    Star {
        lines: in_order(which, lines, arcs),
        epsilon,
    }
}

/// How much farther than this a line must be for the quick test.
fn margin([from, to]: Line, center: Point, radius: f64, epsilon: f64) -> f64 {
    let line = Side::between([from.x, from.y], [to.x, to.y]);
    let circle = Circle::new([center.x, center.y], radius);
    let [[c, guess], _] = beside_circle(&line, &circle, epsilon);
    guess / c
}
