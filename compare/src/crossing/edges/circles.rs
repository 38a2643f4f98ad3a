//! Two circles, given as circles or as those of arcs: they just touch from outside or inside, or their centres just count as one.
//!
//! A quick test needs the radii plus epsilon to be at least epsilon. This always holds for accepted circles: the least radius is
//! not lost in a sum with the largest epsilon. The smallest circles, at the distance of an epsilon, come nearest to that limit.

use super::{operands, some_epsilon, Beside, Edge, Way};
use crate::crossing::calls::{at, CALLS};
use crate::crossing::PAIRS;
use crate::inputs::shapes::{either_way, near, unit, Circle};
use crate::inputs::values::power;
use crate::inputs::{Pair, Point, Segment};
use crate::numbers::Numbers;
use crate::rng::Rng;

/// Two circles: their radii, the distance of their centres, epsilon, and how far a number moves.
#[derive(Clone, Copy)]
struct Stand {
    radii: [f64; 2],
    distance: f64,
    epsilon: f64,
    step: f64,
}

/// What the kernel computes from two circles, in its own operations.
struct Circles {
    /// The squared distance of the centres, and the distance.
    d2: f64,
    d: f64,
    sum: f64,
    difference: f64,
    epsilon: f64,
}

impl Circles {
    fn of(n: &[f64]) -> Circles {
        let n = operands(2, n);
        let between = at(&n, 4) - at(&n, 1);
        let d2 = between.dot(between);
        Circles {
            d2,
            d: d2.sqrt(),
            sum: n[0] + n[3],
            difference: (n[0] - n[3]).abs(),
            epsilon: n[6],
        }
    }
}

struct Entry {
    stand: fn(&mut Rng) -> Stand,
    compared: &'static [(&'static str, Compare)],
}

type Compare = fn(Circles) -> Beside;

const ENTRIES: [Entry; 8] = [
    Entry {
        stand: |rng| outside(true, rng),
        compared: &[
            ("(r1 + r2 + eps)^2 at d^2", square_at_d2),
            ("r1 + r2 + eps at d", reach_at_d),
        ],
    },
    Entry {
        stand: |rng| outside(false, rng),
        compared: &[("r1 + r2 at d", |c| Beside::new(c.sum, c.d))],
    },
    Entry {
        stand: smallest,
        compared: &[("r1 + r2 + eps at d, radii from 2^-40 on", reach_at_d)],
    },
    Entry {
        stand: |rng| nested(-1.0, rng),
        compared: &[
            ("(|r1 - r2| - eps)^2 at d^2", |c| {
                let inner = c.difference - c.epsilon;
                Beside::new(inner * inner, c.d2)
            }),
            ("|r1 - r2| at d + eps", |c| {
                Beside::new(c.difference, c.d + c.epsilon)
            }),
        ],
    },
    Entry {
        stand: |rng| nested(-2.0, rng),
        compared: &[("(|r1 - r2| - 2 eps)^2 at d^2", inside_at_d2)],
    },
    Entry {
        stand: |rng| nested(1.0, rng),
        compared: &[("|r1 - r2| at d - eps", |c| {
            Beside::new(c.difference, c.d - c.epsilon)
        })],
    },
    Entry {
        stand: |rng| about_one_centre(true, rng),
        compared: &[("d at eps", |c| Beside::new(c.d, c.epsilon))],
    },
    Entry {
        stand: |rng| about_one_centre(false, rng),
        compared: &[("|r1 - r2| at eps, d below it", |c| {
            Beside::new(c.difference, c.epsilon)
        })],
    },
];

fn square_at_d2(c: Circles) -> Beside {
    let reach = c.sum + c.epsilon;
    Beside::new(reach * reach, c.d2)
}

fn inside_at_d2(c: Circles) -> Beside {
    let inner = c.difference - (c.epsilon + c.epsilon);
    Beside::new(inner * inner, c.d2)
}

fn reach_at_d(c: Circles) -> Beside {
    Beside::new(c.sum + c.epsilon, c.d)
}

pub fn edges() -> Vec<Edge> {
    let edge = |entry: &'static Entry| {
        let (name, first) = &entry.compared[0];
        let edge = Edge::new(
            *name,
            |rng| drawn((entry.stand)(rng), rng),
            |n| first(Circles::of(n)),
        );
        entry.compared[1..].iter().fold(edge, |edge, (name, more)| {
            edge.and(*name, |n| more(Circles::of(n)))
        })
    };
    let by_quick_test = [
        Edge::new(
            "(r1 + r2 + eps)^2 at d^2, two arcs by a quick test",
            |rng| arcs(outside(true, rng), rng),
            |n| square_at_d2(Circles::of(n)),
        ),
        Edge::new(
            "(|r1 - r2| - 2 eps)^2 at d^2, two arcs by a quick test",
            |rng| arcs(nested(-2.0, rng), rng),
            |n| inside_at_d2(Circles::of(n)),
        ),
    ];
    let all = ENTRIES.iter().map(edge);
    all.chain(by_quick_test.map(Edge::by_what_is_kept))
        .collect()
}

/// As two arcs, or as circles by themselves.
fn drawn(stand: Stand, rng: &mut Rng) -> Way {
    if rng.one_in(4) {
        circles(stand, rng)
    } else {
        arcs(stand, rng)
    }
}

fn radius(rng: &mut Rng) -> f64 {
    match rng.below(4) {
        0 => rng.pick(&[0.25, 1.0, 5.0, 1000.0]),
        1 => power(rng, -2, 3),
        _ => power(rng, -10, 15),
    }
}

/// The circles touch from outside, or are an epsilon farther from each other.
fn outside(by_epsilon: bool, rng: &mut Rng) -> Stand {
    let first = radius(rng);
    let any = rng.between(0.01, 1.0);
    let radii = [first, first * rng.pick(&[1.0, 0.5, 3.0, any])];
    let epsilon = some_epsilon(rng);
    let far = if by_epsilon { epsilon } else { 0.0 };
    Stand {
        radii,
        distance: radii[0] + radii[1] + far,
        epsilon,
        step: radii[0].min(radii[1]) / 8.0,
    }
}

fn smallest(rng: &mut Rng) -> Stand {
    let radii = [0; 2].map(|_| power(rng, -40, -30));
    let epsilon = some_epsilon(rng);
    Stand {
        radii,
        distance: radii[0] + radii[1] + epsilon,
        epsilon,
        step: radii[0].min(radii[1]) / 8.0,
    }
}

/// One inside the other, touching it, moved by this many epsilons outwards, or inwards if below zero.
fn nested(outwards: f64, rng: &mut Rng) -> Stand {
    let first = radius(rng);
    let any = rng.between(0.01, 0.95);
    let second = first * rng.pick(&[0.5, 0.25, 1.75, any, any]);
    let difference = (first - second).abs();
    // not so wide that two centres count as one
    let epsilon = some_epsilon(rng).min(difference / 4.0);
    Stand {
        radii: [first, second],
        distance: difference + outwards * epsilon,
        epsilon,
        step: difference / 8.0,
    }
}

/// Centres at the distance of an epsilon; or nearer, with radii that differ by an epsilon.
fn about_one_centre(centres: bool, rng: &mut Rng) -> Stand {
    let epsilon = some_epsilon(rng);
    let first = radius(rng).max(3.0 * epsilon);
    let [second, distance] = if centres {
        let second = match rng.below(4) {
            0 => first * 0.5,
            1 => first + rng.sign() * epsilon * rng.between(0.0, 2.0),
            _ => first,
        };
        [second, epsilon]
    } else {
        let any = rng.unit();
        let distance = rng.pick(&[0.0, 0.5, any]) * epsilon;
        [first + rng.sign() * epsilon, distance]
    };
    Stand {
        radii: [first, second],
        distance,
        epsilon,
        step: epsilon / 2.0,
    }
}

/// The centre of the first circle: mostly near the origin, where floats are finer than the circles.
fn centre(size: f64, rng: &mut Rng) -> Point {
    let far = rng.pick(&[0.0, 0.0, size, 100.0]);
    near(Point::default(), far, rng)
}

fn circles(stand: Stand, rng: &mut Rng) -> Way {
    let Stand {
        radii,
        distance,
        epsilon,
        step,
    } = stand;
    let first = centre(radii[0], rng);
    let second = first.along(unit(rng), distance);
    // as large or small as circles may be
    let size = if rng.one_in(4) && radii[0].min(radii[1]) > 1e-3 && radii[0].max(radii[1]) < 1e5 {
        power(rng, -25, 25)
    } else {
        1.0
    };
    let epsilon = (epsilon * size).clamp(1e-12, 0.5);
    let [r1, r2] = radii.map(|r| r * size);
    let [a, b, c, d] = [first.x, first.y, second.x, second.y].map(|x| x * size);
    let numbers: Numbers = [r1, a, b, r2, c, d, epsilon].into();
    Way::new(numbers, rng.below(6) as usize, step * size)
}

fn arcs(stand: Stand, rng: &mut Rng) -> Way {
    let Stand {
        radii,
        distance,
        epsilon,
        step,
    } = stand;
    let way = unit(rng);
    let center = centre(radii[0], rng);
    let first = Circle {
        center,
        radius: radii[0],
    };
    let second = Circle {
        center: center.along(way, distance),
        radius: radii[1],
    };
    // where they touch, seen from each centre
    let back = Point::default().along(way, -1.0);
    let touching = if distance > radii[0].max(radii[1]) {
        [way, back]
    } else if radii[0] > radii[1] {
        [way, way]
    } else {
        [back, back]
    };
    let v = arc_about(&first, touching[0], rng);
    let u = arc_about(&second, touching[1], rng);
    some_number(Pair { v, u, epsilon }, step, [2, 8], rng)
}

/// An arc that mostly contains this direction, and now and then ends in it.
pub fn arc_about(circle: &Circle, way: Point, rng: &mut Rng) -> Segment {
    let turned = |t: f64| {
        let (a, b) = ((1.0 - t * t) / (1.0 + t * t), 2.0 * t / (1.0 + t * t));
        Point {
            x: a * way.x - b * way.y,
            y: b * way.x + a * way.y,
        }
    };
    let any = rng.between(0.01, 1.0);
    let [back, on] = [0; 2].map(|_| rng.pick(&[0.0, 0.125, 0.5, any, any]));
    let on = if back + on == 0.0 { any } else { on };
    either_way(circle.arc(turned(-back), turned(on)), rng)
}

/// A coordinate moves by this much, or one of these bulges by a part of itself.
pub fn some_number(pair: Pair, step: f64, bulges: [usize; 2], rng: &mut Rng) -> Way {
    let numbers = (CALLS[PAIRS].operands)(&pair, rng);
    if rng.one_in(8) {
        return Way::in_parts(numbers, rng.pick(&bulges), 1.0 / 16.0);
    }
    Way::new(numbers, rng.pick(&[0, 1, 3, 4, 6, 7, 9, 10]), step)
}
