//! A line and a circle, given as a circle or as an arc's: the line is just far from the circle, just touches it, or just ends on
//! it.
//!
//! The test that a line is far has two comparisons. The one of the guess with the root always says the same: the guess has a
//! margin of one part in 512. Nor can its numbers be too large: a slope is at most some 2^48.

use cavalier_contours::core::math::{line_circle_intr, LineCircleIntr, Vector2};

use super::circles::{arc_about, some_number};
use super::lines::PARAMETERS;
use super::{operands, some_epsilon, Beside, Edge, Way};
use crate::crossing::calls::{at, CALLS};
use crate::crossing::faults::two_to;
use crate::crossing::PAIRS;
use crate::inputs::shapes::{line, near, unit, Circle};
use crate::inputs::values::power;
use crate::inputs::{Pair, Point, Segment};
use crate::numbers::Numbers;
use crate::rng::Rng;

/// What the kernel computes from a line and a circle, in its own operations.
struct Meeting {
    from: Vector2,
    to: Vector2,
    center: Vector2,
    radius: f64,
    epsilon: f64,
    /// The line is a * x + b * y + c = 0, relative to the circle's centre.
    a: f64,
    b: f64,
    c: f64,
}

impl Meeting {
    fn of(n: &[f64]) -> Meeting {
        let n = operands(1, n);
        let (from, to, center) = (at(&n, 0), at(&n, 2), at(&n, 5));
        let (dx, dy) = (to.x - from.x, to.y - from.y);
        let (start, end) = (from - center, to - center);
        let (a, b, c) = if dx.abs() < 1e-8 {
            (1.0, 0.0, -((end.x + start.x) / 2.0))
        } else {
            let m = dy / dx;
            (m, -1.0, end.y - m * end.x)
        };
        Meeting {
            from,
            to,
            center,
            radius: n[4],
            epsilon: n[7],
            a,
            b,
            c,
        }
    }

    fn square(&self) -> f64 {
        self.a * self.a + self.b * self.b
    }

    /// The line's distance from the centre.
    fn distance(&self) -> f64 {
        self.c.abs() / self.square().sqrt()
    }

    fn reach(&self) -> f64 {
        self.radius + self.epsilon
    }

    /// The number with which the kernel's quick test compares |c|: a guess above the root times a number above the reach.
    fn guess(&self) -> f64 {
        let sides = self.a.abs() + self.b.abs();
        let root = (sides + self.square() / sides) * (513.0 / 1024.0);
        self.reach() * (129.0 / 128.0) * root
    }

    /// The number with which the pair's quick test compares |c|: the same, with a better guess. For a line that is a point it
    /// says no.
    fn quick_tested(&self) -> f64 {
        let q = self.square();
        let sides = self.a.abs() + self.b.abs();
        let first = (sides + q / sides) * 0.5;
        let root = (first + q / first) * (513.0 / 1024.0);
        if self.from.fuzzy_eq_eps(self.to, self.epsilon) {
            f64::NAN
        } else {
            self.reach() * (129.0 / 128.0) * root
        }
    }

    fn is_upright(&self) -> bool {
        self.b == 0.0
    }

    /// The parameter of a point where the line meets the circle: the one nearer to the given one.
    fn t_near(&self, given: f64) -> f64 {
        let answer = line_circle_intr(self.from, self.to, self.radius, self.center, self.epsilon);
        match answer {
            LineCircleIntr::NoIntersect => f64::NAN,
            LineCircleIntr::TangentIntersect { t0 } => t0,
            LineCircleIntr::TwoIntersects { t0, t1 } => {
                if (t0 - given).abs() < (t1 - given).abs() {
                    t0
                } else {
                    t1
                }
            }
        }
    }

    fn length(&self) -> f64 {
        (self.to - self.from).length()
    }
}

struct Entry {
    name: &'static str,
    /// How far the line is from the centre, for a radius and an epsilon.
    far: Far,
    beside: fn(Meeting) -> Beside,
}

const ENTRIES: [Entry; 2] = [
    Entry {
        name: "|c| at the shortcut's guess",
        far: |radius, epsilon, rng| (radius + epsilon) * rng.between(1.005, 1.08),
        beside: |m| Beside::new(m.c.abs(), m.guess()),
    },
    Entry {
        name: "distance at r + eps",
        far: |radius, epsilon, _| radius + epsilon,
        beside: |m| Beside::new(m.distance(), m.reach()),
    },
];

pub fn edges() -> Vec<Edge> {
    let edge = |entry: &'static Entry| {
        Edge::new(
            entry.name,
            |rng| drawn(entry.far, rng),
            |n| (entry.beside)(Meeting::of(n)),
        )
    };
    let mut all: Vec<Edge> = ENTRIES.iter().map(edge).collect();
    // no quick test is about this
    let touching = Edge::new(
        "distance at r",
        |rng| drawn(|radius, _, _| radius, rng),
        |n| {
            let meeting = Meeting::of(n);
            Beside::new(meeting.distance(), meeting.radius)
        },
    );
    all.push(touching);
    // the quick test's own limit, where no line is far
    let through = Edge::new("|c| at 2^-100", through_centre, |n| {
        Beside::new(Meeting::of(n).c.abs(), two_to(-100))
    });
    all.push(through);
    let upright = Edge::new("|dx| at 1e-8", hardly_upright, |n| {
        let meeting = Meeting::of(n);
        Beside::new((meeting.to.x - meeting.from.x).abs(), 1e-8)
    });
    all.push(upright);
    for (place, t) in [PARAMETERS[0], PARAMETERS[2], PARAMETERS[4]] {
        all.push(Edge::new(
            format!("t on a line beside an arc at {place}"),
            move |rng| ending(|_, _| t, rng),
            move |n| Beside::sized(Meeting::of(n).t_near(t), t, 1.0),
        ));
    }
    all.push(Edge::new(
        "t * length on a line beside an arc at -eps",
        |rng| ending(|length, epsilon| -epsilon / length, rng),
        |n| {
            let meeting = Meeting::of(n);
            let along = meeting.t_near(0.0) * meeting.length();
            Beside::sized(along + meeting.epsilon, 0.0, meeting.epsilon)
        },
    ));
    all.push(Edge::new(
        "t * length on a line beside an arc at length + eps",
        |rng| ending(|length, epsilon| 1.0 + epsilon / length, rng),
        |n| {
            let meeting = Meeting::of(n);
            let length = meeting.length();
            Beside::new(meeting.t_near(1.0) * length, length + meeting.epsilon)
        },
    ));
    for line_first in [true, false] {
        all.extend([false, true].map(|upright| by_quick_test(upright, line_first)));
        all.extend(near_zero(line_first).map(Edge::of_pairs_only));
    }
    all
}

fn order(line_first: bool) -> &'static str {
    if line_first {
        "line and arc"
    } else {
        "arc and line"
    }
}

/// The meeting of a pair of segments in this order. Any other pair is beside no edge.
fn in_order(line_first: bool, n: &[f64]) -> Option<Meeting> {
    (line_first == (n[2].abs() < 1e-8)).then(|| Meeting::of(n))
}

const NOWHERE: Beside = Beside {
    number: f64::NAN,
    edge: f64::NAN,
    size: f64::NAN,
};

fn by_quick_test(upright: bool, line_first: bool) -> Edge {
    let line = if upright { "upright" } else { "slanted" };
    let edge = Edge::new(
        format!("|c| at the quick test's guess, {line}, {}", order(line_first)),
        move |rng| quick_tested(upright, line_first, rng),
        move |n| match in_order(line_first, n) {
            Some(m) if m.is_upright() == upright => Beside::new(m.c.abs(), m.quick_tested()),
            _ => NOWHERE,
        },
    );
    edge.by_what_is_kept()
}

/// Two lines beside an arc: one that is just not upright by the default epsilon, and one that is just not a point by the epsilon.
fn near_zero(line_first: bool) -> [Edge; 2] {
    let upright = Edge::new(
        format!("|dx| at 1e-8, {}", order(line_first)),
        move |rng| upright_beside_arc(line_first, rng),
        move |n| match in_order(line_first, n) {
            Some(m) => Beside::new((m.to.x - m.from.x).abs(), 1e-8),
            None => NOWHERE,
        },
    );
    let point = Edge::new(
        format!("the line's longer side at eps, {}", order(line_first)),
        move |rng| point_beside_arc(line_first, rng),
        move |n| match in_order(line_first, n) {
            Some(m) => {
                let way = m.to - m.from;
                Beside::new(way.x.abs().max(way.y.abs()), m.epsilon)
            }
            None => NOWHERE,
        },
    );
    [upright, point]
}

fn some_circle(rng: &mut Rng) -> Circle {
    let radius = match rng.below(4) {
        0 => rng.pick(&[0.25, 1.0, 5.0, 1000.0]),
        1 => power(rng, -2, 3),
        _ => power(rng, -8, 14),
    };
    let far = rng.pick(&[0.0, 0.0, radius, 100.0]);
    let center = near(Point::default(), far, rng);
    Circle { center, radius }
}

/// A line across this direction, this far from the centre, around its nearest point.
fn line_at(circle: &Circle, way: Point, far: f64, rng: &mut Rng) -> [Point; 2] {
    let nearest = circle.center.along(way, far);
    let size = circle.radius * rng.pick(&[0.1, 1.0, 1.0, 10.0]);
    let back = rng.pick(&[0.0, 0.5, 1.0, 1.0]) * size;
    let from = nearest.along(way.turned(), -back);
    [from, from.along(way.turned(), size * rng.sign())]
}

type Far = fn(f64, f64, &mut Rng) -> f64;

/// As a line and an arc, or as a line and a circle by itself.
fn drawn(far: Far, rng: &mut Rng) -> Way {
    if rng.one_in(4) {
        circle(far, rng)
    } else {
        arc(far, rng)
    }
}

fn circle(far: Far, rng: &mut Rng) -> Way {
    let circle = some_circle(rng);
    let epsilon = some_epsilon(rng);
    let far = far(circle.radius, epsilon, rng);
    let [from, to] = line_at(&circle, unit(rng), far, rng);
    let Circle { center, radius } = circle;
    let numbers: Numbers = [
        from.x, from.y, to.x, to.y, radius, center.x, center.y, epsilon,
    ]
    .into();
    let place = rng.below(7) as usize;
    Way::new(numbers, place, radius / 8.0)
}

fn arc(far: Far, rng: &mut Rng) -> Way {
    let circle = some_circle(rng);
    let epsilon = some_epsilon(rng);
    let far = far(circle.radius, epsilon, rng);
    let way = unit(rng);
    let [from, to] = line_at(&circle, way, far, rng);
    let line = line(from, to, rng);
    beside_arc(&circle, way, line, epsilon, rng)
}

/// The line and an arc about this direction, either first.
fn beside_arc(circle: &Circle, way: Point, line: Segment, epsilon: f64, rng: &mut Rng) -> Way {
    let arc = arc_about(circle, way, rng);
    let (pair, bulge) = ordered(rng.one_in(2), line, arc, epsilon);
    let step = arc.chord().length() / 8.0;
    some_number(pair, step, [bulge; 2], rng)
}

/// A line and an arc in this order, and the place of the arc's bulge.
fn ordered(line_first: bool, line: Segment, arc: Segment, epsilon: f64) -> (Pair, usize) {
    let (v, u, bulge) = if line_first {
        (line, arc, 8)
    } else {
        (arc, line, 2)
    };
    (Pair { v, u, epsilon }, bulge)
}

/// A line so far from an arc's circle that the quick test only just says yes.
fn quick_tested(upright: bool, line_first: bool, rng: &mut Rng) -> Way {
    let circle = some_circle(rng);
    let epsilon = some_epsilon(rng);
    let way = if upright {
        Point {
            x: rng.sign(),
            y: 0.0,
        }
    } else {
        across_slanted(rng)
    };
    let far = (circle.radius + epsilon) * rng.between(1.0095, 1.0118);
    let [from, mut to] = line_at(&circle, way, far, rng);
    if upright {
        to.x += rng.pick(&[0.0, 0.0, 1e-9, -9e-9]);
    }
    let arc = arc_about(&circle, way, rng);
    let (pair, bulge) = ordered(line_first, line(from, to, rng), arc, epsilon);
    let step = arc.chord().length() / 8.0;
    if !upright {
        return some_number(pair, step, [bulge; 2], rng);
    }
    // if an end of the line moves, the line may become slanted
    let numbers = (CALLS[PAIRS].operands)(&pair, rng);
    let first = bulge - 2;
    match rng.below(8) {
        0 => Way::in_parts(numbers, bulge, 1.0 / 16.0),
        _ => Way::new(numbers, first + rng.pick(&[0, 1, 3, 4]), step),
    }
}

/// A direction from a centre to a line that is not upright, but now and then nearly is.
fn across_slanted(rng: &mut Rng) -> Point {
    if rng.one_in(8) {
        return Point {
            x: rng.sign(),
            y: rng.sign() * power(rng, -24, -4),
        };
    }
    loop {
        let way = unit(rng);
        if way.y != 0.0 {
            return way;
        }
    }
}

/// A line along an axis, nearly through the circle's centre at the origin.
fn through_centre(rng: &mut Rng) -> Way {
    let radius = power(rng, -8, 14);
    let (from, to) = (rng.between(-2.0, 2.0) * radius, radius * power(rng, -4, 4));
    let aside = rng.sign() * two_to(-100);
    let epsilon = some_epsilon(rng);
    let (ends, place) = if rng.one_in(2) {
        ([from, aside, to, aside], rng.pick(&[1, 3]))
    } else {
        ([aside, from, aside, to], rng.pick(&[0, 2]))
    };
    let [a, b, c, d] = ends;
    let numbers: Numbers = [a, b, c, d, radius, 0.0, 0.0, epsilon].into();
    Way::in_parts(numbers, place, 0.5)
}

/// A line that is upright except for the least that makes a slope, through a circle or beside it.
fn hardly_upright(rng: &mut Rng) -> Way {
    let circle = some_circle(rng);
    let epsilon = some_epsilon(rng).min(1e-5);
    // the line's numbers are small: floats must be fine there
    let x = rng.pick(&[0.0, 1e-9, 1e-8, -3e-8]);
    let to = x + rng.sign() * 1e-8;
    let [y, end] = [0; 2].map(|_| rng.between(-2.0, 2.0) * circle.radius);
    let any = rng.unit();
    let center = Point {
        x: circle.radius * rng.pick(&[1.0, -1.0, 0.5, 1.5, any]),
        y: circle.center.y,
    };
    let numbers: Numbers = [x, y, to, end, circle.radius, center.x, center.y, epsilon].into();
    Way::new(numbers, rng.pick(&[0, 2]), 1e-9)
}

/// The same beside an arc.
fn upright_beside_arc(line_first: bool, rng: &mut Rng) -> Way {
    let drawn = some_circle(rng);
    let any = rng.unit();
    let center = Point {
        x: drawn.radius * rng.pick(&[1.0, -1.0, 0.5, 1.5, any]),
        y: drawn.center.y,
    };
    let circle = Circle { center, ..drawn };
    let x = rng.pick(&[0.0, 1e-9, 1e-8, -3e-8]);
    let [y, end] = [0; 2].map(|_| center.y + rng.between(-2.0, 2.0) * circle.radius);
    let to = Point {
        x: x + rng.sign() * 1e-8,
        y: end,
    };
    let line = line(Point { x, y }, to, rng);
    let arc = arc_about(&circle, unit(rng), rng);
    let epsilon = some_epsilon(rng).min(1e-5);
    let (pair, bulge) = ordered(line_first, line, arc, epsilon);
    let numbers = (CALLS[PAIRS].operands)(&pair, rng);
    Way::new(numbers, 8 - bulge + rng.pick(&[0, 3]), 1e-9)
}

/// A line whose longer side is an epsilon, at a place where its distance from the centre decides: on the circle or an epsilon
/// beside it.
fn point_beside_arc(line_first: bool, rng: &mut Rng) -> Way {
    let epsilon = some_epsilon(rng);
    let drawn = some_circle(rng);
    let way = unit(rng);
    let any = rng.between(-2.0, 2.0);
    let aside = epsilon * rng.pick(&[0.0, 1.0, -1.0, any]);
    // the circle's point is at the origin, where floats are fine enough for the line
    let center = Point::default().along(way, -drawn.radius - aside);
    let circle = Circle { center, ..drawn };
    let any = rng.unit();
    let [longer, shorter] = [rng.sign(), rng.pick(&[0.0, any])].map(|part| part * epsilon);
    let along_y = rng.one_in(2);
    let [x, y] = if along_y {
        [shorter, longer]
    } else {
        [longer, shorter]
    };
    let from = near(Point::default(), rng.pick(&[0.0, epsilon]), rng);
    let line = line(from, from.along(Point { x, y }, 1.0), rng);
    let arc = arc_about(&circle, way, rng);
    let (pair, bulge) = ordered(line_first, line, arc, epsilon);
    let numbers = (CALLS[PAIRS].operands)(&pair, rng);
    let place = 8 - bulge + rng.pick(&[0, 3]) + usize::from(along_y);
    Way::new(numbers, place, epsilon / 64.0)
}

/// A line that crosses the circle at the parameter that `t` gives for its length and the epsilon.
fn ending(t: impl Fn(f64, f64) -> f64, rng: &mut Rng) -> Way {
    let circle = some_circle(rng);
    let epsilon = some_epsilon(rng);
    let way = unit(rng);
    let along = unit(rng);
    let length = circle.radius * rng.pick(&[0.25, 1.0, 1.0, 3.0]);
    let from = circle.at(way).along(along, -length * t(length, epsilon));
    let line = line(from, from.along(along, length), rng);
    beside_arc(&circle, way, line, epsilon, rng)
}
