//! Pairs worked out by hand, which need no model: the scope's examples D to L, those that the request states, and others.

use super::Ours;
use crate::numbers::Numbers;

pub struct Example {
    name: &'static str,
    /// Each start and end, x before y, and the bulge.
    v: [f64; 5],
    u: [f64; 5],
    epsilon: f64,
    class: u64,
    points: [f64; 4],
    findings: [u64; 4],
}

impl Example {
    pub fn numbers(&self) -> Numbers {
        let ([a, b, c, d, v], [e, f, g, h, u]) = (self.v, self.u);
        [a, b, v, c, d, 0.0, e, f, u, g, h, 0.0, self.epsilon].into()
    }

    /// What is not as written here, if anything.
    pub fn wrong(&self, ours: Ours) -> Option<String> {
        let (mut points, mut findings) = ([f64::NAN; 4], [u64::MAX; 4]);
        let class = (ours.findings)(&self.numbers(), &mut points, &mut findings);
        let right = class == self.class && points == self.points && findings == self.findings;
        (!right).then(|| format!("{}: {class:#x}, {points:?}, {findings:?}", self.name))
    }

    #[cfg(test)]
    pub fn stated(&self) -> (&'static str, u64, [u64; 4]) {
        (self.name, self.class, self.findings)
    }
}

const HALF: [f64; 5] = [-1.0, 0.0, 1.0, 0.0, 1.0];
const BACK: [f64; 5] = [1.0, 0.0, -1.0, 0.0, 1.0];

type Told = (u64, [f64; 4], [u64; 4]);

fn example(name: &'static str, v: [f64; 5], u: [f64; 5], epsilon: f64, told: Told) -> Example {
    let (class, points, findings) = told;
    Example {
        name,
        v,
        u,
        epsilon,
        class,
        points,
        findings,
    }
}

pub fn all() -> Vec<Example> {
    let mut all = of_scope();
    all.extend(of_request());
    all.extend(lines_and_arcs());
    all.extend(two_arcs());
    all
}

fn of_scope() -> Vec<Example> {
    const EPSILON: f64 = 1e-5;
    let line = [0.0, 0.0, 4.0, 0.0, 0.0];
    let upright = [2.0, 0.25, 2.0, 4.0, 0.0];
    let short = [0.0, 0.0, 2.0, 0.0, 0.0];
    vec![
        example(
            "D",
            line,
            [1.0, 0.0, 5.0, 0.0, 0.0],
            EPSILON,
            (4, [1.0, 0.0, 4.0, 0.0], [6; 4]),
        ),
        example(
            "E",
            short,
            [2.0, 0.0, 5.0, 0.0, 0.0],
            EPSILON,
            (2, [2.0, 0.0, 0.0, 0.0], [6; 4]),
        ),
        example(
            "F",
            short,
            [3.0, 0.0, 5.0, 0.0, 0.0],
            0.5,
            (0, [0.0; 4], [6; 4]),
        ),
        example(
            "G, epsilon 1/2",
            line,
            upright,
            0.5,
            (2, [2.0, 0.0, 0.0, 0.0], [6; 4]),
        ),
        example(
            "G, epsilon 1/8",
            line,
            upright,
            0.125,
            (0, [0.0; 4], [6; 4]),
        ),
        example("H", HALF, BACK, EPSILON, (3, [1.0, 0.0, -1.0, 0.0], [6; 4])),
        example(
            "I",
            HALF,
            [1.0, 0.0, -1.0, 0.0, -1.0],
            EPSILON,
            (5, [1.0, 0.0, -1.0, 0.0], [6; 4]),
        ),
        example(
            "J",
            [0.0, -2.0, 0.0, 2.0, 0.0],
            HALF,
            EPSILON,
            (2, [0.0, -1.0, 0.0, 0.0], [6, 2, 6, 0]),
        ),
        example(
            "K",
            [-2.0, -1.0, 2.0, -1.0, 0.0],
            HALF,
            EPSILON,
            (1, [0.0, -1.0, 0.0, 0.0], [6, 2, 6, 6]),
        ),
        example(
            "L",
            [1.0, 0.0, 1.0, 0.0, 0.0],
            short,
            EPSILON,
            (2, [1.0, 0.0, 0.0, 0.0], [6; 4]),
        ),
    ]
}

/// An end makes the answer, and neither computed point counted; and a point that is computed exactly is told as an end.
fn of_request() -> Vec<Example> {
    vec![
        example(
            "an end makes the answer",
            [2.0, 2.0, -2.0, -4.0, -0.5],
            [3.0, -4.0, -4.0, -3.0, -0.25],
            0.1,
            (2, [-2.0, -4.0, 0.0, 0.0], [0, 6, 0, 6]),
        ),
        example(
            "a computed point that is an end",
            [0.0, -1.0, 0.0, 2.0, 0.0],
            HALF,
            1e-5,
            (2, [0.0, -1.0, 0.0, 0.0], [6, 5, 6, 0]),
        ),
    ]
}

/// Lines beside the lower half of the unit circle, and beside arcs on which all points are exact.
fn lines_and_arcs() -> Vec<Example> {
    const EPSILON: f64 = 1.0 / 16.0;
    /// The circle of radius 5 about the origin, from (3, -4) to (3, 4) on the right.
    const RIGHT: [f64; 5] = [3.0, -4.0, 3.0, 4.0, 0.5];
    vec![
        example(
            "the line passes by",
            [-2.0, -2.0, 2.0, -2.0, 0.0],
            HALF,
            EPSILON,
            (0, [0.0; 4], [6; 4]),
        ),
        example(
            "touching, the first end stands in",
            [0.0, -1.0, 2.0, -1.0, 0.0],
            HALF,
            EPSILON,
            (1, [0.0, -1.0, 0.0, 0.0], [6, 5, 6, 6]),
        ),
        example(
            "touching, the second end stands in, the arc first",
            HALF,
            [2.0, -1.0, 0.0, -1.0, 0.0],
            EPSILON,
            (1, [0.0, -1.0, 0.0, 0.0], [5, 6, 6, 6]),
        ),
        example(
            "touching, out of range",
            [1.0, -1.0, 2.0, -1.0, 0.0],
            HALF,
            EPSILON,
            (0, [0.0; 4], [6; 4]),
        ),
        example(
            "touching, outside",
            [-1.0, 1.0, 1.0, 1.0, 0.0],
            HALF,
            EPSILON,
            (0, [0.0; 4], [6, 0, 6, 6]),
        ),
        example(
            "outside, and out of range",
            [-8.0, -3.0, 0.0, -3.0, 0.0],
            RIGHT,
            EPSILON,
            (0, [0.0; 4], [6, 0, 6, 6]),
        ),
        example(
            "both inside, in the arc's order",
            [4.0, -8.0, 4.0, 8.0, 0.0],
            RIGHT,
            EPSILON,
            (3, [4.0, -3.0, 4.0, 3.0], [6, 2, 6, 2]),
        ),
        example(
            "the second at the line's end, exchanged",
            [4.0, 8.0, 4.0, -3.0, 0.0],
            RIGHT,
            EPSILON,
            (3, [4.0, -3.0, 4.0, 3.0], [6, 5, 6, 2]),
        ),
        example(
            "the second at the line's end, in the line's order",
            RIGHT,
            [4.0, 8.0, 4.0, -3.0, 0.0],
            EPSILON,
            (3, [4.0, 3.0, 4.0, -3.0], [2, 6, 5, 6]),
        ),
        example(
            "both ends of the line, exchanged",
            [4.0, 3.0, 4.0, -3.0, 0.0],
            RIGHT,
            EPSILON,
            (3, [4.0, -3.0, 4.0, 3.0], [6, 5, 6, 5]),
        ),
        example(
            "one out of range",
            [4.0, 8.0, 4.0, 0.0, 0.0],
            RIGHT,
            EPSILON,
            (2, [4.0, 3.0, 0.0, 0.0], [6, 2, 6, 6]),
        ),
        example(
            "the first out of range, the arc first",
            RIGHT,
            [4.0, 0.0, 4.0, -8.0, 0.0],
            EPSILON,
            (2, [4.0, -3.0, 0.0, 0.0], [6, 6, 2, 6]),
        ),
        example(
            "the first out of range, the second at the line's end",
            RIGHT,
            [4.0, 0.0, 4.0, -3.0, 0.0],
            EPSILON,
            (2, [4.0, -3.0, 0.0, 0.0], [6, 6, 5, 6]),
        ),
        example(
            "near the start and near the end",
            [0.0, -2.0, 0.0, 2.0, 0.0],
            [0.375, -0.5, 0.375, 0.5, 0.5],
            0.5,
            (3, [0.0, -0.625, 0.0, 0.625], [6, 3, 6, 4]),
        ),
        example(
            "the same, clockwise and so exchanged",
            [0.0, -2.0, 0.0, 2.0, 0.0],
            [0.375, 0.5, 0.375, -0.5, -0.5],
            0.5,
            (3, [0.0, 0.625, 0.0, -0.625], [6, 3, 6, 4]),
        ),
        example(
            "beyond the end, but near the start too",
            [-3.53125, 0.1953125, 4.46875, 0.1953125, 0.0],
            [0.4921875, -0.125, 0.4921875, 0.125, 0.125],
            0.3125,
            (2, [0.46875, 0.1953125, 0.0, 0.0], [6, 0, 6, 3]),
        ),
        example(
            "a radius below epsilon, and as far from the start",
            [-4.0, 0.0, 4.0, 0.0, 0.0],
            [0.0, -0.375, 0.0, 0.375, 1.0],
            0.5,
            (3, [0.375, 0.0, -0.375, 0.0], [6, 1, 6, 1]),
        ),
    ]
}

/// Circles of radius 5 about the origin and about (6, 0): they meet in (3, 4) and in (3, -4).
fn two_arcs() -> Vec<Example> {
    const EPSILON: f64 = 1.0 / 16.0;
    /// The right half of the first, and the left half of the second.
    const RIGHT: [f64; 5] = [0.0, -5.0, 0.0, 5.0, 1.0];
    const LEFT: [f64; 5] = [6.0, 5.0, 6.0, -5.0, 1.0];
    vec![
        example(
            "two arcs, both inside",
            RIGHT,
            LEFT,
            EPSILON,
            (3, [3.0, -4.0, 3.0, 4.0], [2, 2, 2, 2]),
        ),
        example(
            "the second arc is not asked",
            [0.0, 5.0, 0.0, -5.0, 1.0],
            LEFT,
            EPSILON,
            (0, [0.0; 4], [0, 6, 0, 6]),
        ),
        example(
            "the second arc says no",
            RIGHT,
            [6.0, -5.0, 6.0, 5.0, 1.0],
            EPSILON,
            (0, [0.0; 4], [2, 0, 2, 0]),
        ),
        example(
            "one inside, the first outside",
            [5.0, 0.0, -5.0, 0.0, 1.0],
            LEFT,
            EPSILON,
            (2, [3.0, 4.0, 0.0, 0.0], [0, 6, 2, 2]),
        ),
        example(
            "ends take both places",
            [3.0, -4.0, 3.0, 4.0, 0.5],
            LEFT,
            EPSILON,
            (3, [3.0, -4.0, 3.0, 4.0], [5; 4]),
        ),
        example(
            "an end takes the second's place",
            [-3.0, -4.0, 3.0, 4.0, 1.0],
            LEFT,
            EPSILON,
            (3, [3.0, -4.0, 3.0, 4.0], [2, 2, 5, 5]),
        ),
        example(
            "an end takes the first's place",
            [3.0, -4.0, -3.0, 4.0, 1.0],
            LEFT,
            EPSILON,
            (3, [3.0, -4.0, 3.0, 4.0], [5, 5, 2, 2]),
        ),
        example(
            "the first counted, and an end takes its place",
            [3.0, -4.0, -3.0, 4.0, 1.0],
            [1.0, 0.0, 11.0, 0.0, 1.0],
            EPSILON,
            (2, [3.0, -4.0, 0.0, 0.0], [5, 5, 2, 0]),
        ),
        example(
            "the second counted, and an end takes its place",
            [-3.0, -4.0, 3.0, 4.0, 1.0],
            [11.0, 0.0, 1.0, 0.0, 1.0],
            EPSILON,
            (2, [3.0, 4.0, 0.0, 0.0], [2, 0, 5, 5]),
        ),
        example(
            "touching, inside both",
            [0.0, -5.0, 0.0, 5.0, 1.0],
            [10.0, 5.0, 10.0, -5.0, 1.0],
            EPSILON,
            (1, [5.0, 0.0, 0.0, 0.0], [2, 2, 6, 6]),
        ),
        example(
            "touching, the second says no",
            [0.0, -5.0, 0.0, 5.0, 1.0],
            [10.0, -5.0, 10.0, 5.0, 1.0],
            EPSILON,
            (0, [0.0; 4], [2, 0, 6, 6]),
        ),
        example(
            "touching, the first says no",
            [0.0, 5.0, 0.0, -5.0, 1.0],
            [10.0, 5.0, 10.0, -5.0, 1.0],
            EPSILON,
            (0, [0.0; 4], [0, 6, 6, 6]),
        ),
        example(
            "touching, an end answers",
            [5.0, 0.0, -5.0, 0.0, 1.0],
            [10.0, 5.0, 10.0, -5.0, 1.0],
            EPSILON,
            (1, [5.0, 0.0, 0.0, 0.0], [5, 5, 6, 6]),
        ),
        example(
            "circles apart",
            RIGHT,
            [20.0, 5.0, 20.0, -5.0, 1.0],
            EPSILON,
            (0, [0.0; 4], [6; 4]),
        ),
    ]
}
