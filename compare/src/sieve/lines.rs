//! Segments as the sieve of lines sees them, and its test in the request's words.

use cavalier_contours::polyline::seg_arc_radius_and_center;

use crate::boxed::is_arc;
use crate::crossing::faults::two_to;
use crate::listings::model::Path;

/// An arc's circle.
#[derive(Clone, Copy)]
pub struct Circle {
    center: [f64; 2],
    radius: f64,
}

/// Where a segment starts and ends, its vector, and its circle if it is an arc.
#[derive(Clone, Copy)]
pub struct Side {
    pub at: [f64; 2],
    pub end: [f64; 2],
    pub way: [f64; 2],
    pub square: f64,
    pub length: f64,
    pub circle: Option<Circle>,
}

impl Circle {
    pub fn new(center: [f64; 2], radius: f64) -> Circle {
        Circle { center, radius }
    }
}

impl Side {
    /// A line.
    pub fn between(from: [f64; 2], to: [f64; 2]) -> Side {
        let way = [to[0] - from[0], to[1] - from[1]];
        let square = way[0] * way[0] + way[1] * way[1];
        Side {
            at: from,
            end: to,
            way,
            square,
            length: square.sqrt(),
            circle: None,
        }
    }

    fn of(path: Path, i: usize) -> Side {
        let (from, to) = path.segment(i);
        let circle = || {
            let (radius, center) = seg_arc_radius_and_center(from, to);
            Circle::new([center.x, center.y], radius)
        };
        Side {
            circle: is_arc(from).then(circle),
            ..Side::between([from.x, from.y], [to.x, to.y])
        }
    }

    pub fn is_arc(&self) -> bool {
        self.circle.is_some()
    }

    pub fn all(path: Path) -> Vec<Side> {
        (0..path.segments()).map(|i| Side::of(path, i)).collect()
    }
}

/// How far a line is from a circle, by two comparisons: |c| with what the quick test guesses for it, and the distance with radius
/// and epsilon. The line is a * x + b * y + c = 0, relative to the circle's centre.
pub fn beside_circle(line: &Side, circle: &Circle, epsilon: f64) -> [[f64; 2]; 2] {
    let Side { at, end, way, .. } = line;
    let [x, y] = [end[0] - circle.center[0], end[1] - circle.center[1]];
    let (a, b, c) = if way[0].abs() < 1e-8 {
        (1.0, 0.0, -((x + (at[0] - circle.center[0])) / 2.0))
    } else {
        let slope = way[1] / way[0];
        (slope, -1.0, y - slope * x)
    };
    let (square, sides) = (a * a + b * b, a.abs() + f64::abs(b));
    let first = (sides + square / sides) * 0.5;
    let root = (first + square / first) * (513.0 / 1024.0);
    let reach = circle.radius + epsilon;
    [
        [c.abs(), reach * (129.0 / 128.0) * root],
        [c.abs() / square.sqrt(), reach],
    ]
}

/// What is worked out of two lines: d is v perp u. Divided by d, the first of the others is the crossing's parameter on v, the
/// second that on u.
#[derive(Clone, Copy)]
pub struct Crossing {
    pub d: f64,
    pub over: [f64; 2],
}

impl Crossing {
    pub fn of(v: &Side, u: &Side) -> Crossing {
        let perp = |a: [f64; 2], b: [f64; 2]| a[0] * b[1] - a[1] * b[0];
        let w = [v.at[0] - u.at[0], v.at[1] - u.at[1]];
        Crossing {
            d: perp(v.way, u.way),
            over: [perp(u.way, w), perp(v.way, w)],
        }
    }

    pub fn is_parallel(&self, epsilon: f64) -> bool {
        self.d.abs() < epsilon
    }
}

/// Clearly outside a line of usual length: beyond these parameters.
pub const AFTER: f64 = 33.0 / 32.0;
pub const BEFORE: f64 = -1.0 / 32.0;

/// The sieve's test. Its own is `RULE`; stand-ins have others.
#[derive(Clone, Copy)]
pub struct Rule {
    pub after: f64,
    pub before: f64,
    /// The least square of a usual length, and the least and the greatest usual epsilon.
    pub least: f64,
    pub epsilons: [f64; 2],
    /// Whether an arc is judged as a line, first and second.
    pub arcs: [bool; 2],
    /// Parallel lines are apart from this part of epsilon on.
    pub apart: f64,
    /// Whether n is held to both limits, whichever is the greater.
    pub both: bool,
}

pub const RULE: Rule = Rule {
    after: AFTER,
    before: BEFORE,
    least: 1.0 / 1024.0,
    epsilons: [1.0 / (1u64 << 40) as f64, 1.0 / 1024.0],
    arcs: [false; 2],
    apart: 1.0,
    both: true,
};

impl Rule {
    /// Whether the sieve judges this segment: `which` path it is of.
    pub fn judges(&self, side: &Side, which: usize, epsilon: f64) -> bool {
        let usual = side.square >= self.least && side.square <= two_to(50);
        let [least, most] = self.epsilons;
        let is_line = !side.is_arc() || self.arcs[which];
        usual && epsilon >= least && epsilon <= most && is_line
    }

    /// Whether two lines are clearly apart, whatever their sizes.
    pub fn says_apart(&self, v: &Side, u: &Side, epsilon: f64) -> bool {
        let crossing = Crossing::of(v, u);
        let Crossing { d, over } = crossing;
        if crossing.is_parallel(epsilon) {
            return over[0].abs() >= self.apart * epsilon;
        }
        over.iter().any(|n| self.is_outside(*n, d))
    }

    /// Whether the sieve takes the pair away: for stand-ins.
    #[cfg(test)]
    pub fn takes(&self, v: &Side, u: &Side, epsilon: f64) -> bool {
        self.judges(v, 0, epsilon) && self.judges(u, 1, epsilon) && self.says_apart(v, u, epsilon)
    }

    fn is_outside(&self, n: f64, d: f64) -> bool {
        let (end, start) = (d * self.after, d * self.before);
        if !self.both {
            return n > end || n < start;
        }
        n > end && n > start || n < end && n < start
    }
}
