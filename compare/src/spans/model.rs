//! The quick test by spans, written here from its description: which pairs it judges, so that a run can say that it was in play.
//! No answer is compared with it. With another rule it is the test of a stand-in.

use super::seen::{circle_of, Sweep};
use crate::inputs::values::LINE_LIMIT;
use crate::inputs::{Pair, Point, Segment};

/// Two numbers, and a third between them that is not known.
#[derive(Clone, Copy)]
pub struct Span {
    pub least: f64,
    pub most: f64,
}

/// What the test looks at. Its own is `RULE`; stand-ins have others.
#[derive(Clone, Copy)]
pub struct Rule {
    /// A parameter is clearly outside a usual line from here up and from here down.
    pub after: f64,
    pub before: f64,
    /// The least square of a usual length, and the greatest usual epsilon.
    pub least: f64,
    pub largest: f64,
    /// A line nearer to the centre than this part of the radius goes through the circle.
    pub inside: f64,
    /// A guess of a root times these is below the root and above it, and whether that is looked at.
    pub width: [f64; 2],
    pub holds: bool,
    /// Two points are apart from this part of epsilon on.
    pub apart: f64,
    /// Whether a point beside the ray to the start is in the sweep, and one beside that to the end.
    pub near: [bool; 2],
    /// Whether an arc's direction is looked at.
    pub direction: bool,
    /// Which of the two points must miss.
    pub points: [bool; 2],
    /// Whether the parameter comes from the coordinate that changes more.
    pub larger: bool,
    /// Whether the first arc's ends are looked at, and the second's.
    pub ends: [bool; 2],
    /// Whether centres nearer than epsilon are looked at.
    pub centers: bool,
    /// Whether the middle may be on the other side of the first centre than the second.
    pub signed: bool,
}

pub const RULE: Rule = Rule {
    after: 33.0 / 32.0,
    before: -1.0 / 32.0,
    least: 1.0 / 1024.0,
    largest: 1.0 / 1024.0,
    inside: 255.0 / 256.0,
    width: [123.0 / 128.0, 133.0 / 128.0],
    holds: true,
    apart: 1.0,
    near: [true; 2],
    direction: true,
    points: [true; 2],
    larger: true,
    ends: [true; 2],
    centers: true,
    signed: true,
};

/// A number about the root of another: half of its pattern, and a constant.
pub fn rough_root(q: f64) -> f64 {
    if q >= 0.0 && q < f64::INFINITY {
        return f64::from_bits((q.to_bits() >> 1) + 0x1ff7_a3be_a91d_9b1b);
    }
    q
}

/// How much too large the guess is.
pub fn guess_of(square: f64) -> f64 {
    rough_root(square) / square.sqrt()
}

/// From here on the guess is so much too large that its span does not hold the root.
pub const TOO_LARGE: f64 = 128.0 / 123.0;

/// A square between two others at which the guess is so much too large, but for its last bits.
pub fn square_with(guess: f64, mut from: f64, mut to: f64) -> f64 {
    let rises = guess_of(from) < guess;
    for _ in 0..48 {
        let middle = from + (to - from) / 2.0;
        match (guess_of(middle) < guess) == rises {
            true => from = middle,
            false => to = middle,
        }
    }
    from
}

impl Span {
    fn between(a: f64, b: f64) -> Span {
        let (least, most) = if a < b { (a, b) } else { (b, a) };
        Span { least, most }
    }

    fn times(self, c: f64) -> Span {
        Span::between(c * self.least, c * self.most)
    }

    fn plus(self, c: f64) -> Span {
        Span {
            least: c + self.least,
            most: c + self.most,
        }
    }

    fn less_from(self, c: f64) -> Span {
        Span {
            least: c - self.most,
            most: c - self.least,
        }
    }

    fn over(self, c: f64) -> Span {
        Span::between(self.least / c, self.most / c)
    }

    fn sum(self, other: Span) -> Span {
        Span {
            least: self.least + other.least,
            most: self.most + other.most,
        }
    }

    fn difference(self, other: Span) -> Span {
        Span {
            least: self.least - other.most,
            most: self.most - other.least,
        }
    }

    /// By a span above zero.
    fn ratio(self, other: Span) -> Span {
        if self.least >= 0.0 {
            return Span {
                least: self.least / other.most,
                most: self.most / other.least,
            };
        }
        Span {
            least: self.least / other.least,
            most: self.most / other.most,
        }
    }

    fn is_apart(self, gap: f64) -> bool {
        self.least >= gap || self.most <= -gap
    }

    /// Whether no number of the span is zero or has a square below the limit.
    fn is_clear(self, limit: f64) -> bool {
        self.least > 0.0 && self.least * self.least >= limit
            || self.most < 0.0 && self.most * self.most >= limit
    }

    fn holds_root(self, q: Span) -> bool {
        self.least > 0.0
            && q.least > 0.0
            && self.least * self.least < q.least
            && q.most < self.most * self.most
    }
}

pub fn is_line(segment: Segment) -> bool {
    segment.from.bulge.abs() < LINE_LIMIT
}

impl Rule {
    /// Whether the test says that a line and an arc, or two arcs, do not meet.
    pub fn misses(&self, pair: &Pair) -> bool {
        match (is_line(pair.v), is_line(pair.u)) {
            (true, true) => false,
            (true, false) => self.line_misses(pair.v, pair.u, pair.epsilon),
            (false, true) => self.line_misses(pair.u, pair.v, pair.epsilon),
            (false, false) => self.arcs_miss(pair.v, pair.u, pair.epsilon),
        }
    }

    fn line_misses(&self, line: Segment, arc: Segment, eps: f64) -> bool {
        let (p0, p1, way) = (line.from.at, line.to.at, line.chord());
        let (radius, center) = circle_of(arc);
        let square = way.x * way.x + way.y * way.y;
        if way.x.abs() < 1e-8 || !(square >= self.least && eps <= self.largest) {
            return false;
        }
        let slope = way.y / way.x;
        let c = p1.y - center.y - slope * (p1.x - center.x);
        let q = slope * slope + 1.0;
        let inv_q = 1.0 / q;
        // a little less than the root, as what a listing keeps of a line is a little more
        let below = q.sqrt() * (513.0 / 512.0) * (255.0 / 256.0);
        if self.inside < 1.0 && c.abs() >= radius * self.inside * below {
            return false;
        }
        let (x0, y0) = (-slope * c * inv_q + center.x, c * inv_q + center.y);
        let square = ((radius * radius - c * c * inv_q) * inv_q).abs();
        let guess = rough_root(square);
        let mult = Span {
            least: guess * self.width[0],
            most: guess * self.width[1],
        };
        if self.holds && !mult.holds_root(Span::between(square, square)) {
            return false;
        }
        let by_y = (way.x.abs() < way.y.abs()) == self.larger;
        let (from, along, first, second) = if by_y {
            let step = mult.times(slope);
            (p0.y, way.y, step.less_from(y0), step.plus(y0))
        } else {
            let step = mult.times(-1.0);
            (p0.x, way.x, step.plus(x0), step.less_from(x0))
        };
        if !first.difference(second).is_apart(self.apart * eps) {
            return false;
        }
        let sweep = Sweep::of(arc, eps);
        let misses = |at: Span| {
            let t = at.plus(-from).over(along);
            let x = t.times(way.x).plus(p0.x);
            let y = t.times(way.y).plus(p0.y);
            t.least >= self.after || t.most <= self.before || self.is_off(x, y, &sweep)
        };
        (!self.points[0] || misses(first)) && (!self.points[1] || misses(second))
    }

    fn is_off(&self, x: Span, y: Span, sweep: &Sweep) -> bool {
        let (px, py) = (x.plus(-sweep.center.x), y.plus(-sweep.center.y));
        let cross = |ray: Point| py.times(ray.x).difference(px.times(ray.y));
        let (start, end) = (cross(sweep.start), cross(sweep.end));
        let [from_start, from_end] = self.near;
        let limit = |ray: Point| sweep.epsilon * sweep.epsilon * (ray.x * ray.x + ray.y * ray.y);
        let square = sweep.epsilon * sweep.epsilon;
        let far = px.is_clear(square) || py.is_clear(square);
        let beside = match sweep.clockwise && self.direction {
            true => start.least > 0.0 || end.most < 0.0,
            false => start.most < 0.0 || end.least > 0.0,
        };
        far && beside
            && (!from_start || start.is_clear(limit(sweep.start)))
            && (!from_end || end.is_clear(limit(sweep.end)))
    }

    fn arcs_miss(&self, v: Segment, u: Segment, eps: f64) -> bool {
        let [(r1, c1), (r2, c2)] = [v, u].map(circle_of);
        let cv = c1.to(c2);
        let d2 = cv.x * cv.x + cv.y * cv.y;
        let rough = rough_root(d2);
        let guess = (rough + d2 / rough) * 0.5;
        let d = Span {
            least: guess * (1023.0 / 1024.0),
            most: guess * (65537.0 / 65536.0),
        };
        let n = r1 * r1 - r2 * r2 + d2;
        let n = if self.signed { n } else { n.abs() };
        let a = Span::between(n / (2.0 * d.least), n / (2.0 * d.most));
        let square = match a.least >= 0.0 {
            true => Span::between(a.least * a.least, a.most * a.most),
            false => Span {
                least: a.most * a.most,
                most: a.least * a.least,
            },
        };
        let diff = square.less_from(r1 * r1);
        let h = Span {
            least: rough_root(diff.least) * self.width[0],
            most: rough_root(diff.most) * self.width[1],
        };
        let one_sided = a.least >= 0.0 || a.most <= 0.0;
        if self.centers && d.least < eps || !one_sided {
            return false;
        }
        let holds = d.holds_root(Span::between(d2, d2)) && h.holds_root(diff);
        if self.holds && !holds || h.least.is_nan() || h.most.is_nan() {
            return false;
        }
        let sweeps = [v, u].map(|arc| Sweep::of(arc, eps));
        // by squares, as the Rust compares them
        let off_circle = |p: Point, radius: f64, center: Point| {
            let way = center.to(p);
            let (away, low, high) = (way.x * way.x + way.y * way.y, radius - eps, radius + eps);
            !(away < high * high && (low < 0.0 || away > low * low))
        };
        let clear = |s: Segment, radius: f64, center: Point| {
            off_circle(s.from.at, radius, center) && off_circle(s.to.at, radius, center)
        };
        if self.ends[0] && !clear(v, r2, c2) || self.ends[1] && !clear(u, r1, c1) {
            return false;
        }
        let (along, side) = (a.ratio(d), h.ratio(d));
        let (mx, my) = (along.times(cv.x).plus(c1.x), along.times(cv.y).plus(c1.y));
        let (x_term, y_term) = (side.times(cv.y), side.times(cv.x));
        let (x1, y1) = (mx.sum(x_term), my.difference(y_term));
        let (x2, y2) = (mx.difference(x_term), my.sum(y_term));
        let gap = self.apart * eps;
        if !x1.difference(x2).is_apart(gap) && !y1.difference(y2).is_apart(gap) {
            return false;
        }
        let off_one = |x: Span, y: Span| sweeps.iter().any(|sweep| self.is_off(x, y, sweep));
        (!self.points[0] || off_one(x1, y1)) && (!self.points[1] || off_one(x2, y2))
    }
}
