//! What the Rust works out of a pair, by its own formulas: circles, the two points of a line and a circle or of two circles, the
//! parameters on the line, and where a point lies beside an arc's edges.

use cavalier_contours::polyline::{seg_arc_radius_and_center, PlineVertex};

use super::model::is_line;
use crate::inputs::{Pair, Point, Segment, Vertex};

pub fn circle_of(arc: Segment) -> (f64, Point) {
    let vertex = |v: Vertex| PlineVertex::new(v.at.x, v.at.y, v.bulge);
    let (radius, center) = seg_arc_radius_and_center(vertex(arc.from), vertex(arc.to));
    let (x, y) = (center.x, center.y);
    (radius, Point { x, y })
}

pub fn dot(a: Point, b: Point) -> f64 {
    a.x * b.x + a.y * b.y
}

pub fn perp(a: Point, b: Point) -> f64 {
    a.x * b.y - a.y * b.x
}

/// An arc's centre and the ways from it to the arc's two ends.
pub struct Sweep {
    pub center: Point,
    pub start: Point,
    pub end: Point,
    pub clockwise: bool,
    pub epsilon: f64,
}

impl Sweep {
    pub fn of(arc: Segment, epsilon: f64) -> Sweep {
        let (_, center) = circle_of(arc);
        Sweep {
            center,
            start: center.to(arc.from.at),
            end: center.to(arc.to.at),
            clockwise: arc.from.bulge < 0.0,
            epsilon,
        }
    }

    /// How far a point lies outside the ray to the start, or to the end, if it is on the ray's side of the centre.
    pub fn outside(&self, ray: usize, point: Point) -> Option<f64> {
        let way = self.center.to(point);
        let (edge, turned) = match ray {
            0 => (self.start, -1.0),
            _ => (self.end, 1.0),
        };
        let turned = if self.clockwise { -turned } else { turned };
        let beside = turned * perp(edge, way) / edge.length();
        (dot(edge, way) >= 0.0).then_some(beside)
    }

    /// Whether a point is between the two rays, or less than epsilon beside one.
    pub fn has(&self, point: Point) -> bool {
        let way = self.center.to(point);
        let turned = if self.clockwise { -1.0 } else { 1.0 };
        let within = turned * perp(self.start, way) >= 0.0 && turned * perp(self.end, way) <= 0.0;
        let near = |ray| {
            self.outside(ray, point)
                .is_some_and(|by| by.abs() < self.epsilon)
        };
        within || near(0) || near(1) || way.length() < self.epsilon
    }
}

/// A line and an arc, in either order.
pub struct LineArc {
    pub line: Segment,
    pub arc: Segment,
    pub epsilon: f64,
    pub way: Point,
    pub length: f64,
    pub radius: f64,
    pub center: Point,
    /// How far the straight line is from the centre.
    pub distance: f64,
    /// |c|, and what it is compared with by the shortcut, but for a few last bits.
    pub through: [f64; 2],
    /// The square of how far the two points are from the nearest one, in units of (-1, -slope).
    pub square: f64,
    /// The two points, and their parameters, if the line goes through the circle.
    pub points: Option<[(Point, f64); 2]>,
}

impl LineArc {
    pub fn of(pair: &Pair) -> Option<LineArc> {
        let (line, arc) = match (is_line(pair.v), is_line(pair.u)) {
            (true, false) => (pair.v, pair.u),
            (false, true) => (pair.u, pair.v),
            _ => return None,
        };
        let (radius, center) = circle_of(arc);
        let (p0, p1, way) = (line.from.at, line.to.at, line.chord());
        let (a, b, c) = if way.x.abs() < 1e-8 {
            let x = (p1.x - center.x + (p0.x - center.x)) / 2.0;
            (1.0, 0.0, -x)
        } else {
            let slope = way.y / way.x;
            (slope, -1.0, p1.y - center.y - slope * (p1.x - center.x))
        };
        let q = a * a + b * b;
        let inv_q = 1.0 / q;
        let distance = c.abs() / q.sqrt();
        let (x0, y0) = (-a * c * inv_q + center.x, -b * c * inv_q + center.y);
        let square = ((radius * radius - c * c * inv_q) * inv_q).abs();
        let mult = square.sqrt();
        let point = |sign: f64| {
            let at = Point {
                x: x0 + sign * (b * mult),
                y: y0 - sign * (a * mult),
            };
            let t = match way.x.abs() < way.y.abs() {
                true => (at.y - p0.y) / way.y,
                false => (at.x - p0.x) / way.x,
            };
            (at, t)
        };
        let root = q.sqrt() * (513.0 / 512.0) * (255.0 / 256.0);
        Some(LineArc {
            line,
            arc,
            epsilon: pair.epsilon,
            way,
            length: way.length(),
            radius,
            center,
            distance,
            through: [c.abs(), radius * (255.0 / 256.0) * root],
            square,
            points: (distance < radius).then(|| [point(1.0), point(-1.0)]),
        })
    }

    pub fn sweep(&self) -> Sweep {
        Sweep::of(self.arc, self.epsilon)
    }
}

/// Two arcs.
pub struct Arcs {
    pub arcs: [Segment; 2],
    pub epsilon: f64,
    pub radii: [f64; 2],
    pub centers: [Point; 2],
    /// How far apart the centres are.
    pub d: f64,
    /// Twice the distance times how far the middle is from the first centre.
    pub n: f64,
    pub diff: f64,
    /// The two points, if the circles cross.
    pub points: Option<[Point; 2]>,
}

impl Arcs {
    pub fn of(pair: &Pair) -> Option<Arcs> {
        if is_line(pair.v) || is_line(pair.u) {
            return None;
        }
        let [(r1, c1), (r2, c2)] = [pair.v, pair.u].map(circle_of);
        let cv = c1.to(c2);
        let d2 = dot(cv, cv);
        let d = d2.sqrt();
        let n = r1 * r1 - r2 * r2 + d2;
        let a = n / (2.0 * d);
        let diff = r1 * r1 - a * a;
        let middle = c1.along(cv, a / d);
        let side = diff.sqrt() / d;
        let turned = Point { x: cv.y, y: -cv.x };
        Some(Arcs {
            arcs: [pair.v, pair.u],
            epsilon: pair.epsilon,
            radii: [r1, r2],
            centers: [c1, c2],
            d,
            n,
            diff,
            points: (diff > 0.0 && d > 0.0)
                .then(|| [middle.along(turned, side), middle.along(turned, -side)]),
        })
    }

    pub fn sweep(&self, which: usize) -> Sweep {
        Sweep::of(self.arcs[which], self.epsilon)
    }
}
