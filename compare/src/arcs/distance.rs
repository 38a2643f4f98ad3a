//! The distance of two segments that share no point, in floats: with an error of some 2^-16 at the largest radii, and far less
//! below.

use super::piece::Piece;

type Point = (f64, f64);

fn less(a: Point, b: Point) -> Point {
    (a.0 - b.0, a.1 - b.1)
}

fn across(a: Point, b: Point) -> f64 {
    a.0 * b.1 - a.1 * b.0
}

fn dot(a: Point, b: Point) -> f64 {
    a.0 * b.0 + a.1 * b.1
}

pub fn size(a: Point) -> f64 {
    dot(a, a).sqrt()
}

/// A segment in floats; an arc from the end that it leaves counterclockwise.
#[derive(Clone, Copy, Debug)]
pub struct Shape {
    pub from: Point,
    pub to: Point,
    /// 0 for a line.
    pub bulge: f64,
    pub center: Point,
    pub radius: f64,
}

impl Shape {
    pub fn of(piece: Piece) -> Shape {
        let s = piece.turned();
        let at = |p: crate::search::plane::Spot| (p.x as f64, p.y as f64);
        let (from, to, b) = (at(s.from), at(s.to), s.bulge());
        let (x, y) = less(to, from);
        let up = if s.is_line() {
            0.0
        } else {
            (1.0 - b * b) / (4.0 * b)
        };
        Shape {
            from,
            to,
            bulge: b,
            center: (from.0 + x / 2.0 - y * up, from.1 + y / 2.0 + x * up),
            radius: s.radius(),
        }
    }

    pub fn is_line(&self) -> bool {
        self.bulge == 0.0
    }

    /// The distance from the circle, below 0 inside it; from a line, below 0 right of it. It is not the difference of a distance
    /// and the radius, which has few digits for a flat arc.
    pub fn off(&self, p: Point) -> f64 {
        let chord = less(self.to, self.from);
        let (a, b) = (less(p, self.from), less(p, self.to));
        if self.is_line() {
            return across(chord, a) / size(chord);
        }
        let k = (self.bulge * self.bulge - 1.0) / (2.0 * self.bulge);
        (dot(a, b) + k * across(chord, a)) / (size(less(p, self.center)) + self.radius)
    }

    /// Whether the nearest point of the circle or line lies on the segment.
    fn faces(&self, p: Point) -> bool {
        if self.is_line() {
            let chord = less(self.to, self.from);
            return dot(chord, less(p, self.from)) > 0.0 && dot(chord, less(p, self.to)) < 0.0;
        }
        let from = less(p, self.center);
        across(less(self.from, self.center), from) > 0.0
            && across(from, less(self.to, self.center)) > 0.0
    }

    fn distance(&self, p: Point) -> f64 {
        let ends = size(less(p, self.from)).min(size(less(p, self.to)));
        if self.from != self.to && self.faces(p) {
            ends.min(self.off(p).abs())
        } else {
            ends
        }
    }

    /// The points at which the segment runs at right angles to a way: of its circle, or none.
    fn tops(&self, way: Point) -> [Option<Point>; 2] {
        let part = self.radius / size(way);
        [part, -part].map(|part| {
            let p = (self.center.0 + way.0 * part, self.center.1 + way.1 * part);
            (!self.is_line() && part.is_finite() && self.faces(p)).then_some(p)
        })
    }
}

/// At an end of one, or where both run in parallel.
pub fn distance(v: Piece, u: Piece) -> f64 {
    let (v, u) = (Shape::of(v), Shape::of(u));
    let ends = [(v, u.from), (v, u.to), (u, v.from), (u, v.to)];
    let least = ends
        .iter()
        .map(|(s, p)| s.distance(*p))
        .fold(f64::INFINITY, f64::min);
    let way = match (v.is_line(), u.is_line()) {
        (true, true) => return least,
        (true, false) => less(v.to, v.from),
        (false, true) => less(u.to, u.from),
        _ => less(u.center, v.center),
    };
    let way = if v.is_line() || u.is_line() {
        (-way.1, way.0)
    } else {
        way
    };
    let tops = v
        .tops(way)
        .map(|p| (u, p))
        .into_iter()
        .chain(u.tops(way).map(|p| (v, p)));
    tops.filter_map(|(s, p)| Some(s.distance(p?)))
        .fold(least, f64::min)
}

#[cfg(test)]
mod tests {
    use super::*;
    use crate::arcs::piece::tests::piece;
    use crate::arcs::piece::ONE;

    #[test]
    fn known_distances() {
        let bowl = piece(-5, 0, 5, 0, ONE);
        for (other, away) in [
            (piece(-9, -7, 9, -7, 0), 2.0),
            (piece(-1, -3, 1, -3, 0), 5.0 - 10f64.sqrt()),
            (piece(8, 4, 9, 9, 0), 5.0),
            (piece(6, -8, 9, -9, 0), 5.0),
            (piece(-4, 0, 4, 0, ONE), 1.0),
            (piece(-5, -12, 5, -12, -ONE), 2.0),
            (piece(-2, -1, 2, -1, ONE), 2.0),
            (piece(8, 0, 12, 0, ONE), 3.0),
            (piece(-1, 0, 1, 0, -ONE), 17f64.sqrt().min(4.0)),
        ] {
            let measured = distance(bowl, other);
            assert!(
                (measured - away).abs() < 1e-9,
                "{other:?} {measured} {away}"
            );
            assert_eq!(distance(other, bowl), measured, "{other:?}");
        }
        assert_eq!(distance(piece(0, 0, 4, 0, 0), piece(2, 1, 2, 5, 0)), 1.0);
    }

    #[test]
    fn a_flat_arc_loses_no_digits() {
        let far = 1 << 20;
        let flat = piece(-far, 0, far, 0, 1);
        let measured = distance(flat, piece(-9, -17, 9, -17, 0));
        assert!((measured - 1.0).abs() < 1e-4, "{measured}");
        let measured = distance(flat, piece(3, -13, 3, 7, 0));
        assert!((measured - 3.0).abs() < 1e-9, "{measured}");
    }
}
