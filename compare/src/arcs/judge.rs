//! Whether two segments share a point, decided exactly by whole numbers: squares decide the sign of a sum with a root.

use super::piece::{Circle, Piece, ONE};
use super::whole::Whole;
use crate::search::plane::{self, Spot};
use std::cmp::Ordering;

/// How two segments share a point.
#[derive(Clone, Copy, Debug, PartialEq, Eq)]
pub enum Way {
    /// They share an end, and continue each other's direction there or turn back in it: their tangents are parallel.
    Joint,
    /// They share an end, at an angle.
    Corner,
    /// An end of one lies on the other, not at its end.
    End,
    /// They touch inside both.
    Touch,
    /// They cross inside both.
    Cross,
}

pub const WAYS: [(Way, &str); 5] = [
    (Way::Joint, "a smooth joint"),
    (Way::Corner, "a common end"),
    (Way::End, "an end on the other"),
    (Way::Touch, "touching inside both"),
    (Way::Cross, "crossing inside both"),
];

/// Where they meet inside both, if they do: the points of `spots` at the roots of `roots` with these signs.
pub struct Inside {
    pub spots: Spots,
    pub roots: Roots,
    pub signs: [bool; 2],
}

/// The points (at + s * way) / over, x before y, for any s.
pub struct Spots {
    pub at: [Whole; 2],
    pub way: [Whole; 2],
    pub over: Whole,
}

/// The numbers s with a s^2 + b s + c = 0, a above 0.
pub struct Roots {
    pub a: Whole,
    pub b: Whole,
    /// b^2 - 4 a c.
    pub under: Whole,
}

/// Whether they share a point, exactly, and how: the first way that fits.
pub fn share(v: Piece, u: Piece) -> Option<Way> {
    if let Some(way) = common_end(v, u) {
        return Some(way);
    }
    if v.ends().iter().any(|&p| lies_on(u, p)) || u.ends().iter().any(|&p| lies_on(v, p)) {
        return Some(Way::End);
    }
    if v.is_line() && u.is_line() {
        return plane::share(v.ends(), u.ends()).then_some(Way::Cross);
    }
    if boxes_apart(v, u) {
        return None;
    }
    // no end of one lies on the other, so arcs of one circle share nothing, and otherwise no side is 0
    let inside = inside(v, u)?;
    match (inside.signs, inside.roots.under.sign()) {
        ([false, false], _) => None,
        (_, 0) => Some(Way::Touch),
        _ => Some(Way::Cross),
    }
}

/// Whether the boxes are apart: each is the arc's chord, wider by the arc's height. That is enough for arcs up to half a circle.
fn boxes_apart(v: Piece, u: Piece) -> bool {
    let wide = |s: Piece| {
        let (x, y) = s.chord();
        // at least the height, which is half the chord times the bulge
        let up = (x.abs() + y.abs()) as i64 * s.n.abs() / (2 * ONE) + 1;
        let up = if s.is_line() { 0 } else { up };
        let span = |a: i64, b: i64| (a.min(b) - up, a.max(b) + up);
        (span(s.from.x, s.to.x), span(s.from.y, s.to.y))
    };
    let apart = |a: (i64, i64), b: (i64, i64)| a.1 < b.0 || b.1 < a.0;
    let (v, u) = (wide(v), wide(u));
    apart(v.0, u.0) || apart(v.1, u.1)
}

pub fn lies_on(s: Piece, p: Spot) -> bool {
    if s.is_line() {
        return plane::share(s.ends(), [p, p]);
    }
    let c = s.circle();
    c.side(p) <= 0 && c.at(p) == 0
}

/// A line that is a point has no direction and is left out: it is an end on the other.
fn common_end(v: Piece, u: Piece) -> Option<Way> {
    let mut found = None;
    for ((vx, vy), (ux, uy)) in common_ends(v, u) {
        if vx * uy == vy * ux {
            return Some(Way::Joint);
        }
        found = Some(Way::Corner);
    }
    found
}

/// The directions in which the two leave each shared end. None if one is a point.
pub fn common_ends(v: Piece, u: Piece) -> impl Iterator<Item = (Direction, Direction)> {
    let both = move |v: Piece| [(v, u), (v, u.reversed())];
    let lines = v.from != v.to && u.from != u.to;
    [v, v.reversed()]
        .into_iter()
        .flat_map(both)
        .filter(move |(v, u)| lines && v.from == u.from)
        .map(|(v, u)| (leaving(v), leaving(u)))
}

/// A direction, x before y.
type Direction = (i128, i128);

/// The direction in which the segment leaves its start: the chord, turned by twice the angle whose tangent is the bulge.
fn leaving(s: Piece) -> Direction {
    let (x, y) = s.chord();
    let (n, one) = (i128::from(s.n), i128::from(ONE));
    let (along, right) = (one * one - n * n, 2 * n * one);
    (along * x + right * y, along * y - right * x)
}

/// None if the circle does not meet the line or the other circle, or shares its centre. Not for two lines.
pub fn inside(v: Piece, u: Piece) -> Option<Inside> {
    match (v.is_line(), u.is_line()) {
        (true, _) => line_and_arc(v, u.circle()),
        (_, true) => line_and_arc(u, v.circle()),
        _ => two_arcs(v.circle(), u.circle()),
    }
}

fn line_and_arc(line: Piece, arc: Circle) -> Option<Inside> {
    let (dx, dy) = line.chord();
    if (dx, dy) == (0, 0) {
        return None;
    }
    let (px, py) = (i128::from(line.from.x), i128::from(line.from.y));
    let a = arc.a * (dx * dx + dy * dy);
    let b = 2 * arc.a * (px * dx + py * dy) + arc.gx * dx + arc.gy * dy;
    let spots = Spots {
        at: [px, py].map(Whole::from),
        way: [dx, dy].map(Whole::from),
        over: Whole::from(1),
    };
    let roots = Roots::of(
        Whole::from(a),
        Whole::from(b),
        Whole::from(arc.at(line.from)),
    )?;
    let one = Whole::from(1);
    let before = (Whole::from(0), one.negated());
    let behind = (one.negated(), one);
    let beside = (
        Whole::from(arc.side(line.from)),
        Whole::from(arc.mx * dx + arc.my * dy),
    );
    let signs = [false, true].map(|plus| roots.below_zero(plus, &[before, behind, beside]));
    Some(Inside {
        spots,
        roots,
        signs,
    })
}

/// The circles' points lie on one line, l.P + l = 0: the point of it nearest to 0, and s times its direction from there.
fn two_arcs(v: Circle, u: Circle) -> Option<Inside> {
    let (n, m) = (v.bulge(), u.bulge());
    let both = |f: fn(&Circle) -> i128| m * f(&v) - n * f(&u);
    let (lx, ly, l) = (both(|c| c.gx), both(|c| c.gy), both(|c| c.g));
    if (lx, ly) == (0, 0) {
        return None;
    }
    let whole = Whole::from;
    let dot = |ax: i128, bx: i128, ay: i128, by: i128| {
        whole(ax)
            .times(&whole(bx))
            .plus(&whole(ay).times(&whole(by)))
    };
    let over = dot(lx, lx, ly, ly);
    let toward = whole(-l);
    let spots = Spots {
        at: [toward.times(&whole(lx)), toward.times(&whole(ly))],
        way: [whole(-ly), whole(lx)],
        over,
    };
    let a = whole(v.a);
    let b = dot(v.gx, -ly, v.gy, lx);
    let square = a.times(&toward.times(&toward));
    let c = square
        .plus(&toward.times(&dot(v.gx, lx, v.gy, ly)))
        .plus(&whole(v.g).times(&over));
    let roots = Roots::of(a, b, c)?;
    let beside = |c: &Circle| {
        let at = toward.times(&dot(c.mx, lx, c.my, ly));
        let way = dot(c.mx, -ly, c.my, lx);
        (at.plus(&whole(c.m).times(&over)), way)
    };
    let sides = [beside(&v), beside(&u)];
    let signs = [false, true].map(|plus| roots.below_zero(plus, &sides));
    Some(Inside {
        spots,
        roots,
        signs,
    })
}

impl Roots {
    fn of(a: Whole, b: Whole, c: Whole) -> Option<Roots> {
        let four = Whole::from(4).times(&a).times(&c);
        let under = b.times(&b).less(&four);
        (under.sign() >= 0).then_some(Roots { a, b, under })
    }

    /// Whether each x + s y is below 0 at the root s with the plus, or the minus.
    fn below_zero(&self, plus: bool, sums: &[(Whole, Whole)]) -> bool {
        // s is (-b + r) / 2a, where r is the root of `under` or its negative
        sums.iter().all(|(x, y)| {
            let two = Whole::from(2).times(&self.a).times(x);
            let y_signed = if plus { *y } else { y.negated() };
            sign(&two.less(&self.b.times(y)), &y_signed, &self.under) < 0
        })
    }
}

/// The sign of x + y times the root of d, which is not negative.
fn sign(x: &Whole, y: &Whole, d: &Whole) -> i32 {
    let (sx, sy) = (x.sign(), y.sign() * d.sign());
    if sx == sy || sy == 0 {
        return sx;
    }
    if sx == 0 {
        return sy;
    }
    match x.times(x).order(&y.times(y).times(d)) {
        Ordering::Less => sy,
        Ordering::Equal => 0,
        Ordering::Greater => sx,
    }
}

#[cfg(test)]
mod tests;
