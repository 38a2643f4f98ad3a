//! Pairs in small whole numbers, times a power of two, on circles whose points are whole numbers too: nothing is rounded, so that
//! points are exactly on a ray, at epsilon or equally far.

use crate::inputs::shapes::either_way;
use crate::inputs::{Pair, Point, Segment, Vertex};
use crate::rng::Rng;

/// Points of the circle of radius 5 about the origin.
const ON_FIVE: [(f64, f64); 3] = [(5.0, 0.0), (3.0, 4.0), (4.0, 3.0)];
/// In the small unit. The largest epsilon is 1/2, so that the unit is at most a sixteenth.
const EPSILONS: [f64; 10] = [0.25, 0.5, 1.0, 1.5, 2.0, 3.0, 4.0, 5.0, 6.0, 8.0];

pub fn draw(rng: &mut Rng) -> Pair {
    let unit = (0..4 + rng.below(8)).fold(1.0, |unit, _| unit / 2.0);
    let mut epsilon = rng.pick(&EPSILONS);
    let v = arc(Point::default(), rng);
    let u = match rng.below(8) {
        0..=2 => line(rng),
        3 => {
            epsilon = rng.pick(&[3.5, 4.0, 5.0, 6.0]);
            from_the_middle(rng)
        }
        4 | 5 => arc(turned(point(rng.pick(&[6.0, 8.0]), 0.0), rng), rng),
        _ => arc(turned(point(rng.below(11) as f64, 0.0), rng), rng),
    };
    let (v, u) = (either_way(v, rng), either_way(u, rng));
    let (v, u) = if rng.one_in(2) { (v, u) } else { (u, v) };
    let [v, u] = [v, u].map(|s| Segment {
        from: small(s.from, unit),
        to: small(s.to, unit),
    });
    Pair {
        v,
        u,
        epsilon: epsilon * unit,
    }
}

fn small(vertex: Vertex, unit: f64) -> Vertex {
    let at = point(vertex.at.x * unit, vertex.at.y * unit);
    Vertex { at, ..vertex }
}

fn point(x: f64, y: f64) -> Point {
    Point { x, y }
}

/// By some quarters of a whole turn.
fn turned(p: Point, rng: &mut Rng) -> Point {
    (0..rng.below(4)).fold(p, |p, _| p.turned())
}

fn segment(from: Point, to: Point, bulge: f64) -> Segment {
    let vertex = |at: Point, bulge: f64| Vertex { at, bulge };
    Segment {
        from: vertex(from, bulge),
        to: vertex(to, 0.0),
    }
}

/// Half a circle, or the arc of radius 5 from (3, -4) to (3, 4), turned.
fn arc(center: Point, rng: &mut Rng) -> Segment {
    let (from, to, bulge) = if rng.one_in(3) {
        (point(3.0, -4.0), point(3.0, 4.0), 0.5)
    } else {
        let (x, y) = rng.pick(&ON_FIVE);
        let on = match rng.below(3) {
            0 => point(1.0 + rng.below(6) as f64, 0.0),
            _ => point(x, rng.sign() * y),
        };
        (on, point(-on.x, -on.y), 1.0)
    };
    let turns = rng.below(4);
    let [from, to] = [from, to].map(|p| (0..turns).fold(p, |p, _| p.turned()));
    segment(center.along(from, 1.0), center.along(to, 1.0), bulge)
}

/// Along an axis, of a length that is a power of two, mostly.
fn line(rng: &mut Rng) -> Segment {
    let half = |rng: &mut Rng, most: u64| rng.below(4 * most + 1) as f64 / 2.0 - most as f64;
    let (aside, from) = (half(rng, 6).trunc(), half(rng, 9));
    let length = rng.pick(&[0.5, 1.0, 2.0, 4.0, 8.0, 16.0, 3.0, 6.0]);
    let turns = rng.below(4);
    let turn = |p: Point| (0..turns).fold(p, |p, _| p.turned());
    segment(
        turn(point(from, aside)),
        turn(point(from + length, aside)),
        0.0,
    )
}

/// A line that starts in the middle between two points of the circle of radius 5, three from each or four.
fn from_the_middle(rng: &mut Rng) -> Segment {
    let aside = rng.pick(&[4.0, 4.0, 3.0]);
    let length = rng.pick(&[1.0, 2.0, 3.0, 4.0, 8.0, 16.0]);
    let turns = rng.below(4);
    let turn = |p: Point| (0..turns).fold(p, |p, _| p.turned());
    let back = if rng.one_in(4) { -length } else { 0.0 };
    segment(turn(point(back, aside)), turn(point(length, aside)), 0.0)
}
