//! Paths with a joint: a segment, and another that starts where it ends; smooth, folded, on the same circle, or anyhow.

use crate::inputs::values::{
    arc_bulge, coordinate, epsilon, line_bulge, nudge, power, up, whole, COORDINATE_LIMIT,
    LARGEST_EPSILON, SMALLEST,
};
use crate::inputs::{Point, Vertex};
use crate::listings::layout::{Drawn, Layout};
use crate::listings::shapes::{arcs, on_grid, straightened, vertex};
use crate::rng::Rng;

/// A path with neighbours of one sort or another, mostly of two to four segments.
pub fn draw(rng: &mut Rng) -> Layout {
    loop {
        let (path, closed, epsilon) = match rng.below(16) {
            0 | 1 => (walk(rng), rng.one_in(2), epsilon(rng)),
            2..=4 => wide(rng),
            5 | 6 => short(rng),
            _ => {
                let size = size(rng);
                let epsilon = tolerance(size, rng);
                let (path, closed) = around(joint(size, epsilon, rng), rng);
                (path, closed, epsilon)
            }
        };
        let fits = |v: &Vertex| v.at.x.abs().max(v.at.y.abs()) <= COORDINATE_LIMIT;
        if path.iter().all(fits) {
            return Layout {
                first: Drawn::new(&straightened(path), closed),
                second: Drawn::default(),
                epsilon,
            };
        }
    }
}

/// From the shortest arcs to long ones; mostly about as long as the larger epsilons.
fn size(rng: &mut Rng) -> f64 {
    match rng.below(8) {
        0 => power(rng, -39, 18),
        1 | 2 => power(rng, 12, 18),
        3 => 1.0,
        _ => power(rng, -3, 4),
    }
}

/// Any epsilon, or one by the size.
fn tolerance(size: f64, rng: &mut Rng) -> f64 {
    let part = match rng.below(4) {
        0 | 1 => return epsilon(rng),
        2 => size * power(rng, -8, 1),
        _ => size * rng.between(0.25, 1.5),
    };
    part.clamp(SMALLEST, LARGEST_EPSILON)
}

/// The bulges of two segments, of each sort about as often.
fn bulges(rng: &mut Rng) -> [f64; 2] {
    let [first, second] = [0; 2].map(|_| match rng.below(6) {
        0 | 1 => line_bulge(rng),
        2 => rng.sign(),
        3 => rng.sign() * rng.between(0.1, 1.0),
        _ => arc_bulge(rng),
    });
    let second = match rng.below(8) {
        0 => first,
        1 => -first,
        _ => second,
    };
    [first, second]
}

/// By twice the angle whose tangent is the bulge: from a segment's tangent at its start to its chord, and from that to the one at
/// its end.
fn swung(way: Point, bulge: f64) -> Point {
    let whole = 1.0 + bulge * bulge;
    let (a, b) = ((1.0 - bulge * bulge) / whole, 2.0 * bulge / whole);
    Point {
        x: a * way.x - b * way.y,
        y: b * way.x + a * way.y,
    }
}

/// The chord of an arc on a circle of radius 1.
fn of_radius_1(bulge: f64) -> f64 {
    4.0 * bulge.abs() / (1.0 + bulge * bulge)
}

/// Three vertices: a segment from the first to the second, and one from the second to the third.
fn joint(size: f64, epsilon: f64, rng: &mut Rng) -> [Vertex; 3] {
    let [bulge, mut next_bulge] = bulges(rng);
    let base = match rng.below(4) {
        0 => COORDINATE_LIMIT / 2.0,
        1 => 1000.0,
        _ => 0.0,
    };
    let at = Point {
        x: rng.between(-base, base),
        y: rng.between(-base, base),
    };
    let number = |rng: &mut Rng| match size {
        1.0 => whole(rng, 4),
        size => size * rng.between(-1.0, 1.0),
    };
    let any = |rng: &mut Rng| Point {
        x: number(rng),
        y: number(rng),
    };
    let chord = any(rng);
    let forth = if rng.one_in(2) { 1.0 } else { -1.0 };
    let tangent = swung(chord, bulge);
    let next = match rng.below(4) {
        0 => any(rng),
        1 => {
            // on the same circle, or on the same straight line
            next_bulge = forth * next_bulge.abs() * bulge.signum();
            let long = of_radius_1(next_bulge) / of_radius_1(bulge);
            let long = if long.is_finite() && long > 0.0 {
                long
            } else {
                0.5
            };
            let way = swung(tangent, next_bulge);
            Point::default().along(way, forth * long)
        }
        _ => {
            let long = rng.pick(&[0.25, 0.5, 1.0, 1.0, 2.0]);
            let way = swung(tangent, next_bulge);
            let mut next = Point::default().along(way, forth * long);
            if rng.one_in(2) {
                next.x += nudge(epsilon, rng);
                next.y += nudge(epsilon, rng);
            }
            next
        }
    };
    let middle = at.along(chord, 1.0);
    let end = middle.along(next, 1.0);
    [
        Vertex { at, bulge },
        Vertex {
            at: middle,
            bulge: next_bulge,
        },
        Vertex {
            at: end,
            bulge: closing(rng),
        },
    ]
}

/// The bulge of the segment that closes the path.
fn closing(rng: &mut Rng) -> f64 {
    match rng.below(2) {
        0 => 0.0,
        _ => arc_bulge(rng),
    }
}

/// Vertices of very different magnitudes, so that computed points are other numbers than the vertices; and a small epsilon, which
/// sees it.
fn wide(rng: &mut Rng) -> (Vec<Vertex>, bool, f64) {
    let [bulge, next_bulge] = bulges(rng);
    let mut place = |far: bool| {
        let mut number = || match rng.below(4) {
            0 => coordinate(rng),
            _ if far => rng.sign() * power(rng, 15, 20),
            _ => rng.sign() * power(rng, -8, 12),
        };
        [number(), number()]
    };
    let [a, m, c] = [place(true), place(false), place(false)];
    let joint = [
        vertex(a[0], a[1], bulge),
        vertex(m[0], m[1], next_bulge),
        vertex(c[0], c[1], closing(rng)),
    ];
    let (path, closed) = if rng.one_in(3) {
        (joint[..2].to_vec(), true)
    } else {
        around(joint, rng)
    };
    (path, closed, power(rng, -40, -24))
}

/// Two lines, of which the first is a point by epsilon: it is a last bit shorter. The Rust finds its place on the second by a
/// quotient and a product, which may round away that last bit.
fn short(rng: &mut Rng) -> (Vec<Vertex>, bool, f64) {
    let long = rng.between(0.01, 0.25);
    let mut away = |least: f64, most: f64| rng.sign() * long * rng.between(least, most);
    let mut places = [
        [away(1.0, 1.0), away(0.0, 1.0)],
        [away(1.0, 3.0), away(0.0, 1.0)],
    ];
    if rng.one_in(2) {
        places.iter_mut().for_each(|place| place.reverse());
    }
    let [a, c] = places.map(|[x, y]| vertex(x, y, 0.0));
    let m = vertex(0.0, 0.0, 0.0);
    let (path, closed) = match rng.below(4) {
        0 => around([a, m, c], rng),
        _ => (vec![m, c, a], true),
    };
    (path, closed, up(long))
}

/// The joint in a path: as the next pair, as the closing pair, as both; and where the two segments are no neighbours, since the
/// path is open, or since another segment without length is between them.
fn around([a, m, c]: [Vertex; 3], rng: &mut Rng) -> (Vec<Vertex>, bool) {
    let point = Vertex { bulge: 0.0, ..m };
    match rng.below(16) {
        0..=4 => (vec![a, m, c], false),
        5..=8 => (vec![m, c, a], true),
        9..=11 => (vec![a, m], true),
        12 => (vec![m, c, a, m], false),
        13 => (vec![a, m, Vertex { bulge: 0.0, ..a }], false),
        14 => (vec![a, point, m, c], rng.one_in(2)),
        _ if rng.one_in(2) => (vec![m, c, a, point], true),
        _ => (vec![point, m, c, a], true),
    }
}

/// Up to a dozen segments, on a coarse grid or of arcs.
fn walk(rng: &mut Rng) -> Vec<Vertex> {
    let vertices = rng.below(13) as usize;
    match rng.below(3) {
        0 => on_grid(vertices, 1, rng),
        1 => on_grid(vertices, 3, rng),
        _ => arcs(vertices, 1.0, rng),
    }
}

/// The request's example: out, and half of the way back.
pub fn fold() -> Layout {
    let path = [0.0, 10.0, 5.0].map(|x| vertex(x, 0.0, 0.0));
    Layout {
        first: Drawn::new(&path, false),
        second: Drawn::default(),
        epsilon: 1e-5,
    }
}
