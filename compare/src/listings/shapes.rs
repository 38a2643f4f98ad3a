//! Paths as they are cut, and others: coils, meanders, pads, walks of arcs, random vertices on a coarse grid.
//!
//! As everywhere here, no function is used whose last bit depends on the machine.

use crate::inputs::values::{arc_bulge, bulge, coordinate, whole, LINE_LIMIT, SMALLEST};
use crate::inputs::{Point, Vertex};
use crate::rng::Rng;

pub fn vertex(x: f64, y: f64, bulge: f64) -> Vertex {
    let at = Point { x, y };
    Vertex { at, bulge }
}

/// The bulge of a quarter of a circle to the left.
fn quarter() -> f64 {
    2f64.sqrt() - 1.0
}

/// This many segments, lines and quarter arcs in turns, winding inwards to the left around the origin.
pub fn coil(segments: usize, pitch: f64, radius: f64) -> Vec<Vertex> {
    let sides = segments / 2 + 1;
    let longest = pitch * (sides / 2 + 2) as f64;
    let mut way = Point { x: 1.0, y: 0.0 };
    let mut at = Point { x: -0.5, y: -0.5 };
    at = Point::default().along(at, longest);
    let mut path = Vec::new();
    for side in 0..=sides {
        path.push(Vertex { at, bulge: 0.0 });
        at = at.along(way, longest - pitch * (side / 2) as f64);
        let bulge = quarter();
        path.push(Vertex { at, bulge });
        at = at.along(way, radius).along(way.turned(), radius);
        way = way.turned();
    }
    path.truncate(segments + 1);
    path
}

/// Fingers side by side, from 0 up to `height`, joined by half circles or by lines.
pub fn meander(fingers: usize, height: f64, pitch: f64, is_round: bool) -> Vec<Vertex> {
    let turn = if is_round { 1.0 } else { 0.0 };
    let finger = |i: usize| {
        let x = i as f64 * pitch;
        if i % 2 == 0 {
            // up, and over the top to the right
            [vertex(x, 0.0, 0.0), vertex(x, height, -turn)]
        } else {
            [vertex(x, height, 0.0), vertex(x, 0.0, turn)]
        }
    };
    (0..fingers).flat_map(finger).collect()
}

/// A circle of two half arcs, to be closed.
pub fn circle(center: Point, radius: f64, way: f64) -> Vec<Vertex> {
    let end = |side: f64| vertex(center.x + side * radius, center.y, way);
    vec![end(-1.0), end(1.0)]
}

/// A small polygon, to be closed: three to eight corners on a square around the centre.
pub fn polygon(center: Point, size: f64, rng: &mut Rng) -> Vec<Vertex> {
    const AROUND: [(f64, f64); 8] = [
        (1.0, 0.0),
        (1.0, 1.0),
        (0.0, 1.0),
        (-1.0, 1.0),
        (-1.0, 0.0),
        (-1.0, -1.0),
        (0.0, -1.0),
        (1.0, -1.0),
    ];
    let corners = 3 + rng.below(6) as usize;
    let corner = |i: usize| {
        let (x, y) = AROUND[i * AROUND.len() / corners];
        vertex(center.x + size * x, center.y + size * y, 0.0)
    };
    (0..corners).map(corner).collect()
}

/// A walk of arcs from end to end.
pub fn arcs(vertices: usize, step: f64, rng: &mut Rng) -> Vec<Vertex> {
    let mut at = Point::default();
    let mut next = || {
        at.x += rng.between(-step, step);
        at.y += rng.between(-step, step);
        let bulge = arc_bulge(rng);
        Vertex { at, bulge }
    };
    (0..vertices).map(|_| next()).collect()
}

/// To and fro over a sheet of 1,000 by 1,000: `side` segments across and `side` such lines, `off` lines away from the edge, with
/// every vertex a little off its place.
pub fn to_and_fro(side: usize, off: f64, bulged: bool, rng: &mut Rng) -> Vec<Vertex> {
    let cell = 1000.0 / side as f64;
    let mut next = |i: usize| {
        let (line, along) = (i / side, i % side);
        let along = if line % 2 == 0 {
            along
        } else {
            side - 1 - along
        };
        let mut near = |place: f64| cell * (place + rng.between(-0.3, 0.3));
        let (x, y) = (near(along as f64), near(line as f64 + off));
        let bulge = if bulged {
            rng.sign() * rng.between(0.1, 0.5)
        } else {
            0.0
        };
        vertex(x, y, bulge)
    };
    (0..side * side).map(&mut next).collect()
}

/// A round coil in short lines, some 50 for each turn, this many in all.
pub fn short_steps(vertices: usize) -> Vec<Vertex> {
    let t = 1.0 / 16.0;
    let (a, b) = ((1.0 - t * t) / (1.0 + t * t), 2.0 * t / (1.0 + t * t));
    let mut way = Point { x: 1.0, y: 0.0 };
    let mut next = |i: usize| {
        let radius = 1.0 + (vertices - i) as f64 / 64.0;
        let at = Point::default().along(way, radius);
        way = Point {
            x: a * way.x - b * way.y,
            y: b * way.x + a * way.y,
        };
        Vertex { at, bulge: 0.0 }
    };
    (0..vertices).map(&mut next).collect()
}

/// A rectangle with rounded corners, to be closed.
pub fn pocket(center: Point, width: f64, height: f64, radius: f64) -> Vec<Vertex> {
    let bulge = quarter();
    let (x, y) = (width / 2.0, height / 2.0);
    let (near_x, near_y) = (x - radius, y - radius);
    let corners = [
        [vertex(-near_x, -y, 0.0), vertex(near_x, -y, bulge)],
        [vertex(x, -near_y, 0.0), vertex(x, near_y, bulge)],
        [vertex(near_x, y, 0.0), vertex(-near_x, y, bulge)],
        [vertex(-x, near_y, 0.0), vertex(-x, -near_y, bulge)],
    ];
    placed(&corners.concat(), (1.0, 0.0), 1.0, center)
}

/// Whole coordinates up to `size`, on which much touches and overlaps.
pub fn on_grid(vertices: usize, size: u64, rng: &mut Rng) -> Vec<Vertex> {
    const BULGES: [f64; 10] = [0.0, 0.0, 0.0, 0.0, 0.0, -0.0, 1.0, -1.0, 0.5, -0.25];
    let mut next = || {
        let bulge = if rng.one_in(6) {
            rng.sign() * quarter()
        } else {
            rng.pick(&BULGES)
        };
        vertex(whole(rng, size), whole(rng, size), bulge)
    };
    (0..vertices).map(|_| next()).collect()
}

/// Any accepted coordinates and bulges.
pub fn anywhere(vertices: usize, rng: &mut Rng) -> Vec<Vertex> {
    let mut next = || vertex(coordinate(rng), coordinate(rng), bulge(rng));
    (0..vertices).map(|_| next()).collect()
}

/// The same path turned, enlarged and moved. A turn is (a, b), of length 1.
pub fn placed(path: &[Vertex], turn: (f64, f64), size: f64, by: Point) -> Vec<Vertex> {
    let place = |v: &Vertex| {
        let (x, y) = (v.at.x * size, v.at.y * size);
        let (a, b) = turn;
        vertex(a * x - b * y + by.x, b * x + a * y + by.y, v.bulge)
    };
    path.iter().map(place).collect()
}

/// The same from its other end: each segment's bulge goes to its other vertex, with the other sign.
pub fn reversed(path: &[Vertex]) -> Vec<Vertex> {
    let before = |i: usize| path[(i + path.len() - 1) % path.len()].bulge;
    let other = |i: usize| Vertex {
        bulge: -before(i),
        ..path[i]
    };
    (0..path.len()).rev().map(other).collect()
}

/// Makes a line of each arc whose chord is too short, also of the closing one.
pub fn straightened(mut path: Vec<Vertex>) -> Vec<Vertex> {
    let n = path.len();
    for i in 0..n {
        let chord = path[i].at.to(path[(i + 1) % n].at).length();
        if chord < SMALLEST && path[i].bulge.abs() >= LINE_LIMIT {
            path[i].bulge = 0.0;
        }
    }
    path
}

/// Two meanders that cross at this many points and do not meet otherwise; one has `across` fingers across the other's.
pub fn crossed(rows: usize, across: usize) -> (Vec<Vertex>, Vec<Vertex>) {
    let (whole, rest) = (rows / across, rows % across);
    let mut upright = meander(whole + 1, (across + 1) as f64, 1.0, false);
    // the first finger reaches down only to the rest
    upright[0].at.y = (across - rest) as f64 + 0.5;
    let lying = meander(across, (whole + 2) as f64, 1.0, false);
    let lay = |v: &Vertex| vertex(v.at.y - 1.0, v.at.x + 1.0, v.bulge);
    (upright, lying.iter().map(lay).collect())
}

/// The same two joined to one path, around everything, so that otherwise only neighbours meet.
pub fn crossed_by_itself(rows: usize, across: usize) -> Vec<Vertex> {
    let (mut path, lying) = crossed(rows, across);
    let last = path[path.len() - 1].at;
    let below = |x: f64| vertex(x, -1.0, 0.0);
    if last.y > 0.0 {
        let (top, right) = (last.y + 1.0, last.x + 2.0);
        path.extend([
            vertex(last.x, top, 0.0),
            vertex(right, top, 0.0),
            below(right),
        ]);
    } else {
        path.push(below(last.x));
    }
    path.extend([below(-2.0), vertex(-2.0, 1.0, 0.0)]);
    path.extend(lying);
    path
}
