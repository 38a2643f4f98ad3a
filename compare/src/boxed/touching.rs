//! Two segments whose boxes all but touch: by themselves, in long paths, and in two groups of one path. One case is drawn, with
//! the first segment to the left of the second. Mirrored and turned by exact steps it gives the other three.

use cavalier_contours::polyline::PlineVertex;

use super::index::{bounds, margin, Bounds, A_GROUP};
use super::seen::{all_but_touching, place};
use crate::inputs::values::{arc_bulge, epsilon, line_bulge, power, whole};
use crate::inputs::{Pair, Segment, Vertex};
use crate::listings::layout::{Drawn, Layout};
use crate::listings::shapes::vertex;
use crate::rng::Rng;

/// How many ways there are to mirror and turn.
pub const WAYS: usize = 4;

/// The same after an exact step: to the other side, or above instead of beside, or both.
pub fn seen_from(way: usize, v: &Vertex) -> Vertex {
    let v = match way & 1 {
        0 => *v,
        _ => vertex(-v.at.x, v.at.y, -v.bulge),
    };
    match way & 2 {
        0 => v,
        _ => vertex(v.at.y, v.at.x, -v.bulge),
    }
}

pub fn drawn(path: &[Vertex], way: usize, closed: bool) -> Drawn {
    let path: Vec<Vertex> = path.iter().map(|v| seen_from(way, v)).collect();
    Drawn::new(&path, closed)
}

/// Two segments of which the second's least x is beside the first's greatest: a last bit below it, equal, or a last bit above.
pub fn pair(gap: usize, arcs: [bool; 2], rng: &mut Rng) -> Pair {
    loop {
        let style = rng.below(4);
        let epsilon = epsilon(rng);
        let v = segment(style, arcs[0], rng);
        let mut u = segment(style, arcs[1], rng);
        // at the first one's height
        u.from.at.y = rng.pick(&[v.from.at.y, v.to.at.y]);
        let greatest = of(v, epsilon)[2];
        let target = at(place(greatest) + gap as i64 - 1);
        if !moved(&mut u, target, epsilon) {
            continue;
        }
        let mut is = false;
        all_but_touching(&of(v, epsilon), &of(u, epsilon), |side, by| {
            is |= side == 2 && by == gap;
        });
        let pair = Pair { v, u, epsilon };
        if is && pair.is_accepted() {
            return pair;
        }
    }
}

fn segment(style: u64, arc: bool, rng: &mut Rng) -> Segment {
    let mut number = || match style {
        0 => whole(rng, 16) / 8.0,
        1 => rng.between(-4.0, 4.0),
        2 => rng.between(-100_000.0, 100_000.0),
        _ => rng.sign() * power(rng, -20, 3),
    };
    let [a, b, c, d] = [0; 4].map(|_| number());
    let bulge = if arc { arc_bulge(rng) } else { line_bulge(rng) };
    Segment {
        from: vertex(a, b, bulge),
        to: vertex(c, d, 0.0),
    }
}

fn of(segment: Segment, epsilon: f64) -> Bounds {
    let [from, to] = [segment.from, segment.to].map(|v| PlineVertex::new(v.at.x, v.at.y, v.bulge));
    bounds(from, to, margin(from, to, epsilon))
}

/// Moves a segment until its least x is the target, if it can be reached in some steps.
fn moved(segment: &mut Segment, target: f64, epsilon: f64) -> bool {
    for _ in 0..8 {
        let least = of(*segment, epsilon)[0];
        if least == target {
            return true;
        }
        segment.from.at.x += target - least;
        segment.to.at.x += target - least;
    }
    false
}

/// The float with this number among all of them.
fn at(place: i64) -> f64 {
    let magnitude = f64::from_bits(place.unsigned_abs());
    if place < 0 {
        -magnitude
    } else {
        magnitude
    }
}

/// The two as paths of their own.
pub fn alone(pair: &Pair, way: usize) -> Layout {
    let path = |s: Segment| drawn(&[s.from, s.to], way, false);
    Layout {
        first: path(pair.v),
        second: path(pair.u),
        epsilon: pair.epsilon,
    }
}

/// Each among others that stay behind it, in any group and at any place of it.
pub fn among_others(pair: &Pair, way: usize, rng: &mut Rng) -> Layout {
    let mut path = |s: Segment, behind: f64| {
        let [before, after] = [0; 2].map(|_| rng.pick(&[0, 1, 14, 15, 16, 17, 40]));
        let path = with_others(s, before, after, behind, rng);
        drawn(&path, way, false)
    };
    Layout {
        first: path(pair.v, -1.0),
        second: path(pair.u, 1.0),
        epsilon: pair.epsilon,
    }
}

/// Both in one path, in groups of their own with others that stay behind. The group between them leads from one to the other.
pub fn in_one_path(pair: &Pair, way: usize, closed: bool, rng: &mut Rng) -> Layout {
    let mut group = |s: Segment, behind: f64| {
        let before = rng.below(A_GROUP as u64) as usize;
        with_others(s, before, A_GROUP - 1 - before, behind, rng)
    };
    let (mut path, second) = (group(pair.v, -1.0), group(pair.u, 1.0));
    let middle = |k: usize| {
        let end = path[path.len() - 1].at;
        vertex(end.x, end.y + k as f64, 0.0)
    };
    let between: Vec<Vertex> = (1..A_GROUP).map(middle).collect();
    path.extend(between);
    path.extend(second);
    Layout {
        first: drawn(&path, way, closed),
        second: Drawn::default(),
        epsilon: pair.epsilon,
    }
}

/// Lines before and after a segment, to the left of it or to the right.
fn with_others(s: Segment, before: usize, after: usize, behind: f64, rng: &mut Rng) -> Vec<Vertex> {
    let (x, y) = (s.from.at.x, s.from.at.y);
    let far = (s.to.at.x - x).abs() + 1.0;
    let mut other = |k: usize| vertex(x + behind * (far + k as f64), y + whole(rng, 2), 0.0);
    let mut path: Vec<Vertex> = (0..before).map(&mut other).collect();
    path.extend([s.from, Vertex { bulge: 0.0, ..s.to }]);
    path.extend((0..after).map(&mut other));
    path
}
