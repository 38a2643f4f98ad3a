//! Layouts for boxed listings: sizes about a group, arcs whose chord decides, rows whose boxes are apart, paths of some groups.

use super::touching::{drawn, WAYS};
use crate::inputs::values::{epsilon, whole};
use crate::inputs::{Point, Vertex};
use crate::listings::layout::{Drawn, Layout};
use crate::listings::shapes::{
    arcs, coil, meander, on_grid, placed, short_steps, straightened, to_and_fro, vertex,
};
use crate::rng::Rng;

/// About the sizes at which there is another group, or none.
pub const SIZES: [usize; 9] = [0, 1, 2, 15, 16, 17, 31, 32, 33];

/// A path of so many segments. A single segment is no closed path, and no segments are none or one vertex.
pub fn of_size(segments: usize, closed: bool, rng: &mut Rng) -> Drawn {
    let vertices = match segments {
        0 => rng.below(2) as usize,
        1 => 2,
        n if closed => n,
        n => n + 1,
    };
    Drawn::new(&straightened(walk(vertices, rng)), closed && segments != 1)
}

/// A walk on a lattice by short steps, mostly to the right, so that groups lie side by side.
fn walk(vertices: usize, rng: &mut Rng) -> Vec<Vertex> {
    let mut at = Point::default();
    let steps = on_grid(vertices, 1, rng);
    let mut next = |v: Vertex| {
        at.x += v.at.x + rng.below(2) as f64;
        at.y += v.at.y;
        Vertex { at, ..v }
    };
    steps.into_iter().map(&mut next).collect()
}

/// An arc, and a line across its height. Without the chord their boxes are apart. As two paths, and the other way round.
pub fn by_chord(way: usize, rng: &mut Rng) -> [Layout; 2] {
    let (arc, line, epsilon) = arc_and_line(rng);
    let [arc, line] = [arc, line].map(|ends| drawn(&ends, way, false));
    let layout = |first: &Drawn, second: &Drawn| Layout {
        first: first.clone(),
        second: second.clone(),
        epsilon,
    };
    [layout(&arc, &line), layout(&line, &arc)]
}

/// The same in one path, which goes far away between them.
pub fn by_chord_in_one(way: usize, rng: &mut Rng) -> [Layout; 2] {
    let (arc, line, epsilon) = arc_and_line(rng);
    let far: Vec<Vertex> = (0..rng.below(40))
        .map(|k| vertex(k as f64, 100.0, 0.0))
        .collect();
    let layout = |parts: [&[Vertex]; 3]| Layout {
        first: drawn(&parts.concat(), way, false),
        second: Drawn::default(),
        epsilon,
    };
    [layout([&arc, &far, &line]), layout([&line, &far, &arc])]
}

fn arc_and_line(rng: &mut Rng) -> ([Vertex; 2], [Vertex; 2], f64) {
    let half = 1.0 + rng.below(8) as f64;
    let bulge = rng.sign() * rng.between(0.5, 1.0);
    let height = -0.75 * bulge * half;
    let arc = [vertex(-half, 0.0, bulge), vertex(half, 0.0, 0.0)];
    let line = [
        vertex(-2.0 * half, height, 0.0),
        vertex(2.0 * half, height, 0.0),
    ];
    (arc, line, rng.pick(&[1.0 / 16.0, 1.0 / 1024.0, 1e-5, 1e-8]))
}

/// Short parallel lines: the Rust reports them as overlapping if the product of length and distance is at most the epsilon, but
/// from a distance of two epsilons on their boxes are apart.
pub fn left_out(rng: &mut Rng) -> Layout {
    let epsilon = epsilon(rng);
    let apart = epsilon * rng.between(0.6, 3.0);
    let long = rng.between(0.05, 0.45);
    let way = rng.below(WAYS as u64) as usize;
    let mut path = || {
        let fingers = 1 + rng.below(20) as usize;
        drawn(&meander(fingers, long, apart, false), way, false)
    };
    Layout {
        first: path(),
        second: path(),
        epsilon,
    }
}

/// Two lines of which the full listing makes a row, though their boxes are apart.
pub fn two_left_out(rng: &mut Rng) -> Layout {
    let epsilon = epsilon(rng);
    let (long, apart) = (rng.between(0.1, 0.45), 2.1 * epsilon);
    let way = rng.below(WAYS as u64) as usize;
    let line = |y: f64| drawn(&[vertex(0.0, y, 0.0), vertex(long, y, 0.0)], way, false);
    Layout {
        first: line(0.0),
        second: line(apart),
        epsilon,
    }
}

/// The four ends in one path.
pub fn joined(layout: &Layout) -> Layout {
    let numbers = [&layout.first.numbers[..], &layout.second.numbers].concat();
    let first = Drawn {
        numbers,
        closed: false,
    };
    Layout {
        first,
        second: Drawn::default(),
        epsilon: layout.epsilon,
    }
}

/// Some groups of segments, each of which is near each other.
pub fn close(rng: &mut Rng) -> Layout {
    let mut path = || {
        let vertices = 26 + rng.below(20) as usize;
        let path = on_grid(vertices, 1, rng);
        let path = placed(&path, (1.0, 0.0), 0.25, Point::default());
        Drawn::new(&straightened(path), rng.one_in(2))
    };
    Layout {
        first: path(),
        second: path(),
        epsilon: 0.5,
    }
}

/// Some hundred segments a path, most of which are far from each other: coils, walks, and paths to and fro over the sheet.
pub fn larger(rng: &mut Rng) -> Layout {
    let shape = rng.below(5);
    let mut path = || {
        let vertices = 100 + rng.below(300) as usize;
        let path = match shape {
            0 => short_steps(vertices),
            1 => {
                let bent = |v: Vertex| Vertex {
                    bulge: 1.0 / 32.0,
                    ..v
                };
                short_steps(vertices).into_iter().map(bent).collect()
            }
            2 => coil(vertices, 0.5, 0.25),
            3 => to_and_fro(9 + rng.below(10) as usize, 0.5, rng.one_in(2), rng),
            _ if rng.one_in(2) => walk(vertices, rng),
            _ => arcs(vertices, 4.0, rng),
        };
        let by = Point {
            x: whole(rng, 40) / 4.0,
            y: whole(rng, 40) / 4.0,
        };
        let turn = rng.pick(&[(1.0, 0.0), (0.0, 1.0), (0.6, 0.8)]);
        let path = straightened(placed(&path, turn, 1.0, by));
        Drawn::new(&path, rng.one_in(2))
    };
    Layout {
        first: path(),
        second: path(),
        epsilon: epsilon(rng),
    }
}
