//! Small layouts, on which every position is asked for: no pair meets, each pair meets, or some do.

use crate::inputs::values::epsilon;
use crate::inputs::Vertex;
use crate::listings::layout::{Drawn, Layout};
use crate::listings::shapes::{on_grid, straightened, vertex};
use crate::listings::FLAGS;
use crate::rng::Rng;

/// Paths of at most this many vertices.
const MOST: usize = 5;

type Shape = fn(usize, usize, &mut Rng) -> Vec<Vertex>;

/// By which path it is, and how many vertices it has.
const SHAPES: [Shape; 5] = [far, crossed, halves, on_a_point, grid];

/// Each shape, with each number of vertices, open and closed.
pub fn layouts(rng: &mut Rng) -> Vec<Layout> {
    let mut all = Vec::new();
    for shape in SHAPES {
        for (first, second) in (0..=MOST).flat_map(|n| (0..=MOST).map(move |m| (n, m))) {
            for closed in FLAGS {
                let mut path = |at: usize, vertices: usize| {
                    let path = shape(at, vertices, rng);
                    Drawn::new(&straightened(path), closed[at])
                };
                let (first, second) = (path(0, first), path(1, second));
                all.push(Layout {
                    first,
                    second,
                    epsilon: epsilon(rng),
                });
            }
        }
    }
    all
}

/// Whether the first path has pairs by itself, so that traces play a part in each call.
pub fn has_pairs(layout: &Layout) -> bool {
    layout.first.path().segments() > 1
}

fn each(vertices: usize, vertex: impl Fn(usize) -> Vertex) -> Vec<Vertex> {
    (0..vertices).map(vertex).collect()
}

/// A bow of lines, beside the other path's: nothing meets, not even in one path.
fn far(path: usize, vertices: usize, _: &mut Rng) -> Vec<Vertex> {
    let x = |i: usize| (100 * path + 2 * i) as f64;
    each(vertices, |i| vertex(x(i), (i * i) as f64, 0.0))
}

/// To and fro along an axis: lines that cross those of the other path, and cover each other.
fn crossed(path: usize, vertices: usize, _: &mut Rng) -> Vec<Vertex> {
    let end = |i: usize| if i % 2 == 0 { 3.0 } else { -3.0 };
    each(vertices, |i| match path {
        0 => vertex(end(i), 0.0, 0.0),
        _ => vertex(0.0, end(i), 0.0),
    })
}

/// Half circles from end to end, on the same side or on both.
fn halves(path: usize, vertices: usize, _: &mut Rng) -> Vec<Vertex> {
    let x = |i: usize| if i % 2 == 0 { 1.0 } else { -1.0 };
    let way = |i: usize| if (i / 2 + path) % 2 == 0 { 1.0 } else { -1.0 };
    each(vertices, |i| vertex(x(i), 0.0, way(i)))
}

/// All vertices on one point.
fn on_a_point(_: usize, vertices: usize, _: &mut Rng) -> Vec<Vertex> {
    each(vertices, |_| vertex(2.0, -1.0, 0.0))
}

/// Lines and arcs on a coarse grid, of which some meet.
fn grid(_: usize, vertices: usize, rng: &mut Rng) -> Vec<Vertex> {
    on_grid(vertices, 2, rng)
}
