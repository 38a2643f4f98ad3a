//! Listings with rows at chosen places of a block: a chain of short segments along an axis, and a path that goes across it at
//! chosen ones of them.

use crate::crossing::faults::two_to;
use crate::inputs::values::line_bulge;
use crate::inputs::{Point, Vertex};
use crate::listings::layout::{Call, Drawn, Layout};
use crate::listings::shapes::{placed, vertex};
use crate::rng::Rng;

/// Segments of the second path about the limits and about whole blocks.
pub const SIZES: [usize; 11] = [31, 32, 33, 63, 64, 65, 127, 128, 129, 4095, 4096];

/// Segments of both paths that have 2,047, 2,048 and 2,049 pairs, and those of one path below and above.
pub const PAIRS: [[usize; 2]; 6] = [[23, 89], [32, 64], [64, 32], [3, 683], [45, 45], [46, 46]];

/// Of which segments the two paths are.
#[derive(Clone, Copy, Debug, PartialEq)]
pub enum Sort {
    Lines,
    /// Lines, and in the second path some arcs among them; as many as there may be for the sieve, and one more.
    WithArcs,
    AnEighth,
    BeyondAnEighth,
    /// One path of arcs, the other of lines.
    ArcsFirst,
    ArcsSecond,
}

pub const SORTS: [Sort; 6] = [
    Sort::Lines,
    Sort::WithArcs,
    Sort::AnEighth,
    Sort::BeyondAnEighth,
    Sort::ArcsFirst,
    Sort::ArcsSecond,
];

/// So far an upright line goes to either side, and so far the chord of an arc stands off the chain.
const HALF: f64 = 0.25;
const OFF: f64 = 0.3;

/// Whether tracks cut the runs.
#[derive(Clone, Copy, PartialEq)]
pub enum Cut {
    Nowhere,
    Anywhere,
    /// There is also a run of this many indices of the second path, from this one on.
    Into {
        from: usize,
        length: usize,
    },
}

/// A listing of two paths with so many segments, or of one path of both, and with rows at chosen indices.
pub fn draw(sizes: [usize; 2], sort: Sort, call: Call, cut: Cut, rng: &mut Rng) -> Layout {
    let [n, m] = sizes;
    let mut closed = [0; 2].map(|_| rng.one_in(2));
    // an open path has at most 4,095 segments
    match call {
        Call::Own => closed[0] |= n + m + 1 > 4095,
        _ => closed[1] |= m > 4095,
    }
    let second = chain(m, sort, rng);
    let mut tracks = match cut {
        Cut::Nowhere => vec![0.0; m + 1],
        _ => tracks(m + 1, rng),
    };
    if let Cut::Into { from, length } = cut {
        let trace = rng.pick(&[0.0, 2.0]);
        tracks[from..from + length].fill(trace);
        tracks[from - 1] = ACROSS;
        tracks[from + length] = ACROSS;
    }
    let arcs: Vec<usize> = (0..m).filter(|j| second[*j].bulge.abs() > 0.1).collect();
    let targets = targets(n, &tracks, &arcs, cut, rng);
    let first = match sort {
        Sort::ArcsFirst => hops(&targets),
        _ => uprights(&targets, &second),
    };
    let (first, second) = somewhere(&first, &second, rng);
    let traces = (0..=n).map(|_| match cut {
        Cut::Nowhere => 0.0,
        _ => rng.pick(&TRACES),
    });
    let traces: Vec<f64> = traces.collect();
    let epsilon = rng.pick(&[two_to(-10), 1e-5, 1e-8]);
    match call {
        Call::Own => {
            let all = [&first[..=n], &second[..]].concat();
            let traces = [traces, tracks].concat();
            Layout {
                first: path(&all, &traces, n + m + 1, closed[0]),
                second: Drawn::default(),
                epsilon,
            }
        }
        _ => Layout {
            first: path(&first, &traces, n, closed[0]),
            second: path(&second, &tracks, m, closed[1]),
            epsilon,
        },
    }
}

/// The first vertices with these traces: so many that there are this many segments.
fn path(all: &[Vertex], traces: &[f64], segments: usize, closed: bool) -> Drawn {
    let vertices = if closed { segments } else { segments + 1 };
    let mut drawn = Drawn::new(&all[..vertices], closed);
    for (of_vertex, trace) in drawn.traces().zip(traces) {
        *of_vertex = *trace;
    }
    drawn
}

/// Traces of tracks, and of the path that goes across them, mostly of this one.
const ACROSS: f64 = 1.0;
const TRACES: [f64; 4] = [0.0, ACROSS, ACROSS, 2.0];

/// Tracks of any length, one after the other.
fn tracks(vertices: usize, rng: &mut Rng) -> Vec<f64> {
    let longest = rng.pick(&[3, 40, 90, 200]);
    let (mut left, mut trace) = (0, 0.0);
    let mut next = || {
        if left == 0 {
            left = match rng.below(4) {
                0 => rng.pick(&[1, 63, 64, 65, 127, 128, 129]),
                _ => 1 + rng.below(longest),
            };
            trace = rng.pick(&TRACES);
        }
        left -= 1;
        trace
    };
    (0..vertices).map(|_| next()).collect()
}

/// Segments of length 1 along x, with some arcs or with all.
fn chain(segments: usize, sort: Sort, rng: &mut Rng) -> Vec<Vertex> {
    let arcs = match sort {
        Sort::Lines | Sort::ArcsFirst => 0,
        Sort::WithArcs => 1 + rng.below(segments as u64 / 10) as usize,
        Sort::AnEighth => segments / 8,
        Sort::BeyondAnEighth => segments / 8 + 1,
        Sort::ArcsSecond => segments,
    };
    let mut left = arcs;
    let mut bulge = |i: usize| {
        // each index is as likely as each other
        if i < segments && (rng.below((segments - i) as u64) as usize) < left {
            left -= 1;
            rng.sign() * rng.pick(&[1.0, 0.75, 0.5])
        } else {
            line_bulge(rng)
        }
    };
    (0..=segments)
        .map(|i| vertex(i as f64, 0.0, bulge(i)))
        .collect()
}

/// Which indices are gone across: the first and the last of each block, of each track and of all, those of arcs, and any.
fn targets(count: usize, tracks: &[f64], arcs: &[usize], cut: Cut, rng: &mut Rng) -> Vec<usize> {
    let m = tracks.len() - 1;
    let bounds: Vec<usize> = match cut {
        Cut::Into { from, length } => vec![from, from + length],
        _ => (1..m).filter(|j| tracks[j - 1] != tracks[*j]).collect(),
    };
    let mut one = || {
        let block = 64 * rng.below(m as u64 / 64 + 1) as usize;
        let at = match rng.below(8) {
            0 => 0,
            1 => m - 1,
            2 => rng.pick(&[block, block + 63, block + 64]),
            3 | 4 if !arcs.is_empty() => rng.pick(arcs),
            4..=6 if !bounds.is_empty() => rng.pick(&bounds) - rng.below(2) as usize,
            _ => rng.below(m as u64) as usize,
        };
        at.min(m - 1)
    };
    (0..count / 2 + 1).map(|_| one()).collect()
}

/// Up and down across the chain at these indices, and along it between them. Where the chain has an arc, only the arc is crossed:
/// its chord is clearly apart.
fn uprights(targets: &[usize], chain: &[Vertex]) -> Vec<Vertex> {
    let mut path = Vec::new();
    for (turn, target) in targets.iter().enumerate() {
        let Vertex { at, bulge } = chain[*target];
        let (middle, half) = match bulge.abs() < 0.1 {
            true => (0.0, HALF),
            false => (-bulge / 2.0, 0.2),
        };
        let ends = [middle - half, middle + half];
        let ends = if turn % 2 == 0 {
            ends
        } else {
            [ends[1], ends[0]]
        };
        path.extend(ends.map(|y| vertex(at.x + 0.5, y, 0.0)));
    }
    path.push(vertex(-1.0, -2.0, 0.0));
    path
}

/// Arcs that reach over the chain at these indices, with their chords beside it, and flat ones between them.
fn hops(targets: &[usize]) -> Vec<Vertex> {
    let mut path = Vec::new();
    for (turn, target) in targets.iter().enumerate() {
        let x = *target as f64;
        // no two ends are the same, also where the path is closed
        let y = -OFF - 1e-4 * turn as f64;
        path.extend([vertex(x, y, -1.0), vertex(x + 1.0, y - 0.5e-4, 1e-3)]);
    }
    path.push(vertex(-1.0, -2.0, 0.0));
    path
}

/// Both as they are, or both turned, enlarged and moved.
fn somewhere(first: &[Vertex], second: &[Vertex], rng: &mut Rng) -> (Vec<Vertex>, Vec<Vertex>) {
    let turn = rng.pick(&[(1.0, 0.0), (1.0, 0.0), (0.0, -1.0), (0.6, 0.8)]);
    let size = rng.pick(&[1.0, 1.0, 0.25, 25.4]);
    let by = Point {
        x: rng.between(-100.0, 100.0).round(),
        y: rng.between(-100.0, 100.0),
    };
    (
        placed(first, turn, size, by),
        placed(second, turn, size, by),
    )
}

/// Listings whose rows the sieve's test alone would lose: of short lines, with a large epsilon, and of points, all about one
/// place.
pub fn unusual(call: Call, rng: &mut Rng) -> Layout {
    let way = rng.below(3);
    let epsilon = match way {
        0 => rng.pick(&[0.25, 0.5]),
        _ => two_to(-10),
    };
    let length = match way {
        0 => 1.0,
        _ => two_to(-7),
    };
    let mut short = || {
        let angle = rng.between(-1.0, 1.0);
        let way = Point {
            x: angle,
            y: 1.0 - angle.abs(),
        };
        let size = length / way.length();
        // a ninth of the length beyond the end, which is less than epsilon
        let [from, to] = [-10.0 / 9.0 * size, -size / 9.0];
        let ends = [
            Point::default().along(way, from),
            Point::default().along(way, to),
        ];
        if rng.one_in(8) {
            [Point::default(); 2]
        } else {
            ends
        }
    };
    let shorts: Vec<[Point; 2]> = (0..20).map(|_| short()).collect();
    let mut long = || {
        let way = Point {
            x: rng.between(-4.0, 4.0),
            y: rng.between(1.0, 4.0),
        };
        [-0.5, 0.5].map(|t| Point::default().along(way, t))
    };
    let longs: Vec<[Point; 2]> = (0..20).map(|_| long()).collect();
    let path = |lines: &[[Point; 2]]| -> Vec<Vertex> {
        let each = lines.iter().flat_map(|[a, b]| [*a, *b, *a]);
        each.map(|at| Vertex { at, bulge: 0.0 }).collect()
    };
    // an eighth of the second path may be such lines, and of one path
    let mixed = [&longs[..], &longs[..], &longs[..], &shorts[..4]].concat();
    let (first, second) = match call {
        Call::Own => (path(&mixed), path(&longs)),
        _ if rng.one_in(2) => (path(&shorts), path(&longs)),
        _ => (path(&longs), path(&mixed)),
    };
    match call {
        Call::Own => Layout {
            first: Drawn::new(&[first, second].concat(), false),
            second: Drawn::default(),
            epsilon,
        },
        _ => Layout {
            first: Drawn::new(&first, false),
            second: Drawn::new(&second, false),
            epsilon,
        },
    }
}
