//! How neighbours of a path meet, and segments that might be taken for neighbours.

use cavalier_contours::polyline::{pline_seg_intr, PlineSegIntr, PlineVertex};

use crate::boxed::is_arc;
use crate::inputs::values::{down, up};
use crate::listings::model::{Path, Row};
use crate::listings::neighbours::is_near;

/// Which vertices two segments share, or seem to share.
#[derive(Clone, Copy, Debug, PartialEq)]
pub enum Link {
    /// The one between a segment and the next.
    Next,
    /// Vertex 0 of the first and the last segment of a closed path.
    Closing,
    /// Both, in a closed path of two segments.
    Both,
    /// None: an open path ends where it starts.
    Ends,
    /// None: the segment between the two has no length.
    Across,
}

pub const LINKS: [Link; 3] = [Link::Next, Link::Closing, Link::Both];
/// Which of two segments are arcs.
pub const SORTS: [&str; 4] = ["two lines", "line and arc", "arc and line", "two arcs"];
/// How a distance lies beside epsilon.
pub const GAPS: [&str; 3] = ["a last bit below", "equal to", "a last bit above"];

/// Two segments that meet.
pub struct Joint {
    pub link: Link,
    pub sort: usize,
    pub class: u64,
    pub epsilon: f64,
    pub points: Vec<[f64; 2]>,
    /// The vertices that they share, or seem to share.
    pub vertices: Vec<PlineVertex>,
    /// Whether it is an open path of two segments that ends where it starts, and where that is.
    pub back: Option<PlineVertex>,
    /// The traces of both segments.
    pub traces: [f64; 2],
}

/// The joints of a path that meet, of accepted numbers.
pub fn joints(path: Path, epsilon: f64) -> Vec<Joint> {
    let n = path.segments();
    let pairs = (0..n).flat_map(|i| (i + 1..n).map(move |j| (i, j)));
    let linked = pairs.filter_map(|(i, j)| link(path, i, j).map(|linked| (i, j, linked)));
    linked
        .filter_map(|(i, j, (link, vertices))| {
            let ((v1, v2), (u1, u2)) = (path.segment(i), path.segment(j));
            let answer = pline_seg_intr(v1, v2, u1, u2, epsilon);
            let meets = !matches!(answer, PlineSegIntr::NoIntersect);
            let row = Row::new([i, j], answer);
            let back = n == 2 && link == Link::Next && is_at(v1, u2);
            meets.then(|| Joint {
                link,
                sort: 2 * usize::from(is_arc(v1)) + usize::from(is_arc(u1)),
                class: row.class,
                epsilon,
                points: row.points().collect(),
                vertices,
                back: back.then_some(v1),
                traces: [path.trace(i), path.trace(j)],
            })
        })
        .collect()
}

fn is_at(a: PlineVertex, b: PlineVertex) -> bool {
    (a.x, a.y) == (b.x, b.y)
}

fn link(path: Path, i: usize, j: usize) -> Option<(Link, Vec<PlineVertex>)> {
    let shared: Vec<PlineVertex> = path.shared(i, j).collect();
    let n = path.segments();
    let link = match shared.len() {
        2 => Link::Both,
        1 if j == i + 1 => Link::Next,
        1 => Link::Closing,
        _ => return seeming(path, i, j, n),
    };
    Some((link, shared))
}

fn seeming(path: Path, i: usize, j: usize, n: usize) -> Option<(Link, Vec<PlineVertex>)> {
    let ((start, end), (_, other_end)) = (path.segment(i), path.segment(j));
    let no_length = |at: usize| {
        let (from, to) = path.segment(at);
        is_at(from, to)
    };
    if i == 0 && j + 1 == n && is_at(start, other_end) {
        Some((Link::Ends, vec![start]))
    } else if j == i + 2 && no_length(i + 1) {
        Some((Link::Across, vec![end]))
    } else if path.closed && i == 0 && j + 2 == n && no_length(n - 1) {
        Some((Link::Across, vec![other_end]))
    } else if path.closed && i == 1 && j + 1 == n && no_length(0) {
        Some((Link::Across, vec![start]))
    } else {
        None
    }
}

impl Joint {
    pub fn is_overlap(&self) -> bool {
        self.class > 3
    }

    /// Whether each point is near to some of the vertices.
    pub fn is_at_vertices(&self) -> bool {
        self.is_within(self.epsilon)
    }

    /// The same by another epsilon.
    pub fn is_within(&self, epsilon: f64) -> bool {
        let near = |point| self.vertices.iter().any(|v| is_near(point, *v, epsilon));
        self.points.iter().all(|point| near(*point))
    }

    /// Whether it is of one trace, and so passed over.
    pub fn is_passed(&self) -> bool {
        let [a, b] = self.traces;
        a > 0.0 && a == b
    }

    pub fn makes_row(&self) -> bool {
        !self.is_passed() && self.would_row()
    }

    /// If the traces were 0.
    pub fn would_row(&self) -> bool {
        self.is_overlap() || !LINKS.contains(&self.link) || !self.is_at_vertices()
    }

    /// A bit for each of the vertices that a point is near to.
    pub fn nears(&self, point: [f64; 2]) -> usize {
        let near = |at: usize| usize::from(is_near(point, self.vertices[at], self.epsilon)) << at;
        (0..self.vertices.len()).map(near).sum()
    }

    /// The differences of a point from a vertex.
    pub fn off(&self, point: [f64; 2], vertex: usize) -> [f64; 2] {
        let PlineVertex { x, y, .. } = self.vertices[vertex];
        [point[0] - x, point[1] - y]
    }

    /// Where a coordinate decides by a last bit whether there is a row: which of the two, whether it is above the vertex's, and
    /// how its distance lies beside epsilon.
    pub fn edges(&self) -> Vec<[usize; 3]> {
        let mut found = Vec::new();
        if self.is_overlap() || !LINKS.contains(&self.link) {
            return found;
        }
        for (k, point) in self.points.iter().enumerate() {
            let others = self.points.iter().enumerate();
            let mut others = others.filter(|(at, _)| *at != k);
            if !others.all(|(_, point)| self.nears(*point) > 0) {
                continue;
            }
            for vertex in 0..self.vertices.len() {
                if self.nears(*point) & !(1 << vertex) != 0 {
                    continue;
                }
                let off = self.off(*point, vertex);
                for axis in 0..2 {
                    let near = off[1 - axis].abs() < self.epsilon;
                    let above = usize::from(off[axis] > 0.0);
                    let gap = gap(off[axis].abs(), self.epsilon).filter(|_| near);
                    found.extend(gap.map(|gap| [axis, above, gap]));
                }
            }
        }
        found
    }
}

fn gap(distance: f64, epsilon: f64) -> Option<usize> {
    [down(epsilon), epsilon, up(epsilon)]
        .iter()
        .position(|beside| *beside == distance)
}
