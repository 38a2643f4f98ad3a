//! Neighbours in one path as in the request's words: which vertices two segments share, by index, and when a pair that shares
//! some makes no row.

use cavalier_contours::polyline::PlineVertex;

use super::model::{Path, Row};

/// Classes of one point or two, which may be at a joint only. The others are overlaps.
const TANGENT: u64 = 1;
const TWO: u64 = 3;

impl<'a> Path<'a> {
    /// The vertices that segments i and j share, i below j: the one between a segment and the next, and vertex 0 of the first and
    /// the last segment of a closed path. If it has two segments, they share both. None are shared by segments that are no
    /// neighbours, wherever their vertices lie.
    pub fn shared(self, i: usize, j: usize) -> impl Iterator<Item = PlineVertex> + Clone + 'a {
        let between = (j == i + 1).then_some(j);
        let around = (self.closed && i == 0 && j + 1 == self.segments()).then_some(0);
        let both = between.into_iter().chain(around);
        both.map(move |vertex| self.vertex(vertex))
    }
}

/// In each coordinate closer than epsilon.
pub fn is_near(point: [f64; 2], vertex: PlineVertex, epsilon: f64) -> bool {
    (point[0] - vertex.x).abs() < epsilon && (point[1] - vertex.y).abs() < epsilon
}

impl Row {
    pub fn points(&self) -> impl Iterator<Item = [f64; 2]> + '_ {
        let points = self.points[..self.given].chunks(2);
        points.map(|point| [point[0], point[1]])
    }

    /// Whether it is no overlap, and each of its points is near to some vertex that the pair shares.
    pub fn is_at_joint(
        &self,
        shared: impl Iterator<Item = PlineVertex> + Clone,
        epsilon: f64,
    ) -> bool {
        let near_some = |point| shared.clone().any(|vertex| is_near(point, vertex, epsilon));
        (TANGENT..=TWO).contains(&self.class) && self.points().all(near_some)
    }
}
