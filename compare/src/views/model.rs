//! A lent path's segments and the filled part of rows, as in the scope's prose.

use crate::vertex::{TRACE, VERTEX};

/// Two points.
pub const ROW: usize = 4;
/// The most vertices that a path may have.
pub const MOST_VERTICES: usize = 4096;

/// x, y and bulge of two vertices, and a trace.
pub const SEGMENT: usize = 2 * TRACE + 1;

/// The first vertex's numbers but its trace, then the second's, and the first one's trace.
pub type Segment = [f64; SEGMENT];

/// Why a path has no segments, whatever the index.
#[derive(Clone, Copy, Debug, PartialEq)]
pub enum Empty {
    /// Refusal 6: its length is no multiple of 4.
    Length,
    /// Refusal 7: it has more than 4,096 vertices.
    Vertices,
    /// It has fewer than two vertices.
    Few,
}

pub fn empty(path: &[f64]) -> Option<Empty> {
    let vertices = path.chunks_exact(VERTEX);
    if !vertices.remainder().is_empty() {
        return Some(Empty::Length);
    }
    match vertices.len() {
        0 | 1 => Some(Empty::Few),
        n if n > MOST_VERTICES => Some(Empty::Vertices),
        _ => None,
    }
}

/// All segments in order: from each vertex to the next, and in a closed path also from the last one back to the first.
pub fn segments(path: &[f64], closed: bool) -> Vec<Segment> {
    if empty(path).is_some() {
        return Vec::new();
    }
    let vertices: Vec<&[f64]> = path.chunks_exact(VERTEX).collect();
    let joined = |from: &[f64], to: &[f64]| -> Segment {
        let [from, to, trace] = [&from[..TRACE], &to[..TRACE], &from[TRACE..]];
        let numbers = [from, to, trace].concat();
        numbers.try_into().expect("two vertices and a trace")
    };
    let mut all: Vec<Segment> = vertices
        .windows(2)
        .map(|two| joined(two[0], two[1]))
        .collect();
    if closed {
        all.push(joined(vertices[vertices.len() - 1], vertices[0]));
    }
    all
}

/// The first so many rows; the empty part if there are fewer whole rows.
pub fn filled(points: &[f64], rows: usize) -> Vec<f64> {
    let whole: Vec<&[f64]> = points.chunks_exact(ROW).collect();
    match whole.get(..rows) {
        Some(front) => front.concat(),
        None => Vec::new(),
    }
}

#[cfg(test)]
mod tests {
    use super::*;

    #[rustfmt::skip]
    const THREE: [f64; 12] = [
        0.0, 0.0, 0.5, 7.0,
        4.0, 0.0, -1.0, 255.0,
        4.0, 3.0, 0.25, 2.0,
    ];

    /// The last closed one runs back to vertex 0 with the last bulge and the last trace.
    #[test]
    fn segments_of_three_vertices() {
        let inner = [
            [0.0, 0.0, 0.5, 4.0, 0.0, -1.0, 7.0],
            [4.0, 0.0, -1.0, 4.0, 3.0, 0.25, 255.0],
        ];
        assert_eq!(segments(&THREE, false), inner);
        let back = [4.0, 3.0, 0.25, 0.0, 0.0, 0.5, 2.0];
        assert_eq!(segments(&THREE, true), [inner[0], inner[1], back]);
    }

    #[test]
    fn two_vertices_closed_run_there_and_back() {
        let (there, back) = (
            [0.0, 0.0, 0.5, 4.0, 0.0, -1.0, 7.0],
            [4.0, 0.0, -1.0, 0.0, 0.0, 0.5, 255.0],
        );
        assert_eq!(segments(&THREE[..8], false), [there]);
        assert_eq!(segments(&THREE[..8], true), [there, back]);
    }

    #[test]
    fn paths_without_segments() {
        for (path, why) in [
            (vec![], Empty::Few),
            (vec![0.0; 4], Empty::Few),
            (vec![0.0; 1], Empty::Length),
            (vec![0.0; 9], Empty::Length),
            (vec![0.0; 12 + 3], Empty::Length),
            (vec![0.0; 4 * 4097], Empty::Vertices),
            (vec![0.0; 4 * 4097 + 1], Empty::Length),
        ] {
            assert_eq!(empty(&path), Some(why));
            assert!(segments(&path, false).is_empty() && segments(&path, true).is_empty());
        }
        let most = vec![0.0; 4 * 4096];
        assert_eq!(segments(&most, false).len(), 4095);
        assert_eq!(segments(&most, true).len(), 4096);
    }

    #[test]
    fn filled_parts() {
        let points: Vec<f64> = (0..11).map(f64::from).collect();
        assert_eq!(filled(&points, 0), [0.0; 0]);
        assert_eq!(filled(&points, 1), points[..4]);
        assert_eq!(filled(&points, 2), points[..8]);
        assert_eq!(filled(&points, 3), [0.0; 0]);
        assert_eq!(filled(&points, usize::MAX), [0.0; 0]);
        assert_eq!(filled(&[], 0), [0.0; 0]);
    }
}
