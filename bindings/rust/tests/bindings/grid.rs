//! Listings of lines between whole points, beside exact whole-number arithmetic that knows nothing
//! of the library. Coordinates are small, so that lines apart are farther apart than epsilon.

use vonjekona::{Path, Vertex, mutual, self_listing};

use crate::inputs::{Draw, EPSILON, at};

type Point = (i64, i64);

fn turn(a: Point, b: Point, c: Point) -> i64 {
    ((b.0 - a.0) * (c.1 - a.1) - (b.1 - a.1) * (c.0 - a.0)).signum()
}

fn within(a: Point, b: Point, c: Point) -> bool {
    let between = |x: i64, y: i64, z: i64| x.min(y) <= z && z <= x.max(y);
    between(a.0, b.0, c.0) && between(a.1, b.1, c.1)
}

/// Whether two segments share a point, and whether they share more than one.
fn shared(a: Point, b: Point, c: Point, d: Point) -> (bool, bool) {
    let turns = [turn(a, b, c), turn(a, b, d), turn(c, d, a), turn(c, d, b)];
    if turns != [0; 4] {
        let cross = turns[0] * turns[1] <= 0 && turns[2] * turns[3] <= 0;
        return (cross, false);
    }
    // all on one straight line: which ends lie within the other
    let mut on: Vec<Point> = Vec::new();
    on.extend([c, d].into_iter().filter(|&q| within(a, b, q)));
    on.extend([a, b].into_iter().filter(|&q| within(c, d, q)));
    on.sort_unstable();
    on.dedup();
    (!on.is_empty(), on.len() > 1)
}

/// Points of a small square: the smaller it is, the more lines overlap.
fn path(draw: &mut Draw, vertices: usize, size: u64) -> Vec<Point> {
    (0..vertices).map(|_| (draw.about(size) as i64, draw.about(size) as i64)).collect()
}

fn lent(points: &[Point]) -> Vec<Vertex> {
    points.iter().map(|&(x, y)| at(x as f64, y as f64)).collect()
}

fn segments(points: &[Point], closed: bool) -> Vec<(Point, Point)> {
    let n = points.len();
    let count = if n < 2 { 0 } else { n - usize::from(!closed) };
    (0..count).map(|i| (points[i], points[(i + 1) % n])).collect()
}

#[test]
fn two_paths() {
    let mut draw = Draw::new(1);
    let mut seen = [0; 6];
    for k in 0..60 {
        let size = [2, 4, 12][k % 3];
        let (first, second) = (path(&mut draw, k % 40, size), path(&mut draw, 40 - k % 41, size));
        let (closed, other) = (k % 2 == 0, k % 5 == 0);
        let mut expected = Vec::new();
        for (i, v) in segments(&first, closed).into_iter().enumerate() {
            for (j, u) in segments(&second, other).into_iter().enumerate() {
                match shared(v.0, v.1, u.0, u.1) {
                    (false, _) => {}
                    (true, false) => expected.push((i, j, 2)),
                    (true, true) => expected.push((i, j, 4)),
                }
            }
        }
        let (a, b) = (Path::new(lent(&first), closed), Path::new(lent(&second), other));
        let listing = mutual(&a, &b, EPSILON).unwrap();
        let rows: Vec<_> = listing.iter().map(|r| (r.first, r.second, r.met.class())).collect();
        assert_eq!(rows, expected);
        assert_eq!(listing.looked_at(), (a.segments() * b.segments()) as u64);
        rows.iter().for_each(|r| seen[usize::from(r.2)] += 1);
    }
    assert!(seen[2] > 1000 && seen[4] > 20, "{seen:?}");
}

#[test]
fn one_path() {
    let mut draw = Draw::new(2);
    let mut neighbours = 0;
    for k in 0..60 {
        let points = path(&mut draw, k, [2, 4, 12][k % 3]);
        let closed = k % 2 == 0;
        let all = segments(&points, closed);
        let mut expected = Vec::new();
        for j in 0..all.len() {
            for i in 0..j {
                let (share, more) = shared(all[i].0, all[i].1, all[j].0, all[j].1);
                let beside = i + 1 == j || closed && i == 0 && j + 1 == all.len();
                if if beside { more } else { share } {
                    expected.push((i, j));
                    neighbours += usize::from(beside);
                }
            }
        }
        expected.sort_unstable();
        let listing = self_listing(&Path::new(lent(&points), closed), EPSILON).unwrap();
        let rows: Vec<_> = listing.iter().map(|r| (r.first, r.second)).collect();
        assert_eq!(rows, expected);
        let n = all.len() as u64;
        assert_eq!(listing.looked_at(), n * n.saturating_sub(1) / 2);
    }
    assert!(neighbours > 5, "{neighbours}");
}
