//! Two segments on the grid, judged by whole numbers alone: do they share a point, or more than one, and where do their lines
//! cross? It uses the sides on which points lie, not the quotients of the kernel.

/// A point of the grid.
#[derive(Clone, Copy, Debug, PartialEq, Eq)]
pub struct Spot {
    pub x: i64,
    pub y: i64,
}

pub type Segment = [Spot; 2];

/// The point `(x / over, y / over)`, with `over` above 0.
#[derive(Clone, Copy, Debug, PartialEq, Eq)]
pub struct Point {
    pub x: i128,
    pub y: i128,
    pub over: u128,
}

/// Twice the area of the triangle: above 0 if c lies left of the way from a to b.
fn side([a, b]: Segment, c: Spot) -> i128 {
    let [ax, ay, bx, by, cx, cy] = [a.x, a.y, b.x, b.y, c.x, c.y].map(i128::from);
    (bx - ax) * (cy - ay) - (by - ay) * (cx - ax)
}

fn between(a: i64, b: i64, c: i64) -> bool {
    a.min(b) <= c && c <= a.max(b)
}

fn lies_on([a, b]: Segment, c: Spot) -> bool {
    side([a, b], c) == 0 && between(a.x, b.x, c.x) && between(a.y, b.y, c.y)
}

/// Whether the segments share a point: an end of one lies on the other, or each has its ends on different sides of the other.
pub fn share(v: Segment, u: Segment) -> bool {
    let parted = |s: Segment, [a, b]: Segment| side(s, a).signum() * side(s, b).signum() < 0;
    v.iter().any(|&end| lies_on(u, end))
        || u.iter().any(|&end| lies_on(v, end))
        || parted(v, u) && parted(u, v)
}

/// Whether they share more than one point: they lie on one line, and along its longer axis they overlap in more than an end.
pub fn share_more(v: Segment, u: Segment) -> bool {
    let [a, b] = v;
    if a == b || u[0] == u[1] || side(v, u[0]) != 0 || side(v, u[1]) != 0 {
        return false;
    }
    let place = |p: Spot| if a.x == b.x { p.y } else { p.x };
    let span = |[a, b]: Segment| (place(a).min(place(b)), place(a).max(place(b)));
    let ((v_low, v_high), (u_low, u_high)) = (span(v), span(u));
    v_low.max(u_low) < v_high.min(u_high)
}

/// Where the lines cross; none if they are parallel. A segment without length is parallel to every other.
pub fn crossing(v: Segment, u: Segment) -> Option<Point> {
    // along v the side of u changes evenly, and at the crossing it is 0
    let (before, behind) = (side(u, v[0]), side(u, v[1]));
    let over = before - behind;
    let at = |from: i64, to: i64| {
        (i128::from(from) * over + i128::from(to - from) * before) * over.signum()
    };
    let (x, y) = (at(v[0].x, v[1].x), at(v[0].y, v[1].y));
    let point = Point {
        x,
        y,
        over: over.unsigned_abs(),
    };
    (over != 0).then_some(point)
}

/// Whether a point of the segment's line lies on the segment.
pub fn reaches([a, b]: Segment, p: Point) -> bool {
    let over = p.over as i128;
    let within = |a: i64, b: i64, c: i128| {
        i128::from(a.min(b)) * over <= c && c <= i128::from(a.max(b)) * over
    };
    within(a.x, b.x, p.x) && within(a.y, b.y, p.y)
}

#[cfg(test)]
mod tests {
    use super::*;

    fn segment(ax: i64, ay: i64, bx: i64, by: i64) -> Segment {
        [Spot { x: ax, y: ay }, Spot { x: bx, y: by }]
    }

    #[test]
    fn sharing() {
        let v = segment(0, 0, 4, 0);
        let cases = [
            (segment(2, -2, 2, 2), true, false),
            (segment(2, 1, 2, 2), false, false),
            (segment(4, 0, 9, 3), true, false),
            (segment(1, 0, 5, 0), true, true),
            (segment(4, 0, 5, 0), true, false),
            (segment(5, 0, 6, 0), false, false),
            (segment(1, 0, 1, 0), true, false),
            (segment(1, 1, 1, 1), false, false),
            (segment(0, 0, 4, 0), true, true),
            (segment(0, 1, 4, 1), false, false),
        ];
        for (u, shared, more) in cases {
            assert_eq!((share(v, u), share_more(v, u)), (shared, more), "{u:?}");
            assert_eq!((share(u, v), share_more(u, v)), (shared, more), "{u:?}");
        }
    }

    #[test]
    fn lines_cross() {
        let v = segment(0, 0, 4, 0);
        let p = crossing(v, segment(1, -1, 2, 1)).unwrap();
        assert_eq!((p.x, p.y, p.over), (12, 0, 8));
        assert!(reaches(v, p));
        let p = crossing(segment(1, 2, 2, 1), segment(9, 9, 8, 8)).unwrap();
        assert_eq!((p.x * 2, p.y * 2), (3 * p.over as i128, 3 * p.over as i128));
        assert!(!reaches(segment(9, 9, 8, 8), p));
        assert_eq!(crossing(v, segment(3, 3, 5, 3)), None);
        assert_eq!(crossing(v, segment(3, 3, 3, 3)), None);
    }
}
