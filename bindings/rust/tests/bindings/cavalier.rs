//! What the documentation of cavalier_contours 0.9.0 says of `pline_seg_intr` and its kernels, as
//! cases. File and lines are those of its Rust text, under `src`. That text has no tests, and no
//! example for `pline_seg_intr` itself: of that function the cases are its sentences, and the
//! segments of the examples in `polyline/pline_seg.rs`.

// what a caller changes: the crate's name
use vonjekona::core::math::{
    CircleCircleIntr, LineCircleIntr, LineLineIntr, Vector2, circle_circle_intr, line_circle_intr,
    line_line_intr,
};
use vonjekona::polyline::{PlineSegIntr, PlineVertex, pline_seg_intr};

const EPS: f64 = 1e-5;

type Four = [(f64, f64); 4];

fn lines(n: Four) -> LineLineIntr<f64> {
    let [v1, v2, u1, u2] = n.map(|(x, y)| Vector2::new(x, y));
    line_line_intr(v1, v2, u1, u2, EPS).expect("these numbers are fine")
}

fn segments(v: [PlineVertex; 2], u: [PlineVertex; 2]) -> PlineSegIntr<f64> {
    pline_seg_intr(v[0], v[1], u[0], u[1], EPS).expect("these numbers are fine")
}

/// `core/math/line_line_intersect.rs`, lines 68 to 87: the example.
#[test]
fn lines_example() {
    let met = lines([(0.0, 0.0), (1.0, 0.0), (0.5, -1.0), (0.5, 1.0)]);
    assert_eq!(met, LineLineIntr::TrueIntersect { seg1_t: 0.5, seg2_t: 0.5 });
}

/// The same file, lines 44 to 48.
#[test]
fn lines_no_intersect() {
    let cases: [Four; 4] = [
        [(0.0, 0.0), (7.0, 0.0), (0.0, 3.0), (7.0, 3.0)],
        // almost parallel, by epsilon
        [(0.0, 0.0), (1.0, 0.0), (0.0, 3.0), (1.0, 3.000_001)],
        // two points, distinct
        [(2.0, 2.0), (2.0, 2.0), (5.0, 5.0), (5.0, 5.0)],
        // a point beside a line, on its straight line
        [(9.0, 0.0), (9.0, 0.0), (0.0, 0.0), (7.0, 0.0)],
    ];
    for case in cases {
        assert_eq!(lines(case), LineLineIntr::NoIntersect, "{case:?}");
    }
}

/// The same file, lines 50 to 54.
#[test]
fn lines_true_intersect() {
    let cases: [(Four, f64, f64); 4] = [
        ([(0.0, 0.0), (8.0, 0.0), (2.0, 3.0), (2.0, -1.0)], 0.25, 0.75),
        // two points, one over the other by epsilon
        ([(2.0, 2.0), (2.0, 2.0), (2.000_001, 2.0), (2.000_001, 2.0)], 0.0, 0.0),
        // a point in a line, both ways round
        ([(3.0, 0.0), (3.0, 0.0), (0.0, 0.0), (4.0, 0.0)], 0.0, 0.75),
        ([(0.0, 0.0), (4.0, 0.0), (3.0, 0.0), (3.0, 0.0)], 0.75, 0.0),
    ];
    for (case, seg1_t, seg2_t) in cases {
        assert_eq!(lines(case), LineLineIntr::TrueIntersect { seg1_t, seg2_t }, "{case:?}");
    }
}

/// The same file, lines 37 to 39 and 56 to 59.
#[test]
fn lines_false_intersect() {
    let met = lines([(0.0, 0.0), (4.0, 0.0), (-2.0, 1.0), (-2.0, 5.0)]);
    assert_eq!(met, LineLineIntr::FalseIntersect { seg1_t: -0.5, seg2_t: -0.25 });
    let met = lines([(0.0, 0.0), (4.0, 0.0), (6.0, -1.0), (6.0, 1.0)]);
    assert_eq!(met, LineLineIntr::FalseIntersect { seg1_t: 1.5, seg2_t: 0.5 });
}

/// The same file, lines 61 to 64: the whole of a line, or a part.
#[test]
fn lines_overlapping() {
    let met = lines([(0.0, 0.0), (8.0, 0.0), (2.0, 0.0), (6.0, 0.0)]);
    assert_eq!(met, LineLineIntr::Overlapping { seg2_t0: 0.0, seg2_t1: 1.0 });
    let met = lines([(0.0, 0.0), (8.0, 0.0), (4.0, 0.0), (12.0, 0.0)]);
    assert_eq!(met, LineLineIntr::Overlapping { seg2_t0: 0.0, seg2_t1: 0.5 });
}

/// `core/math/line_circle_intersect.rs`, lines 42 to 57: the example; and lines 30 to 36.
#[test]
fn line_and_circle() {
    let ask = |x0, x1, y, radius, cx, cy| {
        let (p0, p1, centre) = (Vector2::new(x0, y), Vector2::new(x1, y), Vector2::new(cx, cy));
        line_circle_intr(p0, p1, radius, centre, EPS).expect("these numbers are fine")
    };
    assert_eq!(ask(0.0, 1.0, 0.0, 1.0, 0.0, 1.0), LineCircleIntr::TangentIntersect { t0: 0.0 });
    // before p0, and beyond p1
    let before = LineCircleIntr::TwoIntersects { t0: -3.0, t1: -1.0 };
    assert_eq!(ask(0.0, 1.0, 0.0, 1.0, -2.0, 0.0), before);
    let beyond = LineCircleIntr::TwoIntersects { t0: 2.0, t1: 4.0 };
    assert_eq!(ask(0.0, 1.0, 0.0, 1.0, 3.0, 0.0), beyond);
    // outside, but by less than epsilon
    let tangent = ask(0.0, 2.0, 1.000_005, 1.0, 1.0, 0.0);
    assert_eq!(tangent, LineCircleIntr::TangentIntersect { t0: 0.5 });
    assert_eq!(ask(0.0, 2.0, 1.000_05, 1.0, 1.0, 0.0), LineCircleIntr::NoIntersect);
    // two points nearer to one another than epsilon
    let tangent = ask(0.0, 2.0, 1.0 - 1e-12, 1.0, 1.0, 0.0);
    assert_eq!(tangent, LineCircleIntr::TangentIntersect { t0: 0.5 });
}

/// `core/math/circle_circle_intersect.rs`, lines 40 to 56: the example; and lines 30 to 34.
#[test]
fn circles() {
    let ask = |r1, r2, x, y| {
        let (c1, c2) = (Vector2::new(0.0, 0.0), Vector2::new(x, y));
        circle_circle_intr(r1, c1, r2, c2, EPS).expect("these numbers are fine")
    };
    let tangent = CircleCircleIntr::TangentIntersect { point: Vector2::new(0.0, 1.0) };
    assert_eq!(ask(1.0, 1.0, 0.0, 2.0), tangent);
    assert_eq!(ask(1.0, 1.0, 0.0, 3.0), CircleCircleIntr::NoIntersect);
    assert_eq!(ask(1.0, 1.000_001, 0.000_001, 0.0), CircleCircleIntr::Overlapping);
    assert!(matches!(ask(1.0, 1.0, 0.0, 1.0), CircleCircleIntr::TwoIntersects { .. }));
}

/// `polyline/pline_seg_intersect.rs`, lines 144 to 149 and 151 to 164: points go by the direction
/// of the second segment.
#[test]
fn points_go_by_the_second_segment() {
    let at = |x, y| PlineVertex::new(x, y, 0.0);
    let arc = [PlineVertex::new(0.0, 0.0, 1.0), at(5.0, 0.0)];
    let backwards = [PlineVertex::new(5.0, 0.0, -1.0), at(0.0, 0.0)];
    let line = [at(-9.0, -2.0), at(9.0, -2.0)];
    let (near, far) = (Vector2::new(1.0, -2.0), Vector2::new(4.0, -2.0));
    let two = |point1, point2| PlineSegIntr::TwoIntersects { point1, point2 };
    assert_eq!(segments(arc, line), two(near, far));
    assert_eq!(segments(arc, [line[1], line[0]]), two(far, near));
    assert_eq!(segments(line, arc), two(near, far));
    assert_eq!(segments(line, backwards), two(far, near));

    let (v, u) = ([at(0.0, 0.0), at(4.0, 0.0)], [at(1.0, 0.0), at(9.0, 0.0)]);
    let (start, end) = (Vector2::new(1.0, 0.0), Vector2::new(4.0, 0.0));
    let overlap = |point1, point2| PlineSegIntr::OverlappingLines { point1, point2 };
    assert_eq!(segments(v, u), overlap(start, end));
    assert_eq!(segments(v, [u[1], u[0]]), overlap(end, start));

    let (start, end) = (Vector2::new(0.0, 0.0), Vector2::new(5.0, 0.0));
    let overlap = |point1, point2| PlineSegIntr::OverlappingArcs { point1, point2 };
    assert_eq!(segments(arc, arc), overlap(start, end));
    assert_eq!(segments(arc, backwards), overlap(end, start));
}

/// `polyline/pline_seg.rs`, lines 177 to 183, 487, 499, 579 to 581 and 590 to 592: the half circle
/// from (2, 2) to (4, 2) and the line from (2, 2) to (4, 4), with their middles and tangents.
#[test]
fn segments_of_other_examples() {
    let at = |x, y| PlineVertex::new(x, y, 0.0);
    let half_circle = [PlineVertex::new(2.0, 2.0, 1.0), at(4.0, 2.0)];
    let line = [at(2.0, 2.0), at(4.0, 4.0)];
    // through the arc's middle, and along its tangent there
    let up = segments(half_circle, [at(3.0, 0.0), at(3.0, 2.0)]);
    assert_eq!(up, PlineSegIntr::OneIntersect { point: Vector2::new(3.0, 1.0) });
    let along = segments(half_circle, [at(2.0, 1.0), at(4.0, 1.0)]);
    assert_eq!(along, PlineSegIntr::TangentIntersect { point: Vector2::new(3.0, 1.0) });
    // through the line's middle
    let down = segments(line, [at(3.0, 5.0), at(3.0, 0.0)]);
    assert_eq!(down, PlineSegIntr::OneIntersect { point: Vector2::new(3.0, 3.0) });
    // both start at (2, 2)
    let both = segments(half_circle, line);
    assert_eq!(both, PlineSegIntr::OneIntersect { point: Vector2::new(2.0, 2.0) });
}

/// `polyline/pline_seg_intersect.rs`, lines 127 to 130, and the kernels' enums: what a caller may
/// do with an answer.
#[test]
fn answers_are_copied_and_printed() {
    fn all<T: std::fmt::Debug + Copy + Clone>() {}
    all::<PlineSegIntr<f64>>();
    all::<LineLineIntr<f64>>();
    all::<LineCircleIntr<f64>>();
    all::<CircleCircleIntr<f64>>();
    all::<PlineVertex<f64>>();
    all::<Vector2<f64>>();
}
