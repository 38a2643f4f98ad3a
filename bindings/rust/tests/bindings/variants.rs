//! Each case of each call becomes the variant of its name, with its numbers in their places.

use vonjekona::{
    CircleCircleIntr, Finding, LineCircleIntr, LineLineIntr, Path, PlineSegIntr, PlineVertex,
    Vector2, Vertex, circle_circle_intr, large, line_circle_intr, line_line_intr, mutual,
    pair_findings, pline_seg_intr, self_listing,
};

use crate::inputs::{EPSILON, pv};

fn p(x: f64, y: f64) -> Vector2 {
    Vector2::new(x, y)
}

/// A segment's two vertices, the other one's, and how they meet.
type Case = ([PlineVertex; 2], [PlineVertex; 2], PlineSegIntr);

/// A half circle below the chord from (0, 0) to (4, 0), or a line, and what meets it.
fn cases() -> Vec<Case> {
    let arc = [pv(0.0, 0.0, 1.0), pv(4.0, 0.0, 0.0)];
    let line = [pv(0.0, 0.0, 0.0), pv(4.0, 0.0, 0.0)];
    let to = |a: (f64, f64), b: (f64, f64)| [pv(a.0, a.1, 0.0), pv(b.0, b.1, 0.0)];
    vec![
        (line, to((0.0, 1.0), (4.0, 1.0)), PlineSegIntr::NoIntersect),
        (arc, to((0.0, -2.0), (4.0, -2.0)), PlineSegIntr::TangentIntersect { point: p(2.0, -2.0) }),
        (arc, to((2.0, -4.0), (2.0, 4.0)), PlineSegIntr::OneIntersect { point: p(2.0, -2.0) }),
        (
            // 3-4-5: the circle of radius 2.5 has the points (1.5, -2) and (-1.5, -2) from its centre
            [pv(0.0, 0.0, 1.0), pv(5.0, 0.0, 0.0)],
            to((9.0, -2.0), (-9.0, -2.0)),
            PlineSegIntr::TwoIntersects { point1: p(4.0, -2.0), point2: p(1.0, -2.0) },
        ),
        (
            line,
            to((9.0, 0.0), (1.0, 0.0)),
            PlineSegIntr::OverlappingLines { point1: p(4.0, 0.0), point2: p(1.0, 0.0) },
        ),
        (
            arc,
            [pv(4.0, 0.0, -1.0), pv(0.0, 0.0, 0.0)],
            PlineSegIntr::OverlappingArcs { point1: p(4.0, 0.0), point2: p(0.0, 0.0) },
        ),
    ]
}

#[test]
fn pairs_have_every_class() {
    for (class, (v, u, expected)) in cases().into_iter().enumerate() {
        let met = pline_seg_intr(v[0], v[1], u[0], u[1], EPSILON).unwrap();
        assert_eq!(met, expected);
        assert_eq!(usize::from(met.class()), class);
        let points = [0, 1, 1, 2, 2, 2];
        assert_eq!(met.points().count(), points[class]);
        let (told, _) = pair_findings(v[0], v[1], u[0], u[1], EPSILON).unwrap();
        assert_eq!(told, expected);
    }
}

#[test]
fn rows_have_every_class() {
    for (v, u, expected) in cases() {
        let path = |s: [PlineVertex; 2]| Path::of_pline(&s, false);
        let rows: Vec<_> = mutual(&path(v), &path(u), EPSILON).unwrap().into_iter().collect();
        let large: Vec<_> =
            large::mutual(&path(v), &path(u), EPSILON).unwrap().into_iter().collect();
        if expected == PlineSegIntr::NoIntersect {
            assert!(rows.is_empty() && large.is_empty());
            continue;
        }
        assert_eq!(rows.len(), 1);
        assert_eq!((rows[0].first, rows[0].second, rows[0].met), (0, 0, expected));
        assert_eq!((large[0].first.half, large[0].second.half, large[0].met), (0, 0, expected));
    }
}

#[test]
fn pairs_with_large_arcs_have_every_class() {
    for (v, u, expected) in cases() {
        let met = large::pline_seg_intr(v[0], v[1], u[0], u[1], EPSILON).unwrap();
        assert_eq!(met.len(), 1);
        assert_eq!((met[0].v_half, met[0].u_half, met[0].met), (0, 0, expected));
    }
    let tuning = [pv(4.0, 0.0, 2.0), pv(5.0, 0.0, 0.0)];
    let halves =
        large::pline_seg_intr(tuning[0], tuning[1], tuning[0], tuning[1], EPSILON).unwrap();
    let told: Vec<_> = halves.iter().map(|m| (m.v_half, m.u_half, m.met.class())).collect();
    // a half overlaps itself; both meet at the cut point
    assert_eq!(told[0], (1, 1, 5));
    assert_eq!(told[3], (2, 2, 5));
    assert_eq!((told[1].0, told[1].1, told[2].0, told[2].1), (1, 2, 2, 1));
    assert!(halves[1].met.points().any(|q| q == p(4.5, -1.0)));
}

#[test]
fn a_row_has_its_indices_in_order() {
    // segment 2 of the first path meets segment 1 of the second, and nothing else does
    let first = Path::open(vec![
        Vertex::new(0.0, 10.0, 0.0),
        Vertex::new(0.0, 20.0, 0.0),
        Vertex::new(9.0, 20.0, 0.0),
        Vertex::new(9.0, 0.0, 0.0),
    ]);
    let second = Path::open(vec![
        Vertex::new(5.0, 2.0, 0.0),
        Vertex::new(5.0, 5.0, 0.0),
        Vertex::new(12.0, 5.0, 0.0),
    ]);
    let row = mutual(&first, &second, EPSILON).unwrap().iter().next().unwrap();
    assert_eq!((row.first, row.second), (2, 1));
    let row = mutual(&second, &first, EPSILON).unwrap().iter().next().unwrap();
    assert_eq!((row.first, row.second), (1, 2));
    // the same with the segments of one path
    let one = Path::open(first.vertices().chain(second.vertices()).collect::<Vec<_>>());
    let rows: Vec<_> = self_listing(&one, EPSILON).unwrap().into_iter().collect();
    assert!(rows.iter().any(|r| (r.first, r.second) == (2, 5)));
    assert!(rows.iter().all(|r| r.first < r.second));
}

#[test]
fn lines_have_every_case() {
    let ask = |u1, u2| line_line_intr(p(0.0, 0.0), p(4.0, 0.0), u1, u2, EPSILON).unwrap();
    assert_eq!(ask(p(0.0, 1.0), p(4.0, 1.0)), LineLineIntr::NoIntersect);
    let crossing = LineLineIntr::TrueIntersect { seg1_t: 0.25, seg2_t: 0.75 };
    assert_eq!(ask(p(1.0, -3.0), p(1.0, 1.0)), crossing);
    let overlap = LineLineIntr::Overlapping { seg2_t0: 0.0, seg2_t1: 0.5 };
    assert_eq!(ask(p(2.0, 0.0), p(6.0, 0.0)), overlap);
    let beyond = LineLineIntr::FalseIntersect { seg1_t: 2.0, seg2_t: 0.25 };
    assert_eq!(ask(p(8.0, -1.0), p(8.0, 3.0)), beyond);
}

#[test]
fn a_line_and_a_circle_have_every_case() {
    let ask = |y| line_circle_intr(p(0.0, y), p(8.0, y), 2.0, p(4.0, 0.0), EPSILON).unwrap();
    assert_eq!(ask(3.0), LineCircleIntr::NoIntersect);
    assert_eq!(ask(2.0), LineCircleIntr::TangentIntersect { t0: 0.5 });
    assert_eq!(ask(0.0), LineCircleIntr::TwoIntersects { t0: 0.25, t1: 0.75 });
}

#[test]
fn circles_have_every_case() {
    let ask = |r, x| circle_circle_intr(5.0, p(0.0, 0.0), r, p(x, 0.0), EPSILON).unwrap();
    assert_eq!(ask(5.0, 11.0), CircleCircleIntr::NoIntersect);
    assert_eq!(ask(1.0, 6.0), CircleCircleIntr::TangentIntersect { point: p(5.0, 0.0) });
    let two = CircleCircleIntr::TwoIntersects { point1: p(3.0, -4.0), point2: p(3.0, 4.0) };
    assert_eq!(ask(5.0, 6.0), two);
    assert_eq!(ask(5.0, 0.0), CircleCircleIntr::Overlapping);
}

#[test]
fn findings_stand_in_their_places() {
    let arc = [pv(0.0, 0.0, 1.0), pv(4.0, 0.0, 0.0)];
    let line = [pv(2.0, -4.0, 0.0), pv(2.0, 4.0, 0.0)];
    let (_, found) = pair_findings(line[0], line[1], arc[0], arc[1], EPSILON).unwrap();
    assert_eq!((found.first.v, found.first.u), (Finding::NotTested, Finding::Inside));
    assert_eq!((found.second.v, found.second.u), (Finding::NotTested, Finding::Outside));
    // a line that ends on the arc
    let (_, found) = pair_findings(pv(2.0, -2.0, 0.0), line[1], arc[0], arc[1], EPSILON).unwrap();
    assert_eq!(found.first.u, Finding::EndPoint);
    // beside the end of a quarter circle around (0, 0)
    let quarter = [pv(2.0, 0.0, 0.41421356237309503), pv(0.0, 2.0, 0.0)];
    let beside = [pv(-EPSILON / 2.0, 1.0, 0.0), pv(-EPSILON / 2.0, 3.0, 0.0)];
    let (_, found) = pair_findings(beside[0], beside[1], quarter[0], quarter[1], EPSILON).unwrap();
    assert!([found.first.u, found.second.u].contains(&Finding::NearEnd));
}

#[test]
fn bulges_of_second_vertices_have_no_effect() {
    for (v, u, expected) in cases() {
        for lost in [f64::NAN, f64::INFINITY, -0.5, 1e300] {
            let (v2, u2) = (v[1].with_bulge(lost), u[1].with_bulge(lost));
            assert_eq!(pline_seg_intr(v[0], v2, u[0], u2, EPSILON).unwrap(), expected);
        }
    }
}
