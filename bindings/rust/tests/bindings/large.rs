//! Large arcs: halves, and what the calls without them refuse.

use std::thread;

use vonjekona::{Item, Part, Path, PlineSegIntr, Vector2, Vertex, large, mutual, self_listing};

use crate::inputs::{Draw, EPSILON, at};

/// A track with a loop of bulge b, from (4, 0) to (5, 0).
fn track(bulge: f64) -> Path<'static> {
    Path::open(vec![at(0.0, 0.0), Vertex::new(4.0, 0.0, bulge), at(5.0, 0.0), at(9.0, 0.0)])
}

#[test]
fn a_line_through_a_loop() {
    let line = Path::open(vec![at(3.0, -0.375), at(6.0, -0.375)]);
    let listing = large::mutual(&track(2.0), &line, EPSILON).unwrap();
    assert_eq!(listing.looked_at(), 4);
    let rows: Vec<_> = listing.into_iter().collect();
    // the loop is a circle of radius 0.625 around (4.5, -0.375), cut at (4.5, -1)
    for (row, half, x) in [(rows[0], 1, 3.875), (rows[1], 2, 5.125)] {
        assert_eq!(row.first, Part { segment: 1, half });
        assert_eq!(row.second, Part { segment: 0, half: 0 });
        let PlineSegIntr::OneIntersect { point } = row.met else { panic!("{row:?}") };
        assert!((point.x - x).abs() < 1e-12 && (point.y + 0.375).abs() < 1e-12, "{point:?}");
    }
    assert_eq!(rows.len(), 2);
    // the other way round the halves stand in the second path
    let back = large::mutual(&line, &track(2.0), EPSILON).unwrap();
    let halves: Vec<_> = back.iter().map(|r| (r.second.segment, r.second.half)).collect();
    assert_eq!(halves, [(1, 1), (1, 2)]);
}

#[test]
fn what_the_other_calls_refuse() {
    let refusal = self_listing(&track(2.0), EPSILON).unwrap_err();
    assert_eq!((refusal.number, refusal.index, refusal.item), (3, 1, Item::Bulge));
    for bulge in [16.0, -16.0] {
        assert!(large::self_listing(&track(bulge), EPSILON).unwrap().is_empty());
    }
    let refusal = large::self_listing(&track(16.5), EPSILON).unwrap_err();
    assert_eq!((refusal.number, refusal.large), (3, true));
    assert!(refusal.to_string().ends_with("is above 16 in magnitude"));
    // the cut point of a loop at the edge lies beyond it
    let edge = Path::open(vec![Vertex::new(0.0, 1_048_576.0, -2.0), at(8.0, 1_048_576.0)]);
    let refusal = large::self_listing(&edge, EPSILON).unwrap_err();
    assert_eq!((refusal.number, refusal.index, refusal.item), (2, 0, Item::CutY));
}

#[test]
fn a_loop_that_meets_itself() {
    let narrow = Path::open(vec![Vertex::new(0.0, 0.0, 8.0), at(0.125, 0.0)]);
    assert!(large::self_listing(&narrow, EPSILON).unwrap().is_empty());
    let rows: Vec<_> = large::self_listing(&narrow, 0.25).unwrap().into_iter().collect();
    let (point1, point2) = (Vector2::new(0.0625, -0.5), Vector2::new(0.125, 0.0));
    assert_eq!(rows.len(), 1);
    assert_eq!(rows[0].met, PlineSegIntr::TwoIntersects { point1, point2 });
    assert_eq!((rows[0].first.half, rows[0].second.half), (1, 2));
}

/// With no bulge above 1 the rows are the other call's, with halves 0.
#[test]
fn paths_without_large_arcs() {
    let mut draw = Draw::new(13);
    for k in 0..10 {
        let (a, b) = (draw.path(30, 30, 1.0), draw.path(5 * k, 30, 1.0));
        let (a, b) = (Path::closed(&a), Path::open(&b));
        let (old, new) =
            (mutual(&a, &b, EPSILON).unwrap(), large::mutual(&a, &b, EPSILON).unwrap());
        assert_eq!((old.len(), old.looked_at()), (new.len(), new.looked_at()));
        for (old, new) in old.into_iter().zip(new) {
            assert_eq!(new.first, Part { segment: old.first, half: 0 });
            assert_eq!(new.second, Part { segment: old.second, half: 0 });
            assert_eq!(new.met, old.met);
        }
    }
}

/// Listing a loop is listing the same path with the loop cut by hand.
#[test]
fn halves_are_what_the_header_says() {
    let mut draw = Draw::new(14);
    let cut = |vertices: &[Vertex]| {
        let mut path = Vec::new();
        for (k, v) in vertices.iter().enumerate() {
            let Some(w) = vertices.get(k + 1).filter(|_| v.bulge.abs() > 1.0) else {
                let bulge = if v.bulge.abs() > 1.0 { 0.0 } else { v.bulge };
                path.push(Vertex { bulge, ..*v });
                continue;
            };
            let b = v.bulge;
            let half = ((1.0 + b * b).sqrt() - 1.0) / b;
            let x = (v.x + w.x) / 2.0 + (b * (w.y - v.y)) / 2.0;
            let y = (v.y + w.y) / 2.0 - (b * (w.x - v.x)) / 2.0;
            path.push(Vertex { bulge: half, ..*v });
            path.push(Vertex { x, y, bulge: half, trace: v.trace });
        }
        path
    };
    let mut rows = 0;
    for _ in 0..20 {
        let (a, b) = (draw.path(25, 40, 5.0), draw.path(25, 40, 5.0));
        let new = large::mutual(&Path::open(&a), &Path::open(&b), EPSILON).unwrap();
        let old = mutual(&Path::open(cut(&a)), &Path::open(cut(&b)), EPSILON).unwrap();
        assert_eq!((old.len(), old.looked_at()), (new.len(), new.looked_at()));
        assert!(old.iter().map(|r| r.met).eq(new.iter().map(|r| r.met)));
        rows += new.len();
    }
    assert!(rows > 1000, "{rows}");
}

/// The call with the most stack, on the most segments, fits the stack that `std` gives a thread.
#[test]
fn the_largest_call_fits_a_thread() {
    let loops = |y: f64| -> Vec<Vertex> {
        (0..4096).map(|i| Vertex::new(f64::from(i) * 8.0, y, 2.0)).collect()
    };
    let run = move || {
        let (a, b) = (loops(0.0), loops(1.0));
        let (a, b) = (Path::open(&a), Path::open(&b));
        let boxed = large::mutual_boxed(&a, &b, EPSILON).unwrap();
        assert_eq!(boxed.first.segments.len(), 2 * 4095);
        // each circle crosses the one beside it, and touches or crosses its neighbours' ones
        assert!(boxed.listing.len() > 2 * 4095, "{}", boxed.listing.len());
        assert!(boxed.listing.iter().all(|r| r.first.segment.abs_diff(r.second.segment) <= 2));
    };
    thread::Builder::new().stack_size(2 << 20).spawn(run).unwrap().join().unwrap();
}
