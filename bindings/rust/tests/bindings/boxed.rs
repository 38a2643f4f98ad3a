//! Boxed listings: their rows are those of the full listing whose boxes meet.

use vonjekona::{Path, PathBox, PathBoxes, large, mutual, mutual_boxed, self_boxed, self_listing};

use crate::inputs::{Draw, EPSILON, at, same_bits};

fn meet(a: &PathBox, b: &PathBox) -> bool {
    a.least_x <= b.greatest_x
        && b.least_x <= a.greatest_x
        && a.least_y <= b.greatest_y
        && b.least_y <= a.greatest_y
}

/// Every group has the least and greatest numbers of its 16 members.
fn groups_hold(boxes: &PathBoxes) {
    assert_eq!(boxes.groups.len(), boxes.segments.len().div_ceil(16));
    for (group, members) in boxes.groups.iter().zip(boxes.segments.chunks(16)) {
        let least = |of: fn(&PathBox) -> f64| members.iter().map(of).fold(f64::MAX, f64::min);
        let greatest = |of: fn(&PathBox) -> f64| members.iter().map(of).fold(f64::MIN, f64::max);
        let held = PathBox {
            least_x: least(|b| b.least_x),
            least_y: least(|b| b.least_y),
            greatest_x: greatest(|b| b.greatest_x),
            greatest_y: greatest(|b| b.greatest_y),
        };
        assert_eq!(*group, held);
    }
}

#[test]
fn two_paths() {
    let mut draw = Draw::new(3);
    for k in 0..12 {
        let mut paths = [draw.path(50 + 7 * k, 60, 1.0), draw.path(70, 60, 1.0)];
        // no pair is skipped for its trace, so that pairs can be counted by boxes alone
        paths.iter_mut().flatten().for_each(|v| v.trace = 0.0);
        let (a, b) = (Path::new(&paths[0], k % 2 == 0), Path::new(&paths[1], k % 3 == 0));
        let boxed = mutual_boxed(&a, &b, EPSILON).unwrap();
        let (first, second) = (&boxed.first, boxed.second.as_ref().unwrap());
        assert_eq!((first.segments.len(), second.segments.len()), (a.segments(), b.segments()));
        groups_hold(first);
        groups_hold(second);
        let full = mutual(&a, &b, EPSILON).unwrap();
        let near = |i: usize, j: usize| meet(&first.segments[i], &second.segments[j]);
        let kept: Vec<_> = full.iter().filter(|r| near(r.first, r.second)).collect();
        assert_eq!(boxed.listing.iter().collect::<Vec<_>>(), kept);
        let pairs = (0..a.segments()).flat_map(|i| (0..b.segments()).map(move |j| (i, j)));
        let looked_at = pairs.filter(|&(i, j)| near(i, j)).count() as u64;
        assert_eq!(boxed.listing.looked_at(), looked_at);
        assert!(looked_at < full.looked_at());
        let large = large::mutual_boxed(&a, &b, EPSILON).unwrap();
        assert_eq!((large.first, large.second.as_ref()), (boxed.first.clone(), Some(second)));
        assert_eq!(large.listing.looked_at(), looked_at);
    }
}

#[test]
fn one_path() {
    let mut draw = Draw::new(4);
    let vertices = draw.path(120, 200, 0.2);
    let path = Path::closed(&vertices);
    let boxed = self_boxed(&path, EPSILON).unwrap();
    let full = self_listing(&path, EPSILON).unwrap();
    groups_hold(&boxed.first);
    let near = |i: usize, j: usize| meet(&boxed.first.segments[i], &boxed.first.segments[j]);
    let kept: Vec<_> = full.iter().filter(|r| near(r.first, r.second)).collect();
    assert_eq!(boxed.listing.iter().collect::<Vec<_>>(), kept);
    assert!(!kept.is_empty() && boxed.listing.looked_at() < full.looked_at());
    assert!(boxed.second.is_none());
}

/// The box of a line is that of its ends, moved outward by epsilon.
#[test]
fn numbers_of_a_box() {
    let path = Path::open(vec![at(3.0, 8.0), at(1.0, 9.0)]);
    let boxed = self_boxed(&path, 0.25).unwrap();
    let expected = PathBox { least_x: 0.75, least_y: 7.75, greatest_x: 3.25, greatest_y: 9.25 };
    assert_eq!(boxed.first.segments, [expected]);
    assert_eq!(boxed.first.groups, [expected]);
}

/// Short lines side by side, which the full listing reports and whose boxes are apart.
#[test]
fn a_row_that_boxes_leave_out() {
    let low = Path::open(vec![at(0.0, 0.0), at(0.375, 0.0)]);
    let high = Path::open(vec![at(0.0, 0.625), at(0.375, 0.625)]);
    assert_eq!(mutual(&low, &high, 0.25).unwrap().len(), 1);
    let boxed = mutual_boxed(&low, &high, 0.25).unwrap();
    assert_eq!((boxed.listing.len(), boxed.listing.looked_at()), (0, 0));
}

/// Each half of a large arc has its box, and the second path's come after all of the first's.
#[test]
fn boxes_of_halves() {
    let mut draw = Draw::new(5);
    for _ in 0..8 {
        let paths = [draw.path(40, 60, 8.0), draw.path(40, 60, 8.0)];
        let (a, b) = (Path::open(&paths[0]), Path::closed(&paths[1]));
        let cut = |path: &Path| {
            let arcs = path.vertices().take(path.segments()).filter(|v| v.bulge.abs() > 1.0);
            path.segments() + arcs.count()
        };
        let boxed = large::mutual_boxed(&a, &b, EPSILON).unwrap();
        let second = boxed.second.as_ref().unwrap();
        assert_eq!((boxed.first.segments.len(), second.segments.len()), (cut(&a), cut(&b)));
        assert!(cut(&a) > a.segments());
        groups_hold(&boxed.first);
        groups_hold(second);
        let alone = large::self_boxed(&b, EPSILON).unwrap();
        assert_eq!(&alone.first, second);
        let full = large::mutual(&a, &b, EPSILON).unwrap();
        let rows: Vec<_> = full.iter().collect();
        assert!(boxed.listing.iter().all(|r| rows.contains(&r)));
    }
}

#[test]
fn paths_without_segments() {
    let (none, one) = (Path::open(&[]), Path::closed(vec![at(1.0, 1.0)]));
    for (a, b) in [(&none, &none), (&none, &one), (&one, &one)] {
        let boxed = mutual_boxed(a, b, EPSILON).unwrap();
        assert!(boxed.listing.is_empty() && boxed.first.segments.is_empty());
        assert!(same_bits(boxed.listing.rows(), mutual(a, b, EPSILON).unwrap().rows()));
    }
}
