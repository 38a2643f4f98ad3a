//! Listings that have more rows than the room that is lent first.

use vonjekona::{Path, Report, Vertex, large, mutual, mutual_boxed, mutual_counted, self_listing};

use crate::inputs::{EPSILON, dense, same_bits};

/// One row beyond each room that is lent, or just as many.
#[test]
fn every_row_is_there() {
    for n in [31, 32, 33, 64, 65, 129] {
        let (first, second) = dense(n);
        let listing = mutual(&first, &second, EPSILON).unwrap();
        assert_eq!((listing.len(), listing.looked_at()), (n * n, (n * n) as u64));
        for (k, row) in listing.iter().enumerate() {
            assert_eq!((row.first, row.second, row.met.class()), (k / n, k % n, 2));
        }
        let large = large::mutual(&first, &second, EPSILON).unwrap();
        assert_eq!(large.len(), n * n);
        let boxed = mutual_boxed(&first, &second, EPSILON).unwrap();
        assert!(same_bits(boxed.listing.rows(), listing.rows()));
    }
}

#[test]
fn one_path() {
    let n = 60;
    let (first, second) = dense(n);
    let both = Path::open(first.vertices().chain(second.vertices()).collect::<Vec<Vertex>>());
    // the two zigzags, and what the line between them meets
    let rows = self_listing(&both, EPSILON).unwrap();
    let crossed = |a: usize, b: usize| a < n && b > n;
    assert_eq!(rows.iter().filter(|r| crossed(r.first, r.second)).count(), n * n);
}

/// A layout that is asked for again is counted once, and never as refused with 8.
#[test]
fn counted_once() {
    let (first, second) = dense(70);
    let mut report = Report::new();
    let listing = mutual_counted(&first, &second, EPSILON, &mut report).unwrap();
    assert_eq!(listing.len(), 4900);
    let mut expected = [0; 40];
    (expected[0], expected[1], expected[4]) = (1, 4900, 4900);
    assert_eq!(report.words(), &expected);
    large::mutual_counted(&first, &second, EPSILON, &mut report).unwrap();
    assert_eq!((report.layouts(), report.pairs(), report.refused(8)), (2, 9800, 0));
}

#[test]
fn rows_go_both_ways() {
    let (first, second) = dense(3);
    let listing = mutual(&first, &second, EPSILON).unwrap();
    let forth: Vec<_> = listing.iter().collect();
    let mut back: Vec<_> = (&listing).into_iter().rev().collect();
    back.reverse();
    assert_eq!(forth, back);
    let mut rows = listing.into_iter();
    assert_eq!(rows.len(), 9);
    rows.next();
    rows.next_back();
    assert_eq!((rows.len(), rows.clone().count()), (7, 7));
    assert_eq!(rows.by_ref().last(), forth.get(7).copied());
    assert_eq!((rows.next(), rows.next_back()), (None, None));
}
