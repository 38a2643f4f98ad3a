//! Pages and shared walks: joined, they are the listing in every bit.

use std::time::{Duration, Instant};

use vonjekona::{
    AnyRow, Budget, Page, Pages, Path, Refusal, Rows, large, mutual, mutual_pages, mutual_shared,
    self_listing, self_pages, self_shared,
};

use crate::inputs::{Draw, EPSILON, at, dense, same_bits};

fn bits<R: AnyRow>(rows: &Rows<R>) -> (Vec<u64>, Vec<u64>) {
    (rows.indices().to_vec(), rows.points().iter().map(|n| n.to_bits()).collect())
}

/// The rows of all pages one after the other, whose positions are looked at.
fn joined<R: AnyRow>(pages: Pages<R>) -> (Vec<u64>, Vec<u64>) {
    let (mut all, mut position) = ((Vec::new(), Vec::new()), pages.position());
    let mut ended = false;
    for page in pages {
        let page: Page<R> = page.unwrap();
        assert!(!ended && page.position == position && page.next <= page.pairs);
        assert!(page.passed() > 0 || page.pairs == position);
        (position, ended) = (page.next, page.is_last());
        let (indices, points) = bits(&page.rows);
        all.0.extend(indices);
        all.1.extend(points);
    }
    assert!(ended);
    all
}

const BUDGETS: [Budget; 7] = [
    Budget::Pairs(1),
    Budget::Pairs(7),
    Budget::Pairs(640),
    Budget::Pairs(u64::MAX),
    Budget::Time(Duration::ZERO),
    Budget::Time(Duration::from_micros(50)),
    Budget::Time(Duration::MAX),
];

#[test]
fn pages_are_the_listing() {
    let mut draw = Draw::new(10);
    let (a, b) = (draw.path(40, 30, 1.0), draw.path(31, 30, 1.0));
    let (a, b) = (Path::open(&a), Path::closed(&b));
    let (two, one) = (mutual(&a, &b, EPSILON).unwrap(), self_listing(&a, EPSILON).unwrap());
    assert!(two.len() > 100 && one.len() > 100);
    for budget in BUDGETS {
        for rows in [1, 3, 4096] {
            let pages = mutual_pages(&a, &b, EPSILON, budget).rows_at_most(rows);
            assert_eq!(joined(pages), bits(two.rows()), "{budget:?}, {rows} rows");
            let pages = self_pages(&a, EPSILON, budget).rows_at_most(rows);
            assert_eq!(joined(pages), bits(one.rows()), "{budget:?}, {rows} rows");
        }
    }
}

#[test]
fn pages_with_large_arcs_are_the_listing() {
    let mut draw = Draw::new(11);
    let (a, b) = (draw.path(30, 30, 6.0), draw.path(21, 30, 6.0));
    let (a, b) = (Path::closed(&a), Path::open(&b));
    let (two, one) =
        (large::mutual(&a, &b, EPSILON).unwrap(), large::self_listing(&a, EPSILON).unwrap());
    assert!(two.iter().any(|r| r.first.half == 2) && one.iter().any(|r| r.second.half == 1));
    for budget in BUDGETS {
        let pages = large::mutual_pages(&a, &b, EPSILON, budget).rows_at_most(5);
        assert_eq!(joined(pages), bits(two.rows()));
        assert_eq!(joined(large::self_pages(&a, EPSILON, budget)), bits(one.rows()));
    }
    for threads in [1, 2, 5] {
        let shared = large::mutual_shared(&a, &b, EPSILON, threads).unwrap();
        assert!(same_bits(&shared.rows, two.rows()));
        assert!(same_bits(&large::self_shared(&a, EPSILON, threads).unwrap().rows, one.rows()));
    }
}

#[test]
fn threads_are_the_listing() {
    let mut draw = Draw::new(12);
    for size in [0, 1, 2, 3, 40, 130] {
        let (a, b) = (draw.path(size, 40, 1.0), draw.path(size, 40, 1.0));
        let (a, b) = (Path::open(&a), Path::closed(&b));
        let (two, one) = (mutual(&a, &b, EPSILON).unwrap(), self_listing(&b, EPSILON).unwrap());
        for threads in [0, 1, 2, 3, 8, 40] {
            let shared = mutual_shared(&a, &b, EPSILON, threads).unwrap();
            assert!(same_bits(&shared.rows, two.rows()), "{size} vertices, {threads} threads");
            assert_eq!(shared.pairs, (a.segments() * b.segments()) as u64);
            assert!(same_bits(&self_shared(&b, EPSILON, threads).unwrap().rows, one.rows()));
        }
    }
}

/// More rows than one call of a piece has room for.
#[test]
fn threads_with_many_rows() {
    let (a, b) = dense(300);
    let shared = mutual_shared(&a, &b, EPSILON, 2).unwrap();
    assert_eq!(shared.rows.len(), 90_000);
    assert!(same_bits(&shared.rows, mutual(&a, &b, EPSILON).unwrap().rows()));
}

#[test]
fn a_walk_can_start_anywhere() {
    let (a, b) = dense(20);
    let all: Vec<_> = mutual(&a, &b, EPSILON).unwrap().into_iter().collect();
    for position in [0, 1, 19, 20, 399, 400] {
        let pages = mutual_pages(&a, &b, EPSILON, Budget::Pairs(33)).starting_at(position);
        let rows: Vec<_> = pages.flat_map(|page| page.unwrap().rows).collect();
        assert_eq!(rows, all[position as usize..]);
    }
}

/// A page at a time is about as long as was asked for, and no page of many is much longer. The
/// clock of a busy machine stands for little, so the bounds are wide.
#[test]
fn pages_by_time() {
    let (a, b) = dense(500);
    let asked = Duration::from_millis(4);
    let mut times = Vec::new();
    let mut pages = mutual_pages(&a, &b, EPSILON, Budget::Time(asked)).rows_at_most(1 << 20);
    let mut passed = 0;
    loop {
        let start = Instant::now();
        let Some(page) = pages.next() else { break };
        times.push(start.elapsed());
        passed += page.unwrap().passed();
    }
    assert_eq!(passed, 250_000);
    times.pop(); // the last one ends with the listing
    assert!(times.len() > 1, "250,000 pairs in one page of 4 ms");
    times.sort_unstable();
    let middle = times[times.len() / 2];
    assert!(asked / 8 < middle && middle < 8 * asked, "{middle:?}");
}

#[test]
fn a_refusal_ends_the_walk() {
    let lost = Path::open(vec![at(f64::NAN, 0.0), at(1.0, 1.0)]);
    let fine = Path::open(vec![at(0.0, 0.0), at(1.0, 1.0)]);
    for budget in BUDGETS {
        let items: Vec<_> = mutual_pages(&fine, &lost, EPSILON, budget).collect();
        let refused = |r: &Refusal| (r.number, r.owner, r.index) == (11, 1, 0);
        assert!(items.len() == 1 && items[0].as_ref().is_err_and(refused));
    }
    assert_eq!(mutual_shared(&lost, &fine, EPSILON, 2).unwrap_err().number, 11);
    let number = |pages: Pages| pages.clone().count() == 1 && pages.last().unwrap().is_err();
    let pages = |budget| mutual_pages(&fine, &fine, EPSILON, budget);
    assert!(number(pages(Budget::Pairs(0))));
    assert!(number(pages(Budget::Pairs(1)).starting_at(2)));
    for budget in [Budget::Pairs(1), Budget::Time(Duration::ZERO)] {
        let none = pages(budget).rows_at_most(0).next().unwrap().unwrap_err();
        assert_eq!(none.number, 8);
    }
}

#[test]
fn no_pairs_are_one_page() {
    let none = Path::open(&[]);
    for budget in [Budget::Pairs(1), Budget::Time(Duration::from_millis(1))] {
        let pages: Vec<_> = self_pages(&none, EPSILON, budget).map(Result::unwrap).collect();
        assert_eq!(pages.len(), 1);
        assert_eq!((pages[0].rows.len(), pages[0].next, pages[0].pairs), (0, 0, 0));
    }
}
