//! Counted listings and reports.

use vonjekona::{Path, Report, Vertex, large, mutual, mutual_counted};

use crate::inputs::{Draw, EPSILON, at};

#[test]
fn a_report_is_the_sum_of_its_layouts() {
    let mut draw = Draw::new(6);
    let mut report = Report::new();
    let mut expected = [0; 40];
    for k in 0..20 {
        let mut paths = [draw.path(20, 20, 1.0), draw.path(20, 20, 1.0)];
        if k % 5 == 4 {
            paths[k % 2][k].bulge = 1.5;
        }
        let (a, b) = (Path::open(&paths[0]), Path::closed(&paths[1]));
        let counted = mutual_counted(&a, &b, EPSILON, &mut report);
        assert_eq!(counted, mutual(&a, &b, EPSILON));
        expected[0] += 1;
        match counted {
            Err(refusal) => expected[8 + usize::from(refusal.number)] += 1,
            Ok(listing) => {
                expected[1] += listing.looked_at();
                expected[2] += listing.looked_at() - listing.len() as u64;
                listing.iter().for_each(|r| expected[2 + usize::from(r.met.class())] += 1);
            }
        }
    }
    assert_eq!(report.words(), &expected);
    assert_eq!(report.refused(3), 4);
    let classes: u64 = (0..6).map(|c| report.class(c)).sum();
    assert_eq!(classes, report.pairs());
}

#[test]
fn both_modes_share_a_report() {
    let tuning = [Vertex::new(4.0, 0.0, 2.0), at(5.0, 0.0)];
    let line = [at(3.0, -0.375), at(6.0, -0.375)];
    let (a, b) = (Path::open(&tuning), Path::open(&line));
    let mut report = Report::default();
    let refusal = mutual_counted(&a, &b, EPSILON, &mut report).unwrap_err();
    assert_eq!((refusal.number, refusal.large), (3, false));
    large::mutual_counted(&a, &b, EPSILON, &mut report).unwrap();
    assert_eq!((report.layouts(), report.pairs()), (2, 2));
    assert_eq!((report.class(2), report.refused(3)), (2, 1));
}

#[test]
fn a_full_report_is_left_as_it_is() {
    let mut words = [0; 40];
    words[0] = 9_999;
    let mut report = Report::of_words(words);
    let none = Path::open(&[]);
    mutual_counted(&none, &none, EPSILON, &mut report).unwrap();
    assert_eq!(report.layouts(), 10_000);
    let full = report.clone();
    // 19 comes before all else: epsilon is at fault too
    let refusal = mutual_counted(&none, &none, f64::NAN, &mut report).unwrap_err();
    assert_eq!(refusal.number, 19);
    assert_eq!(report, full);
}

#[test]
fn a_join_adds_word_by_word() {
    let (mut one, mut two) = ([0; 40], [0; 40]);
    for k in 0..40 {
        (one[k], two[k]) = (k as u64, 100 + k as u64);
    }
    let (mut joined, other) = (Report::of_words(one), Report::of_words(two));
    joined.join(&other).unwrap();
    assert!(joined.words().iter().enumerate().all(|(k, &w)| w == 100 + 2 * k as u64));
    assert_eq!(other.words(), &two);

    for at in 0..40 {
        let mut words = [0; 40];
        words[at] = u64::MAX;
        let mut most = Report::of_words(words);
        words[at] = 1;
        assert_eq!(most.join(&Report::of_words(words)).unwrap_err().number, 19, "word {at}");
        assert_eq!(most.words()[at], u64::MAX);
    }
}
