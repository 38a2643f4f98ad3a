//! Each refusal's number, from a call where one gives it, in words with its place.

use std::collections::BTreeSet;
use std::error::Error;
use std::time::Duration;

use vonjekona::{
    Budget, Item, Path, Places, PlineVertex, Refusal, Report, Vector2, Vertex, circle_circle_intr,
    dxf_export, dxf_import, large, line_circle_intr, line_line_intr, mutual, mutual_boxed,
    mutual_counted, mutual_pages, pair_findings, pline_seg_intr, self_boxed, self_listing,
};

use crate::inputs::{EPSILON, at, pv};

/// Five vertices in a row, of which one is changed.
fn path(index: usize, change: impl FnOnce(&mut Vertex)) -> Path<'static> {
    let mut vertices: Vec<Vertex> = (0..5).map(|i| at(f64::from(i), 0.0)).collect();
    change(&mut vertices[index]);
    Path::open(vertices)
}

fn fine() -> Path<'static> {
    path(0, |_| {})
}

fn pair(v1: PlineVertex, v2: PlineVertex, u1: PlineVertex, u2: PlineVertex) -> Refusal {
    let refusal = pline_seg_intr(v1, v2, u1, u2, EPSILON).unwrap_err();
    assert_eq!(pair_findings(v1, v2, u1, u2, EPSILON).unwrap_err(), refusal);
    refusal
}

fn listings() -> Vec<(Refusal, &'static str)> {
    let second = |p: &Path| mutual(&fine(), p, EPSILON).unwrap_err();
    let alone = |p: &Path| self_listing(p, EPSILON).unwrap_err();
    let (most, more) = (vec![at(0.0, 0.0); 4096], vec![at(0.0, 0.0); 4097]);
    vec![
        (
            second(&path(4, |v| v.y = -1_048_576.5)),
            "refused 2: y of vertex 4 of the second path is above 1,048,576 in magnitude",
        ),
        (
            alone(&path(1, |v| v.bulge = 1.25)),
            "refused 3: the bulge of vertex 1 of the path is above 1 in magnitude",
        ),
        (
            mutual(&fine(), &fine(), 0.75).unwrap_err(),
            "refused 4: epsilon is NaN, infinite, or not in 2^-40 to 1/2",
        ),
        (
            second(&path(2, |v| (v.x, v.bulge) = (3.0, 0.5))),
            "refused 5: the chord of segment 2 of the second path is that of an arc, and shorter \
             than 2^-40",
        ),
        (
            mutual(&Path::of_numbers(&[0.0; 9], true), &fine(), EPSILON).unwrap_err(),
            "refused 6: the length of the first path is no multiple of 4",
        ),
        (
            mutual(&Path::open(&most), &Path::open(&more), EPSILON).unwrap_err(),
            "refused 7: the length of the second path is more than 4,096 vertices",
        ),
        (
            mutual(&path(3, |v| v.x = f64::NAN), &fine(), EPSILON).unwrap_err(),
            "refused 11: x of vertex 3 of the first path is NaN",
        ),
        (
            mutual_boxed(&fine(), &path(0, |v| v.y = f64::INFINITY), EPSILON).unwrap_err(),
            "refused 12: y of vertex 0 of the second path is infinite",
        ),
        (
            self_boxed(&path(2, |v| v.trace = 0.5), EPSILON).unwrap_err(),
            "refused 15: the trace of vertex 2 of the path is no whole number from 0 to 255",
        ),
    ]
}

fn pages() -> Vec<(Refusal, &'static str)> {
    let path = fine();
    let first = |budget| mutual_pages(&path, &path, EPSILON, budget);
    let refusal = |mut pages: vonjekona::Pages| pages.next().unwrap().unwrap_err();
    vec![
        (
            refusal(first(Budget::Time(Duration::ZERO)).rows_at_most(0)),
            "refused 8: the rows are more than there is room for",
        ),
        (
            refusal(first(Budget::Pairs(1)).starting_at(17)),
            "refused 13: the position is beyond the end",
        ),
        (refusal(first(Budget::Pairs(0))), "refused 14: the budget is 0"),
    ]
}

fn kernels_and_pairs() -> Vec<(Refusal, &'static str)> {
    let p = Vector2::new;
    let o = p(0.0, 0.0);
    vec![
        (
            line_line_intr(o, p(4.0, 0.0), p(2.0, -2.0), p(2.0, 2_000_000.0), EPSILON).unwrap_err(),
            "refused 2: y of u2 is above 1,048,576 in magnitude",
        ),
        (
            line_circle_intr(o, p(f64::NAN, 0.0), 1.0, o, EPSILON).unwrap_err(),
            "refused 11: x of p1 is NaN",
        ),
        (
            line_circle_intr(o, p(4.0, 0.0), 0.0, o, EPSILON).unwrap_err(),
            "refused 9: the radius of the circle is not in 2^-42 to 2^47",
        ),
        (
            circle_circle_intr(1.0, o, 1.0, p(0.0, 3e14), EPSILON).unwrap_err(),
            "refused 9: y of the centre of the second circle is above 2^48 in magnitude",
        ),
        (
            circle_circle_intr(f64::INFINITY, o, 1.0, o, EPSILON).unwrap_err(),
            "refused 12: the radius of the first circle is infinite",
        ),
        (
            pair(pv(0.0, 0.0, 0.0), pv(4.0, 0.0, 0.0), pv(2.0, -2.0, 0.0), pv(-f64::NAN, 2.0, 0.0)),
            "refused 11: x of the second vertex of u is NaN",
        ),
        (
            pair(pv(0.0, 0.0, -1.5), pv(4.0, 0.0, 0.0), pv(2.0, -2.0, 0.0), pv(2.0, 2.0, 0.0)),
            "refused 3: the bulge of the first vertex of v is above 1 in magnitude",
        ),
        (
            pair(pv(0.0, 0.0, 0.0), pv(4.0, 0.0, 0.0), pv(2.0, 2.0, 0.5), pv(2.0, 2.0, 0.0)),
            "refused 5: the chord of u is that of an arc, and shorter than 2^-40",
        ),
    ]
}

fn large_arcs() -> Vec<(Refusal, &'static str)> {
    let (a, b) = (pv(0.0, 0.0, 0.0), pv(4.0, 0.0, 0.0));
    let loops = |bulge, y| path(1, |v| (v.bulge, v.y) = (bulge, y));
    vec![
        (
            large::mutual(&loops(-16.5, 0.0), &fine(), EPSILON).unwrap_err(),
            "refused 3: the bulge of vertex 1 of the first path is above 16 in magnitude",
        ),
        (
            // from vertex 1 far up to vertex 2, and half as far again to the side
            large::self_listing(&loops(4.0, 1_048_576.0), EPSILON).unwrap_err(),
            "refused 2: x of the cut point of segment 1 of the path is above 1,048,576 in magnitude",
        ),
        (
            large::pline_seg_intr(a, b, pv(1.0, 1.0, 2.0), pv(1.0, 1.0, 0.0), EPSILON).unwrap_err(),
            "refused 5: the chord of u is that of an arc, and it or that of a half is shorter than \
             2^-40",
        ),
        (
            large::pline_seg_intr(pv(0.0, -1_048_576.0, 2.0), b, a, b, EPSILON).unwrap_err(),
            "refused 2: x of the cut point of v is above 1,048,576 in magnitude",
        ),
    ]
}

fn reports() -> Vec<(Refusal, &'static str)> {
    let mut words = [0; 40];
    words[0] = 10_000;
    let mut full = Report::of_words(words);
    let other = full.clone();
    vec![
        (
            mutual_counted(&fine(), &fine(), EPSILON, &mut full).unwrap_err(),
            "refused 19: the report is full",
        ),
        (
            full.join(&other).unwrap_err(),
            "refused 19: the report does not take the sum with the other one",
        ),
    ]
}

fn drawings() -> Vec<(Refusal, &'static str)> {
    let body = |text: &str| dxf_import(text).unwrap_err();
    vec![
        (
            body("90\n1\n70\n0\n10\n1e3\n20\n0\n"),
            "refused 20: line 6 of the text has a bad code or number",
        ),
        (
            body(""),
            "refused 21: line 1 of the text has a group out of place, or a group or its value is \
             missing there",
        ),
        (
            body("8\n0\n90\n2\n70\n0\n10\n1\n20\n0\n"),
            "refused 22: the vertices are more or fewer than line 4 of the text says",
        ),
        (
            body("90\n1\n70\n0\n10\n1048577\n20\n0\n"),
            "refused 2: x of vertex 0 of the path is above 1,048,576 in magnitude",
        ),
        (
            dxf_export(&path(3, |v| v.bulge = -0.0)).unwrap_err(),
            "refused 23: the bulge of vertex 3 of the path is no number that six digits spell",
        ),
    ]
}

/// What no call of these bindings gives: they lend enough room. Words come from C callers' logs.
fn by_word() -> Vec<(Refusal, &'static str)> {
    let of = |word| Refusal::of_word(Places::TwoPaths, false, word).unwrap();
    vec![
        (of(0x0000_0000_000c_0111), "refused 17: the boxes are more than there is room for"),
        (of(0x0000_0000_0010_0118), "refused 24: the room for the path or its text is too small"),
    ]
}

#[test]
fn every_number_is_told_with_its_place() {
    let calls =
        [listings(), pages(), kernels_and_pairs(), large_arcs(), reports(), drawings(), by_word()];
    let mut numbers = BTreeSet::new();
    for (refusal, words) in calls.into_iter().flatten() {
        assert_eq!(refusal.to_string(), words, "{refusal:?}");
        numbers.insert(refusal.number);
    }
    // all numbers that a call gives: 1 is not given any more, 10, 16 and 18 are the programs'
    let given = (2..=24).filter(|n| ![10, 16, 18].contains(n)).collect();
    assert_eq!(numbers, given);
}

#[test]
fn words_of_other_numbers() {
    for number in 0..=255 {
        let refusal = Refusal::of_word(Places::OnePath, false, 256 + number).unwrap();
        let words = refusal.to_string();
        assert!(words.starts_with(&format!("refused {number}: ")), "{words}");
        let known = (1..=24).contains(&number);
        assert_eq!(words.contains("do not know"), !known, "{words}");
    }
    // places beyond what a call has are printed all the same
    let odd = Refusal::of_word(Places::Pair, false, 0x0000_0009_07ff_010b).unwrap();
    assert_eq!(odd.item, Item::Other(255));
    assert_eq!(odd.to_string(), "refused 11: item 255, number 9, of owner 7 is NaN");
}

#[test]
fn a_word_is_taken_apart() {
    let refusal = Refusal::of_word(Places::TwoPaths, true, 0xffff_fffe_0112_0102).unwrap();
    assert_eq!((refusal.number, refusal.owner, refusal.index), (2, 1, u32::MAX - 1));
    assert_eq!((refusal.item, refusal.large), (Item::CutY, true));
    for word in [0, 1, 5, 255, 512, 0x0300, 0x0001_0000] {
        assert_eq!(Refusal::of_word(Places::TwoPaths, false, word), None);
    }
}

#[test]
fn a_refusal_is_an_error() {
    fn ask() -> Result<(), Box<dyn Error + Send + Sync>> {
        self_listing(&Path::of_numbers(&[0.0; 3], false), EPSILON)?;
        Ok(())
    }
    let error = ask().unwrap_err();
    assert_eq!(error.to_string(), "refused 6: the length of the path is no multiple of 4");
    assert_eq!(error.downcast_ref::<Refusal>().unwrap().number, 6);
}

/// The order of faults is the call's: epsilon, lengths, the first path, the second.
#[test]
fn the_first_fault_is_told() {
    let (lost, odd) = (path(3, |v| v.x = f64::NAN), Path::of_numbers(&[f64::NAN; 7], false));
    assert_eq!(mutual(&lost, &odd, 0.0).unwrap_err().number, 4);
    let refusal = mutual(&lost, &odd, EPSILON).unwrap_err();
    assert_eq!((refusal.number, refusal.owner), (6, 1));
    let refusal = mutual(&fine(), &lost, EPSILON).unwrap_err();
    assert_eq!((refusal.number, refusal.owner, refusal.index), (11, 1, 3));
}
