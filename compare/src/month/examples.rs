//! Reports worked out by hand, which need no model: a few layouts one after the other, with each word that changes.

use super::model::{Report, WORDS};
use super::Ours;
use crate::capi::Rows;
use crate::listings::draw::{of_each_class, of_pair};
use crate::listings::layout::{Call, Drawn, Layout};
use crate::listings::traces::all_of;

const REFUSED_19: u64 = 0xe_0113;
const REFUSED_8: u64 = 0x9_0108;
const REFUSED_4: u64 = 0x104;
const REFUSED_15: u64 = 0x10d_010f;
const NO_ROOM: u64 = 512;

/// What a slice holds before the call.
const OLD: u64 = 77;

/// A layout, the rows that there is room for, and what is returned; and then the report, by its words that are not 0.
struct Step {
    name: &'static str,
    layout: Layout,
    rows: usize,
    word: u64,
    report: Vec<(usize, u64)>,
}

/// The layouts of one report.
fn steps() -> Vec<Step> {
    let [tangent, one, two, lines, arcs] = of_each_class().map(|pair| of_pair(&pair, [false; 2]));
    // two upright lines and what joins them, across two lying ones: four of nine pairs meet
    let upright = [
        [0.0, -9.0, 0.0],
        [0.0, 9.0, 0.0],
        [5.0, 9.0, 0.0],
        [5.0, -9.0, 0.0],
    ];
    let lying = [
        [-2.0, 1.0, 0.0],
        [7.0, 1.0, 0.0],
        [7.0, 2.0, 0.0],
        [-2.0, 2.0, 0.0],
    ];
    let nine = Layout {
        first: Drawn::of(upright, false),
        second: Drawn::of(lying, false),
        epsilon: 1.0 / 1024.0,
    };
    let mut in_tracks = nine.clone();
    // the first upright line and the first lying one are of one track
    in_tracks.first.numbers[3] = 7.0;
    in_tracks.second.numbers[3] = 7.0;
    let mut no_epsilon = one.clone();
    no_epsilon.epsilon = 0.0;
    let mut no_trace = one.clone();
    no_trace.second.numbers[7] = 256.0;
    let step = |name, layout: &Layout, rows, word, report: &[(usize, u64)]| Step {
        name,
        layout: layout.clone(),
        rows,
        word,
        report: report.to_vec(),
    };
    vec![
        step("class 1", &tangent, 1, 0, &[(0, 1), (1, 1), (3, 1)]),
        step("class 2", &one, 1, 0, &[(0, 2), (1, 2), (3, 1), (4, 1)]),
        step(
            "class 3",
            &two,
            1,
            0,
            &[(0, 3), (1, 3), (3, 1), (4, 1), (5, 1)],
        ),
        step(
            "class 4",
            &lines,
            1,
            0,
            &[(0, 4), (1, 4), (3, 1), (4, 1), (5, 1), (6, 1)],
        ),
        step(
            "class 5",
            &arcs,
            1,
            0,
            &[(0, 5), (1, 5), (3, 1), (4, 1), (5, 1), (6, 1), (7, 1)],
        ),
        step(
            "no vertices",
            &nothing(),
            0,
            0,
            &[(0, 6), (1, 5), (3, 1), (4, 1), (5, 1), (6, 1), (7, 1)],
        ),
        step(
            "nine pairs",
            &nine,
            4,
            0,
            &[
                (0, 7),
                (1, 14),
                (2, 5),
                (3, 1),
                (4, 5),
                (5, 1),
                (6, 1),
                (7, 1),
            ],
        ),
        step(
            "a row too many",
            &nine,
            3,
            REFUSED_8,
            &[
                (0, 8),
                (1, 14),
                (2, 5),
                (3, 1),
                (4, 5),
                (5, 1),
                (6, 1),
                (7, 1),
                (16, 1),
            ],
        ),
        step(
            "a pair of one track",
            &in_tracks,
            3,
            0,
            &[
                (0, 9),
                (1, 22),
                (2, 10),
                (3, 1),
                (4, 8),
                (5, 1),
                (6, 1),
                (7, 1),
                (16, 1),
            ],
        ),
        step(
            "all of one track",
            &all_of(&nine, 3.0),
            0,
            0,
            &[
                (0, 10),
                (1, 22),
                (2, 10),
                (3, 1),
                (4, 8),
                (5, 1),
                (6, 1),
                (7, 1),
                (16, 1),
            ],
        ),
        step(
            "epsilon 0",
            &no_epsilon,
            1,
            REFUSED_4,
            &[
                (0, 11),
                (1, 22),
                (2, 10),
                (3, 1),
                (4, 8),
                (5, 1),
                (6, 1),
                (7, 1),
                (12, 1),
                (16, 1),
            ],
        ),
        step(
            "no trace",
            &no_trace,
            1,
            0x1_0000_0000 | REFUSED_15,
            &[
                (0, 12),
                (1, 22),
                (2, 10),
                (3, 1),
                (4, 8),
                (5, 1),
                (6, 1),
                (7, 1),
                (12, 1),
                (16, 1),
                (23, 1),
            ],
        ),
    ]
}

fn nothing() -> Layout {
    Layout {
        epsilon: 1.0 / 1024.0,
        ..Layout::default()
    }
}

fn words(not_0: &[(usize, u64)]) -> [u64; WORDS] {
    let report = not_0.iter().fold(Report::FRESH, |report, (word, value)| {
        report.with(*word, *value)
    });
    report.0
}

/// What is not as written here.
pub fn wrong(ours: Ours) -> Vec<String> {
    let mut all = counted(ours);
    all.extend(refused(ours));
    all.extend(joined(ours));
    all
}

/// One report after the other.
fn counted(ours: Ours) -> Vec<String> {
    let mut all = Vec::new();
    let mut report = [0; WORDS];
    for step in steps() {
        let word = call(ours, &step.layout, step.rows, &mut report);
        if word != step.word || report != words(&step.report) {
            all.push(format!("{}: {word:#x}, {report:?}", step.name));
            return all;
        }
    }
    all
}

/// Counts the layout, with room for so many rows. If it is not answered, nothing may be written.
fn call(ours: Ours, layout: &Layout, rows: usize, report: &mut [u64]) -> u64 {
    let mut indices = vec![OLD; 3 * rows];
    let mut points = vec![OLD as f64; 4 * rows];
    let mut counts = [OLD; 2];
    let lent = Rows {
        indices: &mut indices,
        points: &mut points,
        counts: &mut counts,
    };
    let word = (ours.counted)(layout.listed(Call::Mutual), layout.epsilon, lent, report);
    let as_found = counts == [OLD; 2]
        && indices.iter().all(|x| *x == OLD)
        && points.iter().all(|x| *x == OLD as f64);
    if word != 0 && !as_found {
        return u64::MAX;
    }
    word
}

/// The 10,000th and the 10,001st; a word at its most and beyond; 19 before 4; too few words.
fn refused(ours: Ours) -> Vec<String> {
    const MOST: u64 = 18_446_744_073_642_442_751;
    let layout = of_pair(&of_each_class()[1], [false; 2]);
    let mut without = layout.clone();
    without.epsilon = f64::NAN;
    let cases = [
        (
            "the 10,000th",
            &layout,
            vec![(0, 9_999)],
            0,
            vec![(0, 10_000), (1, 1), (4, 1)],
        ),
        (
            "the 10,001st",
            &layout,
            vec![(0, 10_000)],
            REFUSED_19,
            vec![(0, 10_000)],
        ),
        (
            "the 10,000th, refused",
            &without,
            vec![(0, 9_999)],
            REFUSED_4,
            vec![(0, 10_000), (12, 1)],
        ),
        (
            "the 10,001st, 19 before 4",
            &without,
            vec![(0, 10_000)],
            REFUSED_19,
            vec![(0, 10_000)],
        ),
        (
            "a word at its most",
            &layout,
            vec![(39, MOST)],
            0,
            vec![(0, 1), (1, 1), (4, 1), (39, MOST)],
        ),
        (
            "a word beyond",
            &layout,
            vec![(39, MOST + 1)],
            REFUSED_19,
            vec![(39, MOST + 1)],
        ),
        (
            "pairs beyond, 19 before 4",
            &without,
            vec![(1, MOST + 1)],
            REFUSED_19,
            vec![(1, MOST + 1)],
        ),
    ];
    let mut all = Vec::new();
    for (name, layout, before, expected, after) in cases {
        let mut report = words(&before);
        let word = call(ours, layout, 1, &mut report);
        if word != expected || report != words(&after) {
            all.push(format!("{name}: {word:#x}, {report:?}"));
        }
    }
    let mut report = [u64::MAX; WORDS - 1];
    let word = call(ours, &layout, 1, &mut report);
    if word != NO_ROOM || report != [u64::MAX; WORDS - 1] {
        all.push(format!("39 words: {word:#x}, {report:?}"));
    }
    all
}

/// 9,999 and 1, 10,000 and 0 and 1; words at 2^64 - 1.
fn joined(ours: Ours) -> Vec<String> {
    const ALL: u64 = u64::MAX;
    let cases = [
        (
            vec![(0, 9_999), (5, 2)],
            vec![(0, 1), (5, 3)],
            0,
            vec![(0, 10_000), (5, 5)],
        ),
        (
            vec![(0, 10_000)],
            vec![(9, 4)],
            0,
            vec![(0, 10_000), (9, 4)],
        ),
        (
            vec![(0, 10_000)],
            vec![(0, 1)],
            REFUSED_19,
            vec![(0, 10_000)],
        ),
        (
            vec![(0, 3), (39, ALL)],
            vec![(0, 4)],
            0,
            vec![(0, 7), (39, ALL)],
        ),
        (
            vec![(0, 3), (39, ALL)],
            vec![(0, 4), (39, 1)],
            REFUSED_19,
            vec![(0, 3), (39, ALL)],
        ),
        (vec![(1, 1)], vec![(1, ALL)], REFUSED_19, vec![(1, 1)]),
        (vec![(1, 1)], vec![(1, ALL - 1)], 0, vec![(1, ALL)]),
    ];
    let mut all = Vec::new();
    for (into, other, expected, after) in cases {
        let (mut report, other) = (words(&into), words(&other));
        let word = (ours.join)(&mut report, &other);
        if word != expected || report != words(&after) {
            all.push(format!(
                "join of {into:?} and {other:?}: {word:#x}, {report:?}"
            ));
        }
    }
    all
}
