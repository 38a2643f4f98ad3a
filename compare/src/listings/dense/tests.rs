//! What the table says of its layouts.

use super::files::text;
use super::*;
use crate::vertex::VERTEX;

/// 7 to 9 % of the pairs of each sort make a row, with either epsilon.
#[test]
fn a_twelfth_of_a_sheet_meets() {
    for sort in &SORTS {
        for epsilon in EPSILONS {
            let Named { name, layout, .. } = crossing(sort, SEGMENTS);
            let found = layout.listed(Call::Mutual).rows(epsilon);
            let share = 100.0 * found.rows.len() as f64 / found.pairs as f64;
            assert_eq!(found.pairs, (SEGMENTS * SEGMENTS) as u64);
            assert!((7.0..=9.0).contains(&share), "{name}: {share} %");
        }
    }
}

/// No step of a walk meets the other, but two fifths of each one's box are in the other's.
#[test]
fn walks_do_not_meet() {
    let Named { layout, .. } = walking(STEPS);
    for epsilon in EPSILONS {
        let found = layout.listed(Call::Mutual).rows(epsilon);
        assert_eq!((found.rows.len(), found.pairs), (0, 4_000_000));
    }
    let [first, second] = [&layout.first, &layout.second].map(bounds);
    let common: [[f64; 2]; 2] = [0, 1].map(|way: usize| {
        let ([low, high], [low_too, high_too]) = (first[way], second[way]);
        [low.max(low_too), high.min(high_too)]
    });
    let area = |[x, y]: [[f64; 2]; 2]| (x[1] - x[0]) * (y[1] - y[0]);
    for whole in [first, second] {
        assert!(area(common) > 0.4 * area(whole), "{first:?} {second:?}");
    }
}

/// The least and the greatest x, and y.
fn bounds(path: &Drawn) -> [[f64; 2]; 2] {
    [0, 1].map(|way: usize| {
        let all = path.numbers.iter().skip(way).step_by(VERTEX);
        [f64::min, f64::max].map(|of| all.clone().copied().fold(path.numbers[way], of))
    })
}

#[test]
fn pockets_have_six_segments() {
    for (rounded, arcs) in [(true, 2), (false, 0)] {
        let outline = with_pocket(rounded).layout.second;
        let path = outline.path();
        let bulges = (0..path.segments()).filter(|i| path.vertex(*i).bulge != 0.0);
        assert_eq!((path.segments(), bulges.count()), (6, arcs));
    }
}

/// Each number is read back as it was, and a closed path's first vertex comes again.
#[test]
fn files_have_every_bit() {
    for path in [with_pocket(true).layout.second, walking(16).layout.first] {
        let text = text(&path);
        let read = |line: &str| -> Vec<f64> {
            let number = |word: &str| word.parse().expect("a number");
            line.split(' ').map(number).collect()
        };
        let mut lines: Vec<Vec<f64>> = text.lines().map(read).collect();
        if path.closed {
            assert_eq!(lines.pop(), lines.first().cloned());
        }
        let vertices: Vec<&[f64]> = path.numbers.chunks(VERTEX).map(|v| &v[..3]).collect();
        assert_eq!(lines, vertices);
    }
}

/// No two layouts have the same files.
#[test]
fn files_have_names_of_their_own() {
    let all = parts();
    let mut files: Vec<&str> = all
        .iter()
        .flat_map(|part| &part.layouts)
        .map(|named| named.file.as_str())
        .collect();
    let layouts = files.len();
    files.sort();
    files.dedup();
    assert_eq!((layouts, files.len()), (15, 15));
}
