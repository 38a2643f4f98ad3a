//! The stored layouts whose names say that a touching pair is missed: a test that they do what their names say.

use super::draw::{Pair, GRID_EPSILON};
use super::judge::share;
use super::ours;
use super::piece::Piece;
use crate::search::plane::Spot;
use std::fs;
use std::path::Path;

/// How the names begin.
const MISSED: &str = "missed_";

/// The two segments of a text with two vertices in each path.
fn pair(text: &str) -> Pair {
    let rows: Vec<Vec<i64>> = text
        .lines()
        .map(|line| {
            line.split(' ')
                .map(|n| n.parse().expect("a number"))
                .collect()
        })
        .collect();
    assert_eq!((rows.len(), &rows[0][..]), (5, &[2, 2][..]));
    let piece = |from: &[i64], to: &[i64]| Piece {
        from: Spot {
            x: from[0],
            y: from[1],
        },
        to: Spot { x: to[0], y: to[1] },
        n: from[2],
    };
    Pair {
        v: piece(&rows[1], &rows[2]),
        u: piece(&rows[3], &rows[4]),
        epsilon: GRID_EPSILON,
    }
}

#[test]
fn each_shares_a_point_and_is_answered_with_none() {
    let folder = Path::new(env!("CARGO_MANIFEST_DIR")).join("../layouts");
    let mut met = 0;
    for entry in fs::read_dir(folder).expect("the stored layouts") {
        let path = entry.expect("a layout").path();
        let name = path
            .file_name()
            .expect("a name")
            .to_string_lossy()
            .into_owned();
        if !name.starts_with(MISSED) || !name.ends_with(".txt") {
            continue;
        }
        met += 1;
        let pair = pair(&fs::read_to_string(&path).expect("a text"));
        assert!(share(pair.v, pair.u).is_some(), "{name} shares no point");
        assert_eq!(ours(&pair), 0, "{name} is found");
        let printed = fs::read_to_string(path.with_extension("out")).expect("its answer");
        assert_eq!(printed, "pairs 1 rows 0\n", "{name}");
    }
    assert!(met >= 6, "{met} layouts");
}
