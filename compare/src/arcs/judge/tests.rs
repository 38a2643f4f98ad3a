//! Known cases, and wrong answers that the judge must notice.

use super::*;
use crate::arcs::piece::tests::piece;
use crate::rng::Rng;

/// Each pair in both orders, and each segment from either end.
fn shared(v: Piece, u: Piece) -> Option<Way> {
    let way = share(v, u);
    for (a, b) in [(v, u), (u, v)] {
        for a in [a, a.reversed()] {
            for b in [b, b.reversed()] {
                assert_eq!(share(a, b), way, "{a:?} {b:?}");
            }
        }
    }
    way
}

/// The half circle about 0 of radius 5, below the x axis.
fn bowl() -> Piece {
    piece(-5, 0, 5, 0, ONE)
}

#[test]
fn a_line_and_an_arc() {
    for (line, way) in [
        (piece(0, -9, 0, 9, 0), Some(Way::Cross)),
        (piece(0, -4, 0, 9, 0), None),
        (piece(0, -5, 0, 9, 0), Some(Way::End)),
        (piece(3, -4, 9, 9, 0), Some(Way::End)),
        (piece(-9, -5, 9, -5, 0), Some(Way::Touch)),
        (piece(-9, -6, 9, -6, 0), None),
        (piece(-9, -4, 9, -4, 0), Some(Way::Cross)),
        (piece(-2, -4, 2, -4, 0), None),
        (piece(-2, 4, 9, 4, 0), None),
        (piece(5, 0, 5, 7, 0), Some(Way::Joint)),
        (piece(5, 0, 5, -7, 0), Some(Way::Joint)),
        (piece(5, 0, 6, 7, 0), Some(Way::Corner)),
        (piece(-5, 0, 5, 0, 0), Some(Way::Corner)),
        (piece(6, 0, 9, 0, 0), None),
        (piece(3, -4, 3, -4, 0), Some(Way::End)),
        (piece(5, 0, 5, 0, 0), Some(Way::End)),
        (piece(3, -3, 3, -3, 0), None),
        // the tangent at (3, -4), whole way and short of it
        (piece(-1, -7, 7, -1, 0), Some(Way::Touch)),
        (piece(7, -1, 11, 2, 0), None),
    ] {
        assert_eq!(shared(bowl(), line), way, "{line:?}");
    }
}

#[test]
fn two_arcs_of_two_circles() {
    for (arc, way) in [
        (piece(-5, -5, 5, -5, -ONE), Some(Way::Cross)),
        (piece(-5, -5, 5, -5, ONE), None),
        // circles of radius 5 about (10, 0) and (0, -10) touch the bowl's at an end of it, and at its top
        (piece(10, 5, 10, -5, ONE), Some(Way::End)),
        (piece(-5, -10, 5, -10, -ONE), Some(Way::Touch)),
        (piece(5, 0, 15, 0, ONE), Some(Way::Joint)),
        (piece(5, 0, 15, 0, -ONE), Some(Way::Joint)),
        (piece(5, 0, 5, 8, ONE), Some(Way::Corner)),
        (piece(0, -5, 9, -5, ONE), Some(Way::End)),
        // of one centre, and inside
        (piece(-4, 0, 4, 0, ONE), None),
        (piece(-1, -1, 1, -1, ONE), None),
        // inside, touching at the top
        (piece(-2, -3, 2, -3, ONE), Some(Way::Touch)),
    ] {
        assert_eq!(shared(bowl(), arc), way, "{arc:?}");
    }
}

#[test]
fn two_arcs_of_one_circle() {
    for (arc, way) in [
        (bowl(), Some(Way::Joint)),
        (piece(5, 0, -5, 0, ONE), Some(Way::Joint)),
        (piece(3, -4, -3, 4, ONE), Some(Way::End)),
        (piece(-4, 3, 4, 3, -ONE / 2), None),
        (piece(-4, -3, 4, -3, ONE / 2), Some(Way::End)),
    ] {
        assert_eq!(shared(bowl(), arc), way, "{arc:?}");
    }
}

#[test]
fn the_scopes_examples() {
    let unit = piece(-1, 0, 1, 0, ONE);
    // H, I, J, K, and L
    assert_eq!(shared(unit, piece(1, 0, -1, 0, ONE)), Some(Way::Joint));
    assert_eq!(shared(unit, piece(1, 0, -1, 0, -ONE)), Some(Way::Joint));
    assert_eq!(shared(unit, piece(0, -2, 0, 2, 0)), Some(Way::Cross));
    assert_eq!(shared(unit, piece(-2, -1, 2, -1, 0)), Some(Way::Touch));
    let point = piece(1, 0, 1, 0, 0);
    assert_eq!(shared(point, piece(0, 0, 2, 0, 0)), Some(Way::End));
}

/// Pairs for which the Rust, and we, answer "none".
#[test]
fn missed_pairs_share_a_point() {
    let (v, u) = (
        piece(376_703, -496_091, 736_524, 153_936, 1),
        piece(709_759, 105_615, 709_829, 105_609, 65_536),
    );
    assert_eq!(shared(v, u), Some(Way::Cross));
    let (v, u) = (
        piece(343_540, 261_638, 343_638, 540_629, 0),
        piece(343_859, 699_193, 343_540, 261_638, 2),
    );
    assert_eq!(shared(v, u), Some(Way::Corner));
}

/// A step of the grid or of the bulge decides, far below what a float shows.
#[test]
fn a_step_decides() {
    // the largest height of the flattest arc: 2^20 / 65,536 * 2 / 2, at (0, -16) from end to end at y = 0
    let far = 1 << 20;
    let flat = piece(-far, 0, far, 0, 1);
    assert_eq!(shared(flat, piece(-9, -16, 9, -16, 0)), Some(Way::Touch));
    assert_eq!(shared(flat, piece(-9, -17, 9, -17, 0)), None);
    assert_eq!(shared(flat, piece(0, -17, 0, -16, 0)), Some(Way::End));
    // one step beside the top the arc is some 2^-36 higher
    assert_eq!(shared(flat, piece(1, -17, 1, -16, 0)), None);
    assert_eq!(shared(flat, piece(1, -16, 1, 5, 0)), Some(Way::Cross));
    assert_eq!(shared(flat, piece(1, -16, 9, 5, ONE / 3)), Some(Way::Cross));
    assert_eq!(shared(flat, piece(1, -16, 5, -16, 1)), None);
    assert_eq!(shared(flat, piece(1, -16, 5, -16, -7)), Some(Way::Cross));
    assert_eq!(shared(flat, piece(1, -17, 5, -16, 100)), None);
}

/// Compared with a slower way: both as chains of short lines, two of which cross. Only a pair within some 10^-4 of touching may
/// differ.
#[test]
fn chains_of_lines_agree() {
    let mut rng = Rng::new(9);
    let (mut counts, mut differ) = ([0; 2], 0);
    for _ in 0..1000 {
        let mut end = || rng.below(41) as i64 - 20;
        let (v, u) = (
            piece(end(), end(), end(), end(), 0),
            piece(end(), end(), end(), end(), 0),
        );
        if v.from == v.to || u.from == u.to {
            continue;
        }
        let mut bulge = || rng.below(2 * ONE as u64 + 1) as i64 - ONE;
        let (v, u) = (Piece { n: bulge(), ..v }, Piece { n: bulge(), ..u });
        let touch = shared(v, u).is_some();
        counts[usize::from(touch)] += 1;
        differ += u32::from(touch != chains_cross(&points(v), &points(u)));
    }
    assert!(counts.iter().all(|&n| n > 200), "{counts:?}");
    assert!(differ <= 2, "{differ}");
}

fn chains_cross(v: &[(f64, f64)], u: &[(f64, f64)]) -> bool {
    let side = |s: &[(f64, f64)], p: (f64, f64)| {
        (s[1].0 - s[0].0) * (p.1 - s[0].1) - (s[1].1 - s[0].1) * (p.0 - s[0].0) >= 0.0
    };
    v.windows(2).any(|a| {
        u.windows(2)
            .any(|b| side(a, b[0]) != side(a, b[1]) && side(b, a[0]) != side(b, a[1]))
    })
}

/// By the arc's angle: from its start, turned about its centre.
fn points(s: Piece) -> Vec<(f64, f64)> {
    let (x, y) = (s.from.x as f64, s.from.y as f64);
    let (dx, dy) = (s.to.x as f64 - x, s.to.y as f64 - y);
    let b = s.bulge();
    let (turn, steps) = (4.0 * b.atan(), 300);
    let up = (1.0 - b * b) / (4.0 * b);
    let (cx, cy) = (x + dx / 2.0 - dy * up, y + dy / 2.0 + dx * up);
    (0..=steps)
        .map(|i| {
            let part = f64::from(i) / f64::from(steps);
            if s.is_line() {
                return (x + dx * part, y + dy * part);
            }
            let (sin, cos) = (turn * part).sin_cos();
            let (rx, ry) = (x - cx, y - cy);
            (cx + rx * cos - ry * sin, cy + rx * sin + ry * cos)
        })
        .collect()
}
