//! What the search allows: which touching pairs may be missed, and how far from each other reported ones may be. Except for two
//! lines, this was found, not proved.

use super::draw::{Pair, GRID_EPSILON};
use super::judge::common_ends;

/// By how many roundings, each its size over 2^53, the square of half a chord is off at most. As far as the search has shown, no
/// pair is missed that would need more; such a miss fails the search. For two arcs it was counted on paper; for a line and an arc
/// it is twice what was found.
pub const ARC_ROUNDINGS: f64 = 8.0;
pub const LINE_ROUNDINGS: f64 = 16.0;
/// The divisor of a rounding: 2^53.
pub const ROUNDED: f64 = (1u64 << 53) as f64;

/// Up to this radius the distance of a reported pair is never above this many epsilons, as far as the search has shown. An end
/// may lie sqrt(2) epsilons from the found point: a quarter turn of a circle whose radius is epsilon.
pub const NEAR_RADIUS: f64 = 1_048_576.0;
pub const NEAR: f64 = 2.0 * std::f64::consts::SQRT_2;

pub fn largest(pair: &Pair) -> f64 {
    pair.v.radius().max(pair.u.radius())
}

/// How many roundings a miss of the pair would need. Two arcs, of radii r and R: 2 r epsilon 2^53 over R^2. A line and an arc:
/// epsilon^2 2^53 over R times the sum of R, the largest coordinate and the line's length.
pub fn roundings(pair: &Pair) -> f64 {
    let (r, large, epsilon) = (
        pair.v.radius().min(pair.u.radius()),
        largest(pair),
        pair.epsilon,
    );
    if pair.v.is_line() || pair.u.is_line() {
        epsilon * epsilon * ROUNDED / (large * (large + far(pair)))
    } else {
        2.0 * r * epsilon * ROUNDED / (large * large)
    }
}

/// The largest coordinate and the line's length together.
fn far(pair: &Pair) -> f64 {
    let ends = [pair.v.from, pair.v.to, pair.u.from, pair.u.to];
    let far = ends.map(|p| p.x.abs().max(p.y.abs()));
    let line = if pair.v.is_line() { pair.v } else { pair.u };
    far.into_iter().fold(0, i64::max) as f64 + line.length()
}

/// Whether a pair that shares a point may be missed: the search has shown that it happens. Not two lines with an epsilon of the
/// promise, for which it is proved that they are not.
pub fn may_miss(pair: &Pair) -> bool {
    match (pair.v.is_line(), pair.u.is_line()) {
        _ if pair.epsilon < GRID_EPSILON => true,
        (true, true) => false,
        (false, false) => roundings(pair) < ARC_ROUNDINGS,
        _ => roundings(pair) < LINE_ROUNDINGS && angle(pair) <= widest(pair),
    }
}

/// The sine of the widest angle at which a line and an arc may meet at a shared end and be missed.
fn widest(pair: &Pair) -> f64 {
    LINE_ROUNDINGS * (largest(pair) + far(pair)) / (2.0 * ROUNDED * pair.epsilon)
}

/// The sine of the widest angle at a shared end, 0 if there is none.
fn angle(pair: &Pair) -> f64 {
    let size = |(x, y): (i128, i128)| ((x * x + y * y) as f64).sqrt();
    common_ends(pair.v, pair.u)
        .map(|(v, u)| ((v.0 * u.1 - v.1 * u.0).abs() as f64) / (size(v) * size(u)))
        .fold(0.0, f64::max)
}

/// Whether a pair at this distance may be reported.
pub fn may_report(pair: &Pair, distance: f64) -> bool {
    pair.epsilon < GRID_EPSILON || largest(pair) > NEAR_RADIUS || distance <= NEAR * pair.epsilon
}

#[cfg(test)]
mod tests {
    use super::*;
    use crate::arcs::piece::tests::piece;
    use crate::arcs::piece::ONE;

    fn pair(v: crate::arcs::piece::Piece, u: crate::arcs::piece::Piece, epsilon: f64) -> Pair {
        Pair { v, u, epsilon }
    }

    #[test]
    fn two_arcs_up_to_a_million_may_not_be_missed() {
        // of radius 1/2 and 2^20, and the same of the next larger radius
        let small = piece(0, 0, 1, 0, ONE);
        let large = piece(-(1 << 20), 0, 1 << 20, 0, ONE);
        assert!(!may_miss(&pair(large, small, GRID_EPSILON)));
        assert!(may_miss(&pair(large, small, GRID_EPSILON / 2.0)));
        let flatter = piece(-(1 << 20), 0, 1 << 20, 0, ONE - 400);
        assert!(may_miss(&pair(flatter, small, GRID_EPSILON)));
        assert!(!may_miss(&pair(flatter, small, 2.0 * GRID_EPSILON)));
    }

    #[test]
    fn a_line_and_an_arc_by_the_sheet_and_two_lines_never() {
        let (line, arc) = (piece(0, 0, 9, 0, 0), piece(0, 0, 0, 10_000, ONE));
        assert!(!may_miss(&pair(line, arc, GRID_EPSILON)));
        let far = piece(0, 0, 1 << 20, 1 << 20, 0);
        assert!(!may_miss(&pair(far, arc, GRID_EPSILON)), "at an angle");
        let along = piece(0, 0, 1 << 20, 0, 0);
        assert!(may_miss(&pair(along, arc, GRID_EPSILON)));
        assert!(!may_miss(&pair(along, arc, 0.5)));
        let beside = piece(0, 1, 1 << 20, 1, 0);
        assert!(may_miss(&pair(beside, arc, GRID_EPSILON)));
        assert!(!may_miss(&pair(far, line, GRID_EPSILON)));
    }
}
