//! How deep inside both segments they cross.

use super::judge::{inside, Spots};
use super::piece::Piece;
use super::whole::Whole;
use crate::search::plane::Spot;

/// How many binary digits of a root are computed after the point.
const DIGITS: u32 = 64;

/// The largest distance of a crossing inside both from the nearest of the four ends, to some 15 digits. Not for two lines.
pub fn depth(v: Piece, u: Piece) -> f64 {
    let Some(met) = inside(v, u) else { return 0.0 };
    let root = met.roots.under.raised(2 * DIGITS).root();
    let mut deepest: f64 = 0.0;
    for (plus, signed) in [(0, root.negated()), (1, root)] {
        if met.signs[plus] {
            let ends = [v.from, v.to, u.from, u.to];
            let away =
                ends.map(|end| distance(&met.spots, &met.roots.a, &met.roots.b, &signed, end));
            deepest = deepest.max(away.into_iter().fold(f64::INFINITY, f64::min));
        }
    }
    deepest
}

/// Of the point at s = (-b + root) / 2a from an end.
fn distance(spots: &Spots, a: &Whole, b: &Whole, root: &Whole, end: Spot) -> f64 {
    let two = Whole::from(2).times(a);
    let along = |i: usize, end: i64| {
        let from = spots.at[i].less(&Whole::from(i128::from(end)).times(&spots.over));
        let still = two.times(&from).less(&b.times(&spots.way[i]));
        let top = still.raised(DIGITS).plus(&root.times(&spots.way[i]));
        top.float() / two.times(&spots.over).raised(DIGITS).float()
    };
    let (x, y) = (along(0, end.x), along(1, end.y));
    (x * x + y * y).sqrt()
}

#[cfg(test)]
mod tests {
    use super::*;
    use crate::arcs::piece::tests::piece;
    use crate::arcs::piece::ONE;

    #[test]
    fn known_depths() {
        let bowl = piece(-5, 0, 5, 0, ONE);
        assert_eq!(depth(bowl, piece(0, -9, 0, 9, 0)), 4.0);
        assert_eq!(depth(bowl, piece(3, -6, 3, 9, 0)), 2.0);
        // one crossing at (4, -3), 5 from (0, 0); the other half's at (-4, -3) is nearer to an end
        let two = depth(piece(-8, -3, 6, -3, 0), bowl);
        assert!((two - 10f64.sqrt()).abs() < 1e-12, "{two}");
    }

    #[test]
    fn the_crossing_that_is_missed() {
        let v = piece(376_703, -496_091, 736_524, 153_936, 1);
        let u = piece(709_759, 105_615, 709_829, 105_609, 65_536);
        let deep = depth(v, u);
        assert!((22.0..24.0).contains(&deep), "{deep}");
    }
}
