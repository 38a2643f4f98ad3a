//! Two arcs of one circle, or nearly of one.

use super::super::piece::{Piece, ONE};
use super::parts::{sign, signed, spot, spread};
use super::FAR;
use crate::rng::Rng;
use crate::search::plane::Spot;

/// The second arc is the first one, turned around its centre by quarters or mirrored there; a half circle is also turned by the
/// angle of whole-number triangles. Every third time an end or the bulge is one step off.
pub fn draw(rng: &mut Rng, _: f64) -> Option<(Piece, Piece)> {
    let (center, from, to, n) = if rng.one_in(2) {
        half(rng)
    } else {
        shorter(rng)
    };
    let v = piece(center, from, to, n);
    let times = rng.below(4);
    let mut u = match rng.below(3) {
        0 if n.abs() == ONE => {
            // of the same length: (a, b) and (b, a), (-a, b), ..
            let other = (from.1, from.0);
            piece(center, other, (-other.0, -other.1), n)
        }
        1 => piece(center, (from.1, from.0), (to.1, to.0), -n),
        _ => piece(center, quarter(from, times), quarter(to, times), n),
    };
    if rng.one_in(3) {
        match rng.below(3) {
            0 => u.n += signed(rng, 1),
            1 => u.from.x += signed(rng, 1),
            _ => u.to.y += signed(rng, 1),
        }
    }
    Some((v, u))
}

type Way = (i64, i64);

fn quarter((x, y): Way, times: u64) -> Way {
    (0..times).fold((x, y), |(x, y), _| (-y, x))
}

fn piece(center: Spot, from: Way, to: Way, n: i64) -> Piece {
    let at = |way: Way| Spot {
        x: center.x + way.0,
        y: center.y + way.1,
    };
    Piece {
        from: at(from),
        to: at(to),
        n,
    }
}

/// A centre, and the ends as seen from there.
fn half(rng: &mut Rng) -> (Spot, Way, Way, i64) {
    let most = spread(rng, 1.0, FAR as f64) as i64;
    let from = (signed(rng, most), signed(rng, most));
    let n = ONE * sign(rng) as i64;
    (spot(rng, FAR / 2), from, (-from.0, -from.1), n)
}

/// A bulge of 1 / 2^k, on a chord for which the centre is on the grid: chord / 2 and chord * (4^k - 1) / 2^(k + 2) from the
/// start.
fn shorter(rng: &mut Rng) -> (Spot, Way, Way, i64) {
    let k = 1 + rng.below(10) as u32;
    let step = 1 << (k + 2);
    let most = (spread(rng, 1.0, FAR as f64) as i64 / step).max(1);
    let (i, j) = (signed(rng, most), signed(rng, most));
    let chord = (i * step, j * step);
    let up = (1 << (2 * k)) - 1;
    let from = (-chord.0 / 2 + j * up, -chord.1 / 2 - i * up);
    let to = (from.0 + chord.0, from.1 + chord.1);
    (spot(rng, FAR / 2), from, to, ONE >> k)
}
