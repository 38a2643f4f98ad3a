//! Segments that meet at a whole point inside an arc: they touch there, end there, or start there along the tangent or nearly.

use super::super::piece::{Piece, ONE};
use super::parts::{sign, signed, spot, spread};
use super::FAR;
use crate::rng::Rng;
use crate::search::plane::Spot;

type Way = (i64, i64);

pub fn draw(rng: &mut Rng, _: f64) -> Option<(Piece, Piece)> {
    if rng.one_in(2) {
        half_circle(rng)
    } else {
        top(rng)
    }
}

/// The arc is half a circle about a whole point c, with ends c + w and c - w; the point is c + m, m as long as w.
fn half_circle(rng: &mut Rng) -> Option<(Piece, Piece)> {
    let most = spread(rng, 1.0, 1024.0) as i64;
    let step = (signed(rng, most), signed(rng, most));
    let size = step.0.abs().max(step.1.abs()).max(1);
    let times = spread(rng, 1.0, (FAR / size) as f64) as i64;
    let m = (step.0 * times, step.1 * times);
    let center = spot(rng, FAR / 2);
    let way = around(rng, m);
    let v = half(center, way, rng);
    let at = to(center, m, 1);
    let u = if rng.one_in(4) {
        // half a circle about a point of the line through c and the point
        let other = spread(rng, 1.0, (FAR / size) as f64) as i64 * sign(rng) as i64;
        let m = (step.0 * other, step.1 * other);
        let way = around(rng, m);
        half(to(at, m, -1), way, rng)
    } else {
        met(rng, at, (-step.1, step.0))
    };
    Some((v, u))
}

/// The point is the top of an arc: its bulge is 2^k / 65,536 and its chord a multiple of 2^(17 - k), so that the top is whole.
fn top(rng: &mut Rng) -> Option<(Piece, Piece)> {
    let at = spot(rng, FAR / 2);
    let step = (signed(rng, 16), signed(rng, 16));
    let v = topped(rng, at, step);
    let u = if rng.one_in(4) {
        let times = (1 + rng.below(4) as i64) * sign(rng) as i64;
        topped(rng, at, (step.0 * times, step.1 * times))
    } else {
        met(rng, at, step)
    };
    Some((v, u))
}

fn topped(rng: &mut Rng, at: Spot, step: Way) -> Piece {
    let k = rng.below(17);
    let middle = to(at, (-step.1, step.0), 1);
    let half = 1 << (16 - k);
    Piece {
        from: to(middle, step, -half),
        to: to(middle, step, half),
        n: 1 << k,
    }
}

/// A segment that meets the point, at which the arc runs along the step.
fn met(rng: &mut Rng, at: Spot, step: Way) -> Piece {
    let size = step.0.abs().max(step.1.abs()).max(1);
    let far = |rng: &mut Rng| spread(rng, 1.0, (FAR / size) as f64) as i64;
    match rng.below(3) {
        // a line that touches there
        0 => line(to(at, step, -far(rng)), to(at, step, far(rng))),
        // a line that starts there, along the tangent or a step off
        1 => {
            let end = to(at, step, far(rng) * sign(rng) as i64);
            line(at, to(end, (signed(rng, 1), signed(rng, 1)), 1))
        }
        // any segment that starts there
        _ => Piece {
            from: at,
            to: spot(rng, FAR),
            n: if rng.one_in(2) { 0 } else { signed(rng, ONE) },
        },
    }
}

/// A way of the same length.
fn around(rng: &mut Rng, (x, y): Way) -> Way {
    match rng.below(4) {
        0 => (y, x),
        1 => (-x, y),
        2 => (x, -y),
        _ => (-y, x),
    }
}

fn half(center: Spot, way: Way, rng: &mut Rng) -> Piece {
    Piece {
        from: to(center, way, 1),
        to: to(center, way, -1),
        n: ONE * sign(rng) as i64,
    }
}

fn line(from: Spot, to: Spot) -> Piece {
    Piece { from, to, n: 0 }
}

fn to(p: Spot, way: Way, times: i64) -> Spot {
    Spot {
        x: p.x + way.0 * times,
        y: p.y + way.1 * times,
    }
}
