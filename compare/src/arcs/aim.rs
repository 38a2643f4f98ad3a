//! Places one segment beside another: a given point of it at a given distance, and its direction at a given angle.

use super::distance::{size, Shape};
use super::draw::parts::{bent, signed, spread};
use super::draw::FAR;
use super::piece::{Piece, ONE};
use crate::rng::Rng;
use crate::search::plane::Spot;

pub struct Aim {
    /// The first segment's radius, 0 for a line.
    pub radius: f64,
    /// The second segment's chord and bulge, not below 0.
    pub chord: (i64, i64),
    pub n: i64,
    /// Where on the second segment: -1 is its start, 1 its end.
    pub along: f64,
    /// The tangent of half the angle by which the second one's direction turns from the first one's there.
    pub turn: f64,
    /// The first runs the other way.
    pub backward: bool,
    /// How far the second one's place should lie beyond the first segment, along its own direction: below 0 is before it.
    pub beyond: (f64, f64),
    /// Where on the first segment, from -1 to 1.
    pub place: f64,
}

/// Steps along the first segment that are tried for a grid place that fits.
const STEPS: i64 = 256;

type Way = (f64, f64);

/// The way turned left by twice the angle whose tangent is s.
fn turned((x, y): Way, s: f64) -> Way {
    let (cos, sin) = ((1.0 - s * s) / (1.0 + s * s), 2.0 * s / (1.0 + s * s));
    (x * cos - y * sin, x * sin + y * cos)
}

/// The place on an arc at which its way is the chord's, turned by twice the angle whose tangent is `along` times the bulge: as
/// seen from the start, and its way there.
pub fn at(chord: Way, bulge: f64, along: f64) -> (Way, Way) {
    let length = size(chord);
    let (x, y) = (chord.0 / length, chord.1 / length);
    let part = (1.0 + bulge * bulge) / (2.0 * (1.0 + along * along * bulge * bulge));
    let ahead = length * (0.5 + along * part);
    let right = length * bulge * (0.5 - along * along * part);
    let place = (x * ahead + y * right, y * ahead - x * right);
    (place, turned((x, y), along * bulge))
}

pub fn aimed(rng: &mut Rng, aim: &Aim) -> Option<(Piece, Piece)> {
    let float = |(x, y): (i64, i64)| (x as f64, y as f64);
    if aim.chord == (0, 0) {
        return None;
    }
    let (offset, way) = at(float(aim.chord), aim.n as f64 / ONE as f64, aim.along);
    let first = laid(rng, aim, turned(way, -aim.turn))?;
    let shape = Shape::of(first);
    let (x, y) = (first.to.x - first.from.x, first.to.y - first.from.y);
    let (place, ahead) = at(float((x, y)), shape.bulge, aim.place);
    // beyond is on the left if the second one turns left; before its start it is the other way round
    let side = if (aim.turn < 0.0) != aim.backward {
        -1.0
    } else {
        1.0
    };
    let side = if aim.along < 0.0 { -side } else { side };
    let (low, high) = (side * aim.beyond.0, side * aim.beyond.1);
    let (middle, width) = ((low + high) / 2.0, (high - low).abs() / 2.0);
    let normal = (-ahead.1, ahead.0);
    let base = (
        (first.from.x as f64 + place.0 - offset.0 + normal.0 * middle).round(),
        (first.from.y as f64 + place.1 - offset.1 + normal.1 * middle).round(),
    );
    let left = |p: Way| {
        if shape.is_line() {
            shape.off(p)
        } else {
            -shape.off(p)
        }
    };
    let now = left((base.0 + offset.0, base.1 + offset.1));
    let (dx, dy) = stepped(rng, now, middle, width, ahead, shape.radius);
    let from = Spot {
        x: base.0 as i64 + dx,
        y: base.1 as i64 + dy,
    };
    let to = Spot {
        x: from.x + aim.chord.0,
        y: from.y + aim.chord.1,
    };
    let second = Piece { from, to, n: aim.n };
    Some((first, second))
}

/// The first segment, somewhere on the grid: its way at the aim's place is about this one.
fn laid(rng: &mut Rng, aim: &Aim, way: Way) -> Option<Piece> {
    let (length, n) = if aim.radius == 0.0 {
        (spread(rng, 1.0, 2.0 * FAR as f64), 0)
    } else {
        bent(rng, aim.radius)
    };
    let way = if aim.backward { (-way.0, -way.1) } else { way };
    let (x, y) = turned(way, -aim.place * n as f64 / ONE as f64);
    let (dx, dy) = ((x * length).round() as i64, (y * length).round() as i64);
    let start = |d: i64, rng: &mut Rng| {
        let room = 2 * FAR - d.abs();
        (room >= 0).then(|| rng.below(room as u64 + 1) as i64 - FAR - d.min(0))
    };
    let from = Spot {
        x: start(dx, rng)?,
        y: start(dy, rng)?,
    };
    let to = Spot {
        x: from.x + dx,
        y: from.y + dy,
    };
    ((dx, dy) != (0, 0)).then_some(Piece { from, to, n })
}

/// A few steps aside and along, so that the distance is nearest to the wanted one, or within the width of it.
fn stepped(
    rng: &mut Rng,
    now: f64,
    wanted: f64,
    width: f64,
    ahead: Way,
    radius: f64,
) -> (i64, i64) {
    let normal = (-ahead.1, ahead.0);
    let bend = if radius == 0.0 { 0.0 } else { 0.5 / radius };
    let most = if radius == 0.0 {
        STEPS
    } else {
        (radius.sqrt() as i64).min(STEPS)
    };
    let steep = normal.0.abs() > normal.1.abs();
    // along the axis nearer to the way, and across it
    let (by_step, across) = if steep {
        (normal.1, normal.0)
    } else {
        (normal.0, normal.1)
    };
    let (step_ahead, across_ahead) = if steep {
        (ahead.1, ahead.0)
    } else {
        (ahead.0, ahead.1)
    };
    let mut best = (f64::INFINITY, 0, 0);
    let start = signed(rng, most.max(1));
    for i in 0..2 * most.max(1) {
        let step = if start + i > most {
            start + i - 2 * most
        } else {
            start + i
        };
        let s = step as f64;
        // this far along, the arc has bent to the left
        let along = s / step_ahead;
        let aside = ((wanted - now - s * by_step + bend * along * along) / across).round();
        let along = s * step_ahead + aside * across_ahead;
        let off = (now + s * by_step + aside * across - bend * along * along - wanted).abs();
        if off < best.0 {
            best = (off, step, aside as i64);
            if off <= width {
                break;
            }
        }
    }
    if steep {
        (best.2, best.1)
    } else {
        (best.1, best.2)
    }
}
