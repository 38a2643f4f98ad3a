//! Arcs whose chord is as short as an arc's may be: 2^-40, or 2^-80 by its dot product with itself, which the quick test
//! compares. Below that they are refused.

use cavalier_contours::core::math::Vector2;

use super::{Beside, Edge, Way};
use crate::crossing::calls::{at, CALLS};
use crate::crossing::faults::two_to;
use crate::crossing::PAIRS;
use crate::inputs::shapes::{near, unit};
use crate::inputs::values::arc_bulge;
use crate::inputs::{Kind, Pair, Point};
use crate::rng::Rng;

pub fn edges() -> Vec<Edge> {
    let chord = |which: usize, n: &[f64]| -> Vector2 { at(n, 6 * which + 3) - at(n, 6 * which) };
    let of = |(which, name): (usize, &str)| {
        Edge::new(
            format!("self dot of the {name} arc's chord at 2^-80"),
            move |rng| short(which, rng),
            move |n| Beside::new(chord(which, n).length_squared(), two_to(-80)),
        )
        .and("its length at 2^-40", move |n| {
            Beside::new(chord(which, n).length(), two_to(-40))
        })
        .refusing()
        .of_pairs_only()
    };
    ["first", "second"]
        .into_iter()
        .enumerate()
        .map(of)
        .collect()
}

/// A pair with a chord of 2^-40 near the origin, where floats are fine enough for it. The other segment is any accepted one, or a
/// near one.
fn short(which: usize, rng: &mut Rng) -> Way {
    let mut pair = Pair::draw(Kind::Accepted, rng);
    let shortest = two_to(-40);
    let from = near(Point::default(), rng.pick(&[0.0, 1.0, 4.0]) * shortest, rng);
    let (segment, other) = if which == 0 {
        (&mut pair.v, &mut pair.u)
    } else {
        (&mut pair.u, &mut pair.v)
    };
    segment.from.at = from;
    segment.to.at = from.along(unit(rng), shortest);
    segment.from.bulge = arc_bulge(rng);
    if rng.one_in(2) {
        other.from.at = near(from, shortest, rng);
    }
    let numbers = (CALLS[PAIRS].operands)(&pair, rng);
    let place = 6 * which + rng.pick(&[0, 1, 3, 4]);
    Way::new(numbers, place, shortest / 8.0)
}
