//! Numbers of a pair beside the limits of what is accepted, which the pair call tests by comparisons alone. Beyond a limit they
//! are refused; beyond the limit of a line's bulge the chord is refused, if it is too short for an arc.
//!
//! A NaN or an infinity has no neighbours to search for: `crossing/limits.rs` puts them in each place.

use super::{Beside, Edge, Way};
use crate::crossing::calls::CALLS;
use crate::crossing::faults::two_to;
use crate::crossing::PAIRS;
use crate::inputs::shapes::near;
use crate::inputs::values::{
    line_bulge, BULGE_LIMIT, COORDINATE_LIMIT, LARGEST_EPSILON, LINE_LIMIT, SMALLEST,
};
use crate::inputs::{Kind, Pair, Point};
use crate::rng::Rng;

/// The places of a pair's numbers. The bulges of the second vertices have no effect.
const COORDINATES: [(&str, usize); 8] = [
    ("v1's x", 0),
    ("v1's y", 1),
    ("v2's x", 3),
    ("v2's y", 4),
    ("u1's x", 6),
    ("u1's y", 7),
    ("u2's x", 9),
    ("u2's y", 10),
];
const BULGES: [(&str, usize); 2] = [("v1's bulge", 2), ("u1's bulge", 8)];
const EPSILON: usize = 12;

pub fn edges() -> Vec<Edge> {
    let coordinates = COORDINATES.map(|(name, place)| {
        let name = format!("|{name}| at 2^20");
        edge(name, place, COORDINATE_LIMIT, any)
    });
    let bulges = BULGES.map(|(name, place)| {
        let name = format!("|{name}| at 1");
        edge(name, place, BULGE_LIMIT, any)
    });
    let lines = BULGES.map(|(name, place)| {
        let name = format!("|{name}| at 1e-8, its chord mostly too short for an arc");
        edge(name, place, LINE_LIMIT, with_short_chords)
    });
    let epsilons = [("2^-40", SMALLEST), ("1/2", LARGEST_EPSILON)];
    let epsilons = epsilons.map(|(name, limit)| {
        let name = format!("epsilon at {name}, any pair");
        edge(name, EPSILON, limit, any)
    });
    coordinates
        .into_iter()
        .chain(bulges)
        .chain(lines)
        .chain(epsilons)
        .collect()
}

/// A pair with the number at this place beside a limit, with either sign; epsilon has no sign.
fn edge(name: String, place: usize, limit: f64, pair: fn(&mut Rng) -> Pair) -> Edge {
    let draw = move |rng: &mut Rng| {
        let pair = pair(rng);
        let sign = if place == EPSILON { 1.0 } else { rng.sign() };
        let numbers = (CALLS[PAIRS].operands)(&pair, rng).with(place, sign * limit);
        Way::in_parts(numbers, place, 1.0 / 1024.0)
    };
    Edge::new(name, draw, move |n| Beside::new(n[place].abs(), limit))
        .refusing()
        .of_pairs_only()
}

fn any(rng: &mut Rng) -> Pair {
    Pair::draw(Kind::Accepted, rng)
}

/// Both chords are too short for an arc, one is, or none.
fn with_short_chords(rng: &mut Rng) -> Pair {
    let mut pair = any(rng);
    for segment in [&mut pair.v, &mut pair.u] {
        if rng.one_in(4) {
            continue;
        }
        let short = rng.pick(&[0.0, two_to(-42), two_to(-41)]);
        segment.from.at = near(Point::default(), rng.pick(&[0.0, SMALLEST]), rng);
        segment.to.at = near(segment.from.at, short, rng);
        // else the other one's chord would be refused too
        segment.from.bulge = line_bulge(rng);
    }
    pair
}
