//! What is refused in this mode, where, and in which order: the bulge's limit is 16, and each cut arc's cut point and halves are
//! looked at where its chord is in the other mode. All else is that of listings and of the pair call.

use super::cut::{segment, Rule, Segment, MOST_BULGE};
use crate::crossing::faults::{chord, Fault, Item, Place};
use crate::inputs::values::COORDINATE_LIMIT;
use crate::listings::model::{shape, Listed, Path};
use crate::listings::sites::OF_A_VERTEX;
use crate::vertex::VERTEX;

/// The fault of a number, if it is refused.
pub fn of_number(place: Place, x: f64) -> Option<Fault> {
    match place.item {
        Item::Bulge if x.abs() <= MOST_BULGE => None,
        // NaN, infinite, or else 3: 16 is above 1
        _ => Fault::of(place, x),
    }
}

/// What is at fault in a segment, in order: of a cut arc its point's x and y, then each half's chord; else its chord.
pub fn of_segment(rule: &Rule, segment: Segment, owner: usize, index: usize) -> Vec<Fault> {
    let parts = rule.parts(segment);
    let mut all = Vec::new();
    if let [([.., x, y], _), _] = parts[..] {
        for (item, coordinate) in [(Item::CutX, x), (Item::CutY, y)] {
            if coordinate.abs() > COORDINATE_LIMIT {
                all.push(Fault::new(2, Place::new(item, owner, index)));
            }
        }
    }
    for (part, _) in parts {
        all.extend(chord(&part, owner, index));
    }
    all
}

/// The faults of a listing in order. Too little room comes after these.
pub fn of_listed<'a>(
    rule: &'a Rule,
    listed: Listed<'a>,
    epsilon: f64,
) -> impl Iterator<Item = Fault> + 'a {
    let each = move || listed.paths().into_iter().enumerate();
    let shapes = each().filter_map(|(at, path)| shape(path, at));
    let insides = each().flat_map(move |(at, path)| numbers(path, at).chain(arcs(rule, path, at)));
    Fault::of(Place::EPSILON, epsilon)
        .into_iter()
        .chain(shapes)
        .chain(insides)
}

/// Every vertex in order, each x, y, bulge, trace.
pub fn numbers(path: Path<'_>, at: usize) -> impl Iterator<Item = Fault> + '_ {
    path.numbers.iter().enumerate().filter_map(move |(i, x)| {
        of_number(Place::new(OF_A_VERTEX[i % VERTEX], at, i / VERTEX), *x)
    })
}

/// Every segment in order.
pub fn arcs<'a>(rule: &'a Rule, path: Path<'a>, at: usize) -> impl Iterator<Item = Fault> + 'a {
    (0..path.segments()).flat_map(move |i| of_segment(rule, segment(path, i), at, i))
}

/// Where the numbers of a pair stand: four vertices, each x, y and bulge, and epsilon, in the order of their checks.
pub const OF_A_PAIR: [(usize, Place); 11] = [
    (12, Place::EPSILON),
    (0, Place::new(Item::X, 0, 0)),
    (1, Place::new(Item::Y, 0, 0)),
    (2, Place::new(Item::Bulge, 0, 0)),
    (3, Place::new(Item::X, 0, 1)),
    (4, Place::new(Item::Y, 0, 1)),
    (6, Place::new(Item::X, 1, 0)),
    (7, Place::new(Item::Y, 1, 0)),
    (8, Place::new(Item::Bulge, 1, 0)),
    (9, Place::new(Item::X, 1, 1)),
    (10, Place::new(Item::Y, 1, 1)),
];

/// The faults of a pair call in order.
pub fn of_pair<'a>(rule: &'a Rule, numbers: &'a [f64; 13]) -> impl Iterator<Item = Fault> + 'a {
    let each = OF_A_PAIR
        .iter()
        .filter_map(|(at, place)| of_number(*place, numbers[*at]));
    let arcs = [0, 1]
        .into_iter()
        .flat_map(|owner| of_segment(rule, segment_of(numbers, owner), owner, 0));
    each.chain(arcs)
}

/// The segment v or u of a pair.
pub fn segment_of(n: &[f64; 13], owner: usize) -> Segment {
    let at = 6 * owner;
    [n[at], n[at + 1], n[at + 2], n[at + 3], n[at + 4]]
}

#[cfg(test)]
mod tests {
    use super::super::cut::RULE;
    use super::*;
    use crate::crossing::faults::two_to;

    fn words(segment: Segment) -> Vec<u64> {
        let faults = of_segment(&RULE, segment, 1, 7);
        faults.into_iter().map(Fault::word).collect()
    }

    #[test]
    fn bulges() {
        let place = Place::new(Item::Bulge, 0, 3);
        let number = |x: f64| of_number(place, x).map(|fault| fault.number);
        for x in [0.0, 1.0, -1.0, 1f64.next_up(), 16.0, -16.0] {
            assert_eq!(number(x), None, "{x}");
        }
        for x in [16f64.next_up(), -(16f64.next_up()), f64::MAX, f64::MIN] {
            assert_eq!(number(x), Some(3), "{x}");
        }
        assert_eq!(number(f64::NAN), Some(11));
        assert_eq!(number(f64::NEG_INFINITY), Some(12));
    }

    /// Words written out: 17 is the cut point's x, 18 its y, and the index is the old segment.
    #[test]
    fn cut_points() {
        let limit = COORDINATE_LIMIT;
        let right = |y2: f64, b: f64| [limit - 6.0, 0.0, b, limit - 6.0, y2];
        assert!(words(right(6.0, 2.0)).is_empty());
        let beyond = 6.0 + two_to(-32);
        assert_eq!(words(right(beyond, 2.0)), [0x7_0111_0102]);
        assert!(words(right(beyond, -2.0)).is_empty());
        let above = |x2: f64, b: f64| [0.0, 6.0 - limit, b, x2, 6.0 - limit];
        assert!(words(above(6.0, 2.0)).is_empty());
        assert_eq!(words(above(beyond, 2.0)), [0x7_0112_0102]);
        // both
        let corner = [limit - 6.0, limit, 4.0, limit, limit - 6.0];
        assert!(words(corner).is_empty());
        let corner = [limit, limit - 6.0, -4.0, limit - 6.0, limit];
        assert!(words(corner).is_empty());
        let corner = [limit, limit - 6.0, 4.0, limit - 6.0, limit];
        assert_eq!(words(corner), [0x7_0111_0102, 0x7_0112_0102]);
    }

    /// The request's chords: 2^-40 passes at 1 and fails just above, 2^-43 passes at 16.
    #[test]
    fn chords() {
        let along = |x2: f64, b: f64| [0.0, 0.0, b, x2, 0.0];
        assert!(words(along(two_to(-40), 1.0)).is_empty());
        assert_eq!(
            words(along(two_to(-40), 1f64.next_up())),
            [0x7_0107_0105; 2]
        );
        assert!(words(along(two_to(-43), 16.0)).is_empty());
        assert!(words(along(two_to(-43), -16.0)).is_empty());
        assert_eq!(words(along(0.0, 4.0)), [0x7_0107_0105; 2]);
        assert!(words(along(0.0, 0.0)).is_empty());
        assert_eq!(words(along(0.0, 0.5)), [0x7_0107_0105]);
    }
}
