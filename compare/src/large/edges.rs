//! Segments at the limits of this mode: cut points at 1,048,576 and one float beyond, chords whose halves are as short as an
//! arc's may be; and layouts with such a segment at each place of a path.

use super::cut::{Segment, MOST_BULGE, RULE};
use super::draw::large_bulge;
use super::faults::of_segment;
use crate::crossing::faults::{chord, two_to};
use crate::inputs::values::{epsilon, whole, COORDINATE_LIMIT};
use crate::listings::layout::{Drawn, Layout};
use crate::rng::Rng;

/// The same mirrored, so that it is below 0; and turned, so that y is x.
fn turned([x1, y1, b, x2, y2]: Segment, axis: usize, negative: bool) -> Segment {
    let [x1, b, x2] = if negative {
        [-x1, -b, -x2]
    } else {
        [x1, b, x2]
    };
    match axis {
        0 => [x1, y1, b, x2, y2],
        _ => [y1, x1, -b, y2, x2],
    }
}

/// A large arc whose cut point has this coordinate at the limit, or one float beyond. All else is accepted.
pub fn cut_at(axis: usize, negative: bool, beyond: bool, rng: &mut Rng) -> Segment {
    let target = if beyond {
        COORDINATE_LIMIT.next_up()
    } else {
        COORDINATE_LIMIT
    };
    loop {
        let b = large_bulge(rng).abs();
        let (x, up) = (rng.between(0.0, 8.0), rng.between(0.01, 1000.0));
        let y = whole(rng, 1000) / 8.0;
        let mut s = [COORDINATE_LIMIT - x, y, b, COORDINATE_LIMIT - x, y + up];
        if rng.one_in(2) {
            s[3] -= rng.between(0.0, 0.5);
        }
        for _ in 0..8 {
            let by = target - (RULE.point)(s)[0];
            s[0] += by;
            s[3] += by;
        }
        let within = s.iter().all(|x| x.abs() <= COORDINATE_LIMIT);
        let is = (RULE.point)(s)[0] == target;
        let faults = of_segment(&RULE, s, 0, 0).len();
        if within && is && faults == usize::from(beyond) {
            return turned(s, axis, negative);
        }
    }
}

/// Both coordinates of the cut point beyond the limit.
pub fn beyond_both(negative: [bool; 2]) -> Segment {
    let [x, y] = negative.map(|negative| if negative { -1.0 } else { 1.0 });
    let limit = COORDINATE_LIMIT;
    // mirrored an odd number of times the arc bends the other way
    [
        x * limit,
        y * (limit - 6.0),
        x * y * 4.0,
        x * (limit - 6.0),
        y * limit,
    ]
}

/// A chord with its bulge, along an axis or not, from the origin: the request's own, and others as short as they may be, and the
/// next shorter ones.
pub fn tiny(rng: &mut Rng) -> Vec<Segment> {
    let mut all = Vec::new();
    let ways = [(1.0, 0.0), (0.0, 1.0), (-1.0, 0.0), (0.0, -1.0)];
    for sign in [1.0, -1.0] {
        for (long, b) in [
            (two_to(-40), 1.0),
            (two_to(-40), 1f64.next_up()),
            (two_to(-40), 1f64.next_down()),
            (two_to(-40).next_down(), 1.0),
            (two_to(-39), 1f64.next_up()),
            (two_to(-43), MOST_BULGE),
            (two_to(-44), MOST_BULGE),
            (0.0, MOST_BULGE),
            (0.0, 2.0),
        ] {
            all.extend(ways.map(|(x, y)| [0.0, 0.0, sign * b, x * long, y * long]));
        }
    }
    for _ in 0..24 {
        let (b, way) = (large_bulge(rng), rng.pick(&ways));
        let least = least_chord(b, way);
        for long in [least, least.next_down(), least.next_up()] {
            all.push([0.0, 0.0, b, way.0 * long, way.1 * long]);
        }
    }
    all
}

/// The shortest chord in this direction of which neither half is too short.
fn least_chord(b: f64, (x, y): (f64, f64)) -> f64 {
    let fine = |long: f64| of_segment(&RULE, [0.0, 0.0, b, x * long, y * long], 0, 0).is_empty();
    let (mut below, mut from) = (two_to(-50).to_bits(), two_to(-38).to_bits());
    while from - below > 1 {
        let middle = (below + from) / 2;
        if fine(f64::from_bits(middle)) {
            from = middle;
        } else {
            below = middle;
        }
    }
    f64::from_bits(from)
}

/// An arc of which one half is too short and the other is not, by rounding: the first or the second.
pub fn one_half_short(second: bool, rng: &mut Rng) -> Segment {
    loop {
        let b = large_bulge(rng);
        let near = |x: f64, rng: &mut Rng| x + whole(rng, 1 << 12) * two_to(-52);
        let (x, y) = (near(1.0, rng), near(0.75, rng));
        let long = 2.0 * two_to(-40) / (1.0 + b * b).sqrt();
        let t = rng.between(-1.0, 1.0);
        let (dx, dy) = ((1.0 - t * t) / (1.0 + t * t), 2.0 * t / (1.0 + t * t));
        let s = [x, y, b, x + long * dx, y + long * dy];
        let parts = RULE.parts(s);
        let short = [0, 1].map(|at: usize| chord(&parts[at].0, 0, 0).is_some());
        if short == [!second, second] {
            return s;
        }
    }
}

/// A path with this segment at a place: first, inner, last and closing. The other segments are lines.
pub fn in_paths([x1, y1, b, x2, y2]: Segment) -> Vec<Drawn> {
    let (from, to) = ([x1, y1, b], [x2, y2, 0.0]);
    let other = [x1 / 2.0, y1 / 2.0 + 1.0, 0.0];
    let next = [x2 / 2.0, y2 / 2.0 - 1.0, 0.0];
    let paths = [
        (vec![from, to, other], false),
        (vec![from, to, other], true),
        (vec![other, from, to, next], false),
        (vec![other, from, to, next], true),
        (vec![other, from, to], false),
        (vec![to, other, from], true),
        (vec![from, to], false),
    ];
    paths
        .into_iter()
        .map(|(path, closed)| Drawn::of(path, closed))
        .collect()
}

/// Layouts with a segment at each place of the first path and of the second.
pub fn layouts(segment: Segment, rng: &mut Rng) -> Vec<Layout> {
    let mut all = Vec::new();
    for drawn in in_paths(segment) {
        let other = Drawn::of([[0.0, 0.0, 2.0], [1.0, 0.0, 0.0]], rng.one_in(2));
        let epsilon = epsilon(rng);
        let layout = |first: &Drawn, second: &Drawn| Layout {
            first: first.clone(),
            second: second.clone(),
            epsilon,
        };
        all.extend([layout(&drawn, &other), layout(&other, &drawn)]);
    }
    all
}

/// Every segment at a limit.
pub fn segments(rng: &mut Rng) -> Vec<Segment> {
    let mut all = Vec::new();
    for axis in 0..2 {
        for negative in [false, true] {
            for beyond in [false, true] {
                all.extend([0; 3].map(|_| cut_at(axis, negative, beyond, rng)));
            }
        }
    }
    for negative in [[false, false], [false, true], [true, false], [true, true]] {
        all.push(beyond_both(negative));
    }
    all.extend(tiny(rng));
    for second in [false, true] {
        all.extend([0; 4].map(|_| one_half_short(second, rng)));
    }
    for sign in [1.0, -1.0] {
        let limits = [1.0, MOST_BULGE].map(|b: f64| [b.next_down(), b, b.next_up()]);
        for b in limits.concat() {
            all.push([1.0, 2.0, sign * b, 3.0, 2.5]);
        }
    }
    all
}

#[cfg(test)]
mod tests {
    use super::*;
    use crate::crossing::faults::Item;

    fn first_item(segment: Segment) -> Option<Item> {
        let faults = of_segment(&RULE, segment, 0, 0);
        faults.first().map(|fault| fault.place.item)
    }

    #[test]
    fn cut_points_are_at_their_limits() {
        let mut rng = Rng::new(5);
        for axis in 0..2 {
            for negative in [false, true] {
                for beyond in [false, true] {
                    let s = cut_at(axis, negative, beyond, &mut rng);
                    let coordinate = (RULE.point)(s)[axis];
                    let limit = if beyond {
                        COORDINATE_LIMIT.next_up()
                    } else {
                        COORDINATE_LIMIT
                    };
                    assert_eq!(coordinate.abs(), limit);
                    assert_eq!(coordinate < 0.0, negative);
                    let item = [Item::CutX, Item::CutY][axis];
                    assert_eq!(first_item(s), beyond.then_some(item));
                }
            }
        }
    }

    #[test]
    fn both_coordinates_beyond() {
        for negative in [[false, false], [false, true], [true, false], [true, true]] {
            let s = beyond_both(negative);
            assert_eq!(of_segment(&RULE, s, 0, 0).len(), 2, "{negative:?}");
            let point = (RULE.point)(s);
            assert_eq!(point.map(|x| x < 0.0), negative);
        }
    }
}
