//! Boxes and groups as in the request's words, each number by the float operations that it names.

use cavalier_contours::polyline::PlineVertex;

use crate::listings::model::Path;

/// Least x, least y, greatest x, greatest y.
pub type Bounds = [f64; 4];

/// So many consecutive segments are a group, of which the last may have fewer.
pub const A_GROUP: usize = 16;

/// From this magnitude on a bulge is an arc's.
const ARC: f64 = 1e-8;

/// The boxes of a path: one for each segment, and one for each group of them.
#[derive(Default)]
pub struct Boxes {
    pub segments: Vec<Bounds>,
    pub groups: Vec<Bounds>,
}

impl Boxes {
    pub fn of(path: Path, epsilon: f64) -> Boxes {
        let mut boxes = Boxes::default();
        for i in 0..path.segments() {
            let (from, to) = path.segment(i);
            boxes
                .segments
                .push(bounds(from, to, margin(from, to, epsilon)));
        }
        for members in boxes.segments.chunks(A_GROUP) {
            boxes.groups.push(of_group(members));
        }
        boxes
    }

    /// The path's part of the index.
    pub fn floats(&self) -> impl Iterator<Item = f64> + '_ {
        self.segments.iter().chain(&self.groups).flatten().copied()
    }
}

/// How many floats the index has for a path of so many segments.
pub fn floats_needed(segments: usize) -> usize {
    4 * (segments + segments.div_ceil(A_GROUP))
}

pub fn is_arc(from: PlineVertex) -> bool {
    from.bulge.abs() >= ARC
}

/// By how much a segment's box is moved outward.
pub fn margin(from: PlineVertex, to: PlineVertex, epsilon: f64) -> f64 {
    if !is_arc(from) {
        return epsilon;
    }
    let (dx, dy) = (to.x - from.x, to.y - from.y);
    let chord = (dx * dx + dy * dy).sqrt();
    chord + epsilon
}

/// From the smaller to the larger end coordinate, moved outward.
pub fn bounds(from: PlineVertex, to: PlineVertex, margin: f64) -> Bounds {
    let smaller = |a: f64, b: f64| if a < b { a } else { b };
    let larger = |a: f64, b: f64| if b < a { a } else { b };
    [
        smaller(from.x, to.x) - margin,
        smaller(from.y, to.y) - margin,
        larger(from.x, to.x) + margin,
        larger(from.y, to.y) + margin,
    ]
}

/// The least and the greatest of the members' numbers.
fn of_group(members: &[Bounds]) -> Bounds {
    let mut all = members[0];
    for member in members {
        for side in 0..2 {
            if member[side] < all[side] {
                all[side] = member[side];
            }
        }
        for side in 2..4 {
            if member[side] > all[side] {
                all[side] = member[side];
            }
        }
    }
    all
}

/// Whether each one's least is at most the other's greatest, in x and in y.
pub fn meet(a: &Bounds, b: &Bounds) -> bool {
    a[0] <= b[2] && b[0] <= a[2] && a[1] <= b[3] && b[1] <= a[3]
}
