//! Paths with arcs at each limit of the mode of large arcs, and what is seen of the arcs of a path.

use super::draw::{Vertex, MILLION};
use super::model::{self, Fault, Item, Mode, Segment, COORDINATE, SHORTEST};
use crate::rng::Rng;
use crate::vertex::VERTEX;

/// Whether a fault is that of a segment.
pub fn is_of_a_segment(fault: Fault) -> bool {
    [Item::Chord, Item::CutX, Item::CutY].contains(&fault.item)
}

/// The segment at fault, if the fault is that of one.
pub fn at_fault(path: &[f64], closed: bool, fault: Fault) -> Option<Segment> {
    let index = fault.index as usize;
    let segments = model::segments(path, closed);
    segments
        .get(index)
        .copied()
        .filter(|_| is_of_a_segment(fault))
}

/// How many arcs are cut.
pub fn large(path: &[f64], closed: bool) -> usize {
    let segments = model::segments(path, closed);
    segments.into_iter().filter_map(model::cut_point).count()
}

/// The vertices in millionths, if each number has six digits.
pub fn spelt(path: &[f64]) -> Option<Vec<Vertex>> {
    let vertex = |v: &[f64]| {
        let numbers = [v[0], v[1], v[2]];
        let all = numbers.iter().all(|x| model::spelt(*x).is_some());
        all.then(|| Vertex {
            numbers: numbers.map(|x| (x * MILLION as f64).round() as i64),
            bulge: true,
        })
    };
    path.chunks_exact(VERTEX).map(vertex).collect()
}

/// Each chosen arc, as the first segment of a path, an inner one, the last one and the closing one, beside lines; and two of
/// them, one after the other, in either order.
pub fn chosen(rng: &mut Rng) -> Vec<Vec<f64>> {
    let all = segments(rng);
    let mut paths = Vec::new();
    for [x1, y1, b, x2, y2] in all.iter().copied() {
        let (from, to) = ([x1, y1, b], [x2, y2, 0.0]);
        let (other, next) = ([1.0, 2.0, 0.0], [3.0, -1.0, 0.0]);
        paths.extend([
            vec![from, to],
            vec![from, to, other],
            vec![other, from, to],
            vec![other, from, to, next],
            vec![to, other, from],
            // a bulge that starts no segment, if the path is open
            vec![to, from],
            vec![from],
        ]);
    }
    for _ in 0..4 * all.len() {
        let [s, t] = [0; 2].map(|_| rng.pick(&all));
        let ends = |[x1, y1, b, x2, y2]: Segment| [[x1, y1, b], [x2, y2, 0.0]];
        paths.push([ends(s), ends(t)].concat());
    }
    let numbers = |path: Vec<[f64; 3]>| {
        let vertices = path.into_iter();
        vertices.flat_map(|[x, y, b]| [x, y, b, 0.0]).collect()
    };
    paths.into_iter().map(numbers).collect()
}

fn segments(rng: &mut Rng) -> Vec<Segment> {
    let mut all = about_the_sheet();
    all.extend(about_the_bulges());
    all.extend(tiny());
    for second in [false, true] {
        all.extend([0; 4].map(|_| one_half_short(second, rng)));
    }
    all
}

/// Cut at the limit of x or of y, of either sign, and beside it by some floats and by some millionths; and beyond both.
fn about_the_sheet() -> Vec<Segment> {
    let mut all = Vec::new();
    for sign in [1.0, -1.0] {
        for (rise, half_chord) in [(4.0, 1.0), (16.0, 1.0), (3.0, 2.0)] {
            let far = COORDINATE - rise;
            let floats = [
                far.next_down(),
                far.next_up(),
                far.next_up().next_up(),
                far.next_up().next_up().next_up(),
            ];
            let millionths = [-1.0, 0.0, 1.0, 2.0].map(|m| ((far * 1e6) + m) / 1e6);
            for far in floats.into_iter().chain(millionths) {
                let (far, b) = (sign * far, sign * rise / half_chord);
                all.push([far, -half_chord, b, far, half_chord]);
                all.push([-half_chord, far, -b, half_chord, far]);
            }
        }
        for other in [1.0, -1.0] {
            let (near, far) = (COORDINATE - 6.0, COORDINATE);
            let b = sign * other * 4.0;
            all.push([sign * far, other * near, b, sign * near, other * far]);
        }
    }
    all
}

/// Bulges of 1 and of 16 with those beside them, on a long chord along the edge of the sheet: of a half circle and of none.
fn about_the_bulges() -> Vec<Segment> {
    let mut all = Vec::new();
    let limits = [1.0, Mode::Large.bulge()];
    let bulges = limits.map(|b: f64| [b - 1e-6, b.next_down(), b, b.next_up(), b + 1e-6, b + 1.0]);
    for b in bulges.concat() {
        for b in [b, -b] {
            all.push([1.0, 2.0, b, 3.0, 2.5]);
            // the highest point is outside: refused exactly if the arc is cut
            all.push([-1000.0, COORDINATE - 1.0, b, 1000.0, COORDINATE - 1.0]);
            all.push([-1000.0, 1.0 - COORDINATE, b, 1000.0, 1.0 - COORDINATE]);
        }
    }
    all
}

/// Chords of no length and of about the least one.
fn tiny() -> Vec<Segment> {
    let mut all = Vec::new();
    let limit = Mode::Large.bulge();
    for (long, b) in [
        (SHORTEST, 1.0),
        (SHORTEST, 1f64.next_up()),
        (SHORTEST.next_down(), 1.0),
        (2.0 * SHORTEST, 1f64.next_up()),
        (SHORTEST / 8.0, limit),
        (SHORTEST / 16.0, limit),
        (1e-6, 1.0),
        (1e-6, 1.000_001),
        (1e-6, limit),
        (0.0, limit),
        (0.0, 2.0),
        (0.0, 1.0),
        (0.0, 1e-6),
        (0.0, 0.0),
    ] {
        for b in [b, -b] {
            for [x, y] in [[long, 0.0], [0.0, -long]] {
                all.push([0.0, 0.0, b, x, y]);
                all.push([5.0, 7.0, b, 5.0 + x, 7.0 + y]);
            }
        }
    }
    all
}

/// An arc of which one half is too short and the other is not, by rounding.
fn one_half_short(second: bool, rng: &mut Rng) -> Segment {
    loop {
        let b = 1.0 + rng.below(1 << 20) as f64 / 65_536.0;
        let b = if b > Mode::Large.bulge() { 2.0 } else { b };
        let b = if rng.one_in(2) { b } else { -b };
        let near = |x: f64, rng: &mut Rng| x + rng.below(1 << 12) as f64 * f64::EPSILON;
        let (x, y) = (near(1.0, rng), near(0.75, rng));
        let long = 2.0 * SHORTEST / (1.0 + b * b).sqrt();
        let t = rng.below(1 << 20) as f64 / (1 << 19) as f64 - 1.0;
        let (dx, dy) = ((1.0 - t * t) / (1.0 + t * t), 2.0 * t / (1.0 + t * t));
        let segment = [x, y, b, x + long * dx, y + long * dy];
        if model::short(segment) == [!second, second] {
            return segment;
        }
    }
}

#[cfg(test)]
mod tests {
    use super::*;

    /// By hand: a chord of 2 along x, a bulge of 4. The arc rises four half chords to the right.
    #[test]
    fn where_an_arc_is_cut() {
        assert_eq!(
            model::cut_point([1.0, 5.0, 4.0, 3.0, 5.0]),
            Some([2.0, 1.0])
        );
        assert_eq!(
            model::cut_point([1.0, 5.0, -4.0, 3.0, 5.0]),
            Some([2.0, 9.0])
        );
        assert_eq!(
            model::cut_point([5.0, 1.0, 4.0, 5.0, 3.0]),
            Some([9.0, 2.0])
        );
        assert_eq!(
            model::cut_point([5.0, 1.0, -4.0, 5.0, 3.0]),
            Some([1.0, 2.0])
        );
        for b in [0.0, 1.0, -1.0] {
            assert_eq!(model::cut_point([1.0, 5.0, b, 3.0, 5.0]), None);
        }
    }

    #[test]
    fn halves_that_are_too_short() {
        let mut rng = Rng::new(1);
        for second in [false, true] {
            for _ in 0..100 {
                let segment = one_half_short(second, &mut rng);
                assert_eq!(model::short(segment), [!second, second]);
            }
        }
        let long = SHORTEST / 8.0;
        assert_eq!(model::short([0.0, 0.0, 16.0, long, 0.0]), [false; 2]);
        assert_eq!(model::short([0.0, 0.0, 16.0, long / 2.0, 0.0]), [true; 2]);
        assert_eq!(model::short([0.0, 0.0, 1.0, SHORTEST, 0.0]), [false; 2]);
        let above = 1f64.next_up();
        assert_eq!(model::short([0.0, 0.0, above, SHORTEST, 0.0]), [true; 2]);
    }
}
