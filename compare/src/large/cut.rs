//! How a large arc is cut, as in the request's words and in its order of operations; and a path with each of its large arcs cut.

use crate::listings::layout::Drawn;
use crate::listings::model::Path;
use crate::vertex::VERTEX;

/// The largest magnitude of a bulge in this mode.
pub const MOST_BULGE: f64 = 16.0;

/// A segment: x, y and bulge of its first vertex, x and y of its second.
pub type Segment = [f64; 5];

/// Which half of an old segment: 0 if it is not cut.
pub type Half = u64;

/// How arcs are cut. The request's own is `RULE`; stand-ins have others.
#[derive(Clone, Copy)]
pub struct Rule {
    pub cuts: fn(f64) -> bool,
    pub point: fn(Segment) -> [f64; 2],
    /// The bulge of each half.
    pub bulges: fn(f64) -> [f64; 2],
    pub traces: fn(f64) -> [f64; 2],
}

pub const RULE: Rule = Rule {
    cuts: |b| b.abs() > 1.0,
    point: |[x1, y1, b, x2, y2]| {
        [
            (x1 + x2) / 2.0 + (b * (y2 - y1)) / 2.0,
            (y1 + y2) / 2.0 - (b * (x2 - x1)) / 2.0,
        ]
    },
    bulges: |b| [((1.0 + b * b).sqrt() - 1.0) / b; 2],
    traces: |trace| [trace; 2],
};

impl Rule {
    /// The segment itself, or its two halves.
    pub fn parts(&self, segment: Segment) -> Vec<(Segment, Half)> {
        let [x1, y1, b, x2, y2] = segment;
        if !(self.cuts)(b) {
            return vec![(segment, 0)];
        }
        let [x, y] = (self.point)(segment);
        let [first, second] = (self.bulges)(b);
        vec![([x1, y1, first, x, y], 1), ([x, y, second, x2, y2], 2)]
    }
}

/// Segment i of a path, as it is lent.
pub fn segment(path: Path, i: usize) -> Segment {
    let (from, to) = path.segment(i);
    [from.x, from.y, from.bulge, to.x, to.y]
}

/// A path with each of its large arcs cut, and of each segment the old index and the half.
#[derive(Clone, Debug, Default)]
pub struct Cut {
    pub drawn: Drawn,
    pub names: Vec<(u64, Half)>,
}

impl Cut {
    /// A vertex that starts no segment has the bulge 0 here: it plays no part.
    pub fn by(rule: &Rule, path: Path) -> Cut {
        let mut numbers: Vec<f64> = Vec::new();
        let mut names = Vec::new();
        for i in 0..path.vertices() {
            let trace = path.trace(i);
            if i >= path.segments() {
                let vertex = path.vertex(i);
                numbers.extend([vertex.x, vertex.y, 0.0, trace]);
                continue;
            }
            let traces = (rule.traces)(trace);
            for (part, half) in rule.parts(segment(path, i)) {
                let trace = if half == 0 {
                    trace
                } else {
                    traces[half as usize - 1]
                };
                let vertex: [f64; VERTEX] = [part[0], part[1], part[2], trace];
                numbers.extend(vertex);
                names.push((i as u64, half));
            }
        }
        let closed = path.closed;
        Cut {
            drawn: Drawn { numbers, closed },
            names,
        }
    }

    pub fn path(&self) -> Path<'_> {
        self.drawn.path()
    }

    /// Whether an arc was cut.
    pub fn is_cut(&self) -> bool {
        self.names.iter().any(|(_, half)| *half > 0)
    }
}

#[cfg(test)]
mod tests {
    use super::*;

    /// By hand: a chord of 2 along x, a bulge of 4. The arc rises four half chords to the right.
    #[test]
    fn cut_point() {
        assert_eq!((RULE.point)([1.0, 5.0, 4.0, 3.0, 5.0]), [2.0, 1.0]);
        assert_eq!((RULE.point)([1.0, 5.0, -4.0, 3.0, 5.0]), [2.0, 9.0]);
        assert_eq!((RULE.point)([5.0, 1.0, 4.0, 5.0, 3.0]), [9.0, 2.0]);
        assert_eq!((RULE.point)([5.0, 1.0, -4.0, 5.0, 3.0]), [1.0, 2.0]);
    }

    /// A quarter of the angle has the bulge's tangent, an eighth the half's: 2 h / (1 - h h) is b.
    #[test]
    fn half_bulge() {
        for b in [1f64.next_up(), 1.5, 2.0, 8.0, 16.0, -1.5, -16.0] {
            let [h, again] = (RULE.bulges)(b);
            assert_eq!(h, again);
            assert!(h * b > 0.0 && h.abs() < 1.0, "{b}");
            assert!((2.0 * h / (1.0 - h * h) - b).abs() < 1e-12 * b.abs(), "{b}");
        }
        // exact roots
        assert_eq!((RULE.bulges)(0.75), [1.0 / 3.0; 2]);
        assert_eq!(
            (RULE.bulges)(2.4),
            [((1.0f64 + 2.4 * 2.4).sqrt() - 1.0) / 2.4; 2]
        );
    }

    #[test]
    fn one_itself_is_not_cut() {
        for b in [0.0, 1.0, -1.0, 1f64.next_down()] {
            assert!(!(RULE.cuts)(b), "{b}");
        }
        for b in [1f64.next_up(), -(1f64.next_up()), 16.0, -16.0] {
            assert!((RULE.cuts)(b), "{b}");
        }
    }

    fn drawn(closed: bool) -> Drawn {
        let vertex = |x: f64, b: f64, t: f64| [x, 0.0, b, t];
        let numbers = [
            vertex(0.0, 2.0, 1.0),
            vertex(1.0, 0.5, 2.0),
            vertex(2.0, 3.0, 3.0),
        ];
        Drawn {
            numbers: numbers.concat(),
            closed,
        }
    }

    #[test]
    fn paths() {
        let open = Cut::by(&RULE, drawn(false).path());
        assert_eq!(open.names, [(0, 1), (0, 2), (1, 0)]);
        assert_eq!(open.path().vertices(), 4);
        assert_eq!(open.path().segments(), 3);
        let traces = |cut: &Cut| -> Vec<f64> {
            let n = cut.path().vertices();
            (0..n).map(|i| cut.path().trace(i)).collect()
        };
        assert_eq!(traces(&open), [1.0, 1.0, 2.0, 3.0]);
        assert_eq!(open.path().vertex(3).bulge, 0.0);
        let closed = Cut::by(&RULE, drawn(true).path());
        assert_eq!(closed.names, [(0, 1), (0, 2), (1, 0), (2, 1), (2, 2)]);
        assert_eq!(traces(&closed), [1.0, 1.0, 2.0, 3.0, 3.0]);
        assert_eq!(closed.path().segments(), 5);
    }

    #[test]
    fn too_few_vertices_for_a_segment() {
        for closed in [false, true] {
            for vertices in [0, 1] {
                let mut one = drawn(closed);
                one.numbers.truncate(VERTEX * vertices);
                let cut = Cut::by(&RULE, one.path());
                assert_eq!(cut.path().vertices(), vertices);
                assert!(cut.names.is_empty() && !cut.is_cut());
            }
        }
    }
}
