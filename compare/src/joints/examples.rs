//! Self listings worked out by hand, which need no model: the request's own example, other folds, and joints that are none.

use super::Ours;
use crate::boxed::model::Boxed;
use crate::capi::{Rows, Span};
use crate::listings::layout::{Call, Drawn, Layout};

/// Rows that fit.
const ROOM: usize = 4;

pub struct Example {
    name: &'static str,
    vertices: Vec<[f64; 3]>,
    /// 0 where none is given.
    traces: Vec<f64>,
    closed: bool,
    epsilon: f64,
    /// How many pairs there are, how many the full listing looks at, and how many the boxed one.
    pairs: [u64; 3],
    /// Indices and class, and the points.
    rows: Vec<([u64; 3], [f64; 4])>,
}

impl Example {
    pub fn layout(&self) -> Layout {
        let mut first = Drawn::of(self.vertices.iter().copied(), self.closed);
        for (trace, given) in first.traces().zip(&self.traces) {
            *trace = *given;
        }
        Layout {
            first,
            second: Drawn::default(),
            epsilon: self.epsilon,
        }
    }

    /// What is not as written here, if anything.
    pub fn wrong(&self, ours: Ours) -> Option<String> {
        let layout = self.layout();
        let (listed, epsilon) = (layout.listed(Call::Own), self.epsilon);
        let mut boxes = vec![0.0; Boxed::new(listed, epsilon).floats];
        let span = Span {
            position: 0,
            budget: u64::MAX,
        };
        let [all, looked_at, boxed] = self.pairs;
        let rows = self.rows.len() as u64;
        self.is("full", &[rows, looked_at], |lent| {
            (ours.full)(listed, epsilon, lent)
        })
        .or_else(|| {
            let counts = [rows, all, all, all];
            self.is("a page", &counts, |lent| {
                (ours.page)(listed, epsilon, span, lent)
            })
        })
        .or_else(|| {
            let counts = [rows, boxed];
            self.is("boxed", &counts, |lent| {
                (ours.boxed)(listed, epsilon, &mut boxes, lent)
            })
        })
    }

    fn is(&self, how: &str, expected: &[u64], call: impl FnOnce(Rows) -> u64) -> Option<String> {
        let (mut indices, mut points) = ([0; 3 * ROOM], [0.0; 4 * ROOM]);
        let mut counts = vec![0; expected.len()];
        let word = call(Rows {
            indices: &mut indices,
            points: &mut points,
            counts: &mut counts,
        });
        let rows = indices.chunks(3).zip(points.chunks(4));
        let mut each = self.rows.iter().zip(rows);
        let is = |((row, at), (indices, points)): (&([u64; 3], [f64; 4]), (&[u64], &[f64]))| {
            row == indices && at == points
        };
        let right = word == 0 && counts == expected && each.all(is);
        (!right).then(|| format!("{}, {how}: {word:#x}, {counts:?}, {indices:?}", self.name))
    }
}

fn lines(name: &'static str, points: &[[f64; 2]], closed: bool) -> Example {
    let pairs = |n: u64| n * n.saturating_sub(1) / 2;
    let segments = points.len() - usize::from(!closed);
    Example {
        name,
        vertices: points.iter().map(|[x, y]| [*x, *y, 0.0]).collect(),
        traces: vec![],
        closed,
        epsilon: 1.0 / 1024.0,
        pairs: [pairs(segments as u64); 3],
        rows: vec![],
    }
}

/// Two segments on (-1, 0) and (1, 0).
fn halves(name: &'static str, bulges: [f64; 2], closed: bool) -> Example {
    let mut vertices = vec![[-1.0, 0.0, bulges[0]], [1.0, 0.0, bulges[1]]];
    if !closed {
        vertices.push([-1.0, 0.0, 0.0]);
    }
    Example {
        vertices,
        ..lines(name, &[[0.0; 2]; 2], true)
    }
    .with(closed)
}

impl Example {
    fn with(self, closed: bool) -> Example {
        Example { closed, ..self }
    }

    fn row(mut self, row: [u64; 3], points: [f64; 4]) -> Example {
        self.rows.push((row, points));
        self
    }

    fn epsilon(self, epsilon: f64) -> Example {
        Example { epsilon, ..self }
    }

    fn looked_at(mut self, looked_at: u64) -> Example {
        self.pairs[2] = looked_at;
        self
    }

    /// With traces, by which so many pairs are passed over, so many of them with boxes that meet.
    fn traced(mut self, traces: &[f64], over: u64, meeting: u64) -> Example {
        self.traces = traces.to_vec();
        self.pairs[1] -= over;
        self.pairs[2] -= meeting;
        self
    }
}

pub fn all() -> Vec<Example> {
    let fold = [[0.0, 0.0], [10.0, 0.0], [5.0, 0.0]];
    let square = [[0.0, 0.0], [4.0, 0.0], [4.0, 4.0], [0.0, 4.0], [0.0, 0.0]];
    let twice = [[0.0, 0.0], [4.0, 0.0], [4.0, 0.0], [4.0, 4.0]];
    let across = [1.0, 0.0, -1.0, 0.0];
    vec![
        lines("the request's example", &fold, false).row([0, 1, 4], [10.0, 0.0, 5.0, 0.0]),
        lines("a fold, closed", &fold, true)
            .row([0, 1, 4], [10.0, 0.0, 5.0, 0.0])
            .row([0, 2, 4], [5.0, 0.0, 0.0, 0.0]),
        lines("a corner", &[[0.0, 0.0], [10.0, 0.0], [10.0, 5.0]], false),
        lines(
            "straight on",
            &[[0.0, 0.0], [10.0, 0.0], [20.0, 0.0]],
            false,
        ),
        lines("to and fro", &fold[..2], true).row([0, 1, 4], [10.0, 0.0, 0.0, 0.0]),
        lines("one line", &fold[..2], false),
        lines(
            "a fold shorter than epsilon",
            &[[0.0, 0.0], [10.0, 0.0], [9.75, 0.0]],
            false,
        )
        .epsilon(0.5),
        lines(
            "a fold as long as epsilon",
            &[[0.0, 0.0], [10.0, 0.0], [9.5, 0.0]],
            false,
        )
        .epsilon(0.5)
        .row([0, 1, 4], [10.0, 0.0, 9.5, 0.0]),
        lines("a square", &square[..4], true).looked_at(4),
        lines("an open path back to its start", &square, false)
            .looked_at(4)
            .row([0, 3, 2], [0.0; 4]),
        lines("a line without length between", &twice, false).row([0, 2, 2], [4.0, 0.0, 0.0, 0.0]),
        halves("a circle", [1.0, 1.0], true),
        halves("a circle, open", [1.0, 1.0], false).row([0, 1, 3], across),
        halves("an arc and back", [1.0, -1.0], true).row([0, 1, 5], across),
        halves("an arc and its chord", [1.0, 0.0], true),
        halves("a chord and its arc", [0.0, -0.5], true),
        halves("an arc and its chord, open", [1.0, 0.0], false).row([0, 1, 3], across),
        // of one trace, whatever the last one of an open path is
        lines("a fold of one trace", &fold, false).traced(&[1.0, 1.0, 0.0], 1, 1),
        lines("a fold of one trace, and another last", &fold, false).traced(&[255.0; 3], 1, 1),
        lines("a fold of two traces", &fold, false)
            .traced(&[1.0, 2.0, 2.0], 0, 0)
            .row([0, 1, 4], [10.0, 0.0, 5.0, 0.0]),
        lines("a fold of a trace and 0", &fold, false)
            .traced(&[7.0, 0.0, 7.0], 0, 0)
            .row([0, 1, 4], [10.0, 0.0, 5.0, 0.0]),
        lines("a fold of two zeros", &fold, false)
            .traced(&[-0.0, 0.0, 1.0], 0, 0)
            .row([0, 1, 4], [10.0, 0.0, 5.0, 0.0]),
        // the closing segment has the last vertex's trace
        lines("a fold, closed, the first two of one trace", &fold, true)
            .traced(&[3.0, 3.0, 4.0], 1, 1)
            .row([0, 2, 4], [5.0, 0.0, 0.0, 0.0]),
        lines("a fold, closed, first and last of one trace", &fold, true)
            .traced(&[3.0, 4.0, 3.0], 1, 1)
            .row([0, 1, 4], [10.0, 0.0, 5.0, 0.0]),
        lines("a fold, closed, all of one trace", &fold, true).traced(&[2.0; 3], 3, 3),
        lines("to and fro, of one trace", &fold[..2], true).traced(&[9.0; 2], 1, 1),
        lines("to and fro, of two traces", &fold[..2], true)
            .traced(&[9.0, 8.0], 0, 0)
            .row([0, 1, 4], [10.0, 0.0, 0.0, 0.0]),
        lines(
            "an open path back to its start, of one trace",
            &square,
            false,
        )
        .looked_at(4)
        .traced(&[1.0, 2.0, 3.0, 1.0, 0.0], 1, 1),
        lines("a square of two tracks", &square[..4], true)
            .looked_at(4)
            .traced(&[1.0, 1.0, 2.0, 2.0], 2, 2),
        halves("an arc and back, of one trace", [1.0, -1.0], true).traced(&[1.0, 1.0], 1, 1),
    ]
}
