//! The parts of a listing: two drawn paths and an epsilon, and which call is made on them.

use super::model::{Listed, Path};
use crate::capi::{vj_mutual, vj_self, Rows};
use crate::inputs::Vertex;
use crate::vertex::{TRACE, VERTEX};

/// A path's numbers, and whether it is closed.
#[derive(Clone, Debug, Default, PartialEq)]
pub struct Drawn {
    pub numbers: Vec<f64>,
    pub closed: bool,
}

impl Drawn {
    /// With the trace 0 everywhere.
    pub fn new(vertices: &[Vertex], closed: bool) -> Drawn {
        Drawn::of(vertices.iter().map(|v| [v.at.x, v.at.y, v.bulge]), closed)
    }

    /// Vertices as x, y and bulge, with the trace 0.
    pub fn of(vertices: impl IntoIterator<Item = [f64; 3]>, closed: bool) -> Drawn {
        let vertices = vertices.into_iter();
        let numbers = vertices.flat_map(|[x, y, bulge]| -> [f64; VERTEX] { [x, y, bulge, 0.0] });
        Drawn {
            numbers: numbers.collect(),
            closed,
        }
    }

    /// The traces, one a vertex.
    pub fn traces(&mut self) -> impl Iterator<Item = &mut f64> {
        self.numbers.iter_mut().skip(TRACE).step_by(VERTEX)
    }

    pub fn path(&self) -> Path<'_> {
        Path {
            numbers: &self.numbers,
            closed: self.closed,
        }
    }
}

#[derive(Clone, Debug, Default)]
pub struct Layout {
    pub first: Drawn,
    pub second: Drawn,
    pub epsilon: f64,
}

#[derive(Clone, Copy, Debug, PartialEq)]
pub enum Call {
    Mutual,
    /// The first path lent twice: the same memory, with either path's flag.
    Twice,
    /// The self listing of the first path.
    Own,
}

pub const CALLS: [Call; 3] = [Call::Mutual, Call::Twice, Call::Own];

impl Call {
    /// What is listed of two paths. If the first is lent twice, it has the flag of each.
    pub fn of<'a>(self, first: Path<'a>, second: Path<'a>) -> Listed<'a> {
        let again = Path {
            closed: second.closed,
            ..first
        };
        match self {
            Call::Mutual => Listed::Mutual(first, second),
            Call::Twice => Listed::Mutual(first, again),
            Call::Own => Listed::Own(first),
        }
    }
}

impl Layout {
    pub fn listed(&self, call: Call) -> Listed<'_> {
        call.of(self.first.path(), self.second.path())
    }
}

/// Our call on lent paths.
pub fn ours(listed: Listed, epsilon: f64, rows: Rows) -> u64 {
    match listed {
        Listed::Mutual(first, second) => vj_mutual(
            (first.numbers, first.closed),
            (second.numbers, second.closed),
            epsilon,
            rows,
        ),
        Listed::Own(path) => vj_self((path.numbers, path.closed), epsilon, rows),
    }
}
