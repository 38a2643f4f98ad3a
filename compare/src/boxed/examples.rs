//! Boxed listings worked out by hand, which need no model: the request's own example, boxes of lines and of arcs, boxes that
//! touch, refusals.

use super::Ours;
use crate::capi::Rows;
use crate::listings::layout::{Call, Drawn, Layout};

/// What a slice holds before the call.
const OLD: f64 = 77.0;
const OLD_COUNT: u64 = 77;

pub struct Example {
    name: &'static str,
    /// Vertices of each path, their traces, which are 0 where none is given, and an epsilon. Of one path by itself the second is
    /// none.
    paths: [Vec<[f64; 3]>; 2],
    traces: [Vec<f64>; 2],
    own: bool,
    epsilon: f64,
    /// Floats for the index, and room for rows.
    room: [usize; 2],
    /// What is returned, the index, each row's indices and class, and both counts.
    word: u64,
    index: Vec<[f64; 4]>,
    rows: Vec<[u64; 3]>,
    counts: [u64; 2],
    /// What the full listing returns with the same room, and its counts.
    full: (u64, [u64; 2]),
}

const REFUSED_8: u64 = 0x9_0108;
const REFUSED_17: u64 = 0xc_0111;

impl Example {
    fn layout(&self) -> Layout {
        let [first, second] = [0, 1].map(|at: usize| {
            let mut drawn = Drawn::of(self.paths[at].iter().copied(), false);
            for (trace, given) in drawn.traces().zip(&self.traces[at]) {
                *trace = *given;
            }
            drawn
        });
        Layout {
            first,
            second,
            epsilon: self.epsilon,
        }
    }

    /// What is not as written here, if anything.
    pub fn wrong(&self, ours: Ours) -> Option<String> {
        let layout = self.layout();
        let call = if self.own { Call::Own } else { Call::Mutual };
        let [floats, rows] = self.room;
        let mut boxes = vec![OLD; floats];
        let mut indices = vec![OLD_COUNT; 3 * rows];
        let mut points = vec![OLD; 4 * rows];
        let mut counts = [OLD_COUNT; 2];
        let lent = Rows {
            indices: &mut indices,
            points: &mut points,
            counts: &mut counts,
        };
        let word = (ours.boxed)(layout.listed(call), self.epsilon, &mut boxes, lent);
        let mut index: Vec<f64> = self.index.concat();
        index.resize(floats, OLD);
        let mut found = self.rows.concat();
        found.resize(3 * rows, OLD_COUNT);
        if word != self.word || boxes != index || indices != found || counts != self.counts {
            let name = self.name;
            return Some(format!(
                "{name}: {word:#x}, {counts:?}, {indices:?}, {boxes:?}"
            ));
        }
        let mut counts = [OLD_COUNT; 2];
        let lent = Rows {
            indices: &mut indices,
            points: &mut points,
            counts: &mut counts,
        };
        let word = (ours.full)(layout.listed(call), self.epsilon, lent);
        let wrong = (word, counts) != self.full;
        wrong.then(|| format!("{}, full: {word:#x}, {counts:?}", self.name))
    }
}

/// The request's example: 15/64 is below the epsilon, so the Rust takes the lines for one, but their boxes are 1/8 apart.
fn apart(own: bool, room: [usize; 2], full: (u64, [u64; 2])) -> Example {
    let (below, above) = ([-0.25, -0.25, 0.625, 0.25], [-0.25, 0.375, 0.625, 0.875]);
    let beside = [0.125, -0.25, 0.625, 0.875];
    let all = [-0.25, -0.25, 0.625, 0.875];
    let first = vec![[0.0, 0.0, 0.0], [0.375, 0.0, 0.0]];
    let second = [[0.0, 0.625, 0.0], [0.375, 0.625, 0.0]];
    let (paths, index) = if own {
        // the second one from its other end
        let path = [first, vec![second[1], second[0]]].concat();
        ([path, vec![]], vec![below, beside, above, all])
    } else {
        let index = vec![below, below, above, above];
        ([first, second.to_vec()], index)
    };
    Example {
        name: "the request's example",
        paths,
        traces: Default::default(),
        own,
        epsilon: 0.25,
        room,
        word: 0,
        index,
        rows: vec![],
        // in one path the line between meets both boxes, and both lines, at their ends only
        counts: if own { [0, 2] } else { [0, 0] },
        full,
    }
}

/// Two lines end to end, whose boxes touch at x = 3/2; two more that cross, so that there is a row.
fn touching(room: [usize; 2], word: u64) -> Example {
    let answered = word == 0;
    let index = vec![
        [-0.5, -0.5, 1.5, 0.5],
        [-0.5, -0.5, 1.5, 0.5],
        [1.5, -0.5, 3.5, 0.5],
        [0.0, -2.5, 3.5, 0.5],
        [0.0, -2.5, 1.0, 2.5],
        [0.0, -2.5, 3.5, 2.5],
    ];
    Example {
        name: "boxes that touch",
        paths: [
            vec![[0.0, 0.0, 0.0], [1.0, 0.0, 0.0]],
            vec![
                [2.0, 0.0, 0.0],
                [3.0, 0.0, 0.0],
                [0.5, -2.0, 0.0],
                [0.5, 2.0, 0.0],
            ],
        ],
        traces: Default::default(),
        own: false,
        epsilon: 0.5,
        room,
        word,
        index: if answered { index } else { vec![] },
        rows: if answered { vec![[0, 2, 2]] } else { vec![] },
        counts: if answered { [1, 3] } else { [OLD_COUNT; 2] },
        full: if room[1] == 0 {
            (REFUSED_8, [OLD_COUNT; 2])
        } else {
            (0, [1, 3])
        },
    }
}

/// The lines of `touching` with traces: the first path's, and each of the second's. So many pairs are left, and the row or not.
/// The index stays as it is.
fn traced(first: f64, second: [f64; 3], looked_at: u64, row: bool) -> Example {
    let rows = u64::from(row);
    let mut example = touching([24, 1], 0);
    example.name = "boxes that touch, with traces";
    // what an open path's last trace is plays no part
    example.traces = [vec![first, 5.0], [&second[..], &[first]].concat()];
    example.rows.truncate(rows as usize);
    example.counts = [rows, looked_at];
    example.full = (0, [rows, looked_at]);
    example
}

/// An arc over a chord of 3/4 by 1, whose length is 5/4; and no second path, so no pairs.
fn arc(room: [usize; 2], word: u64) -> Example {
    let answered = word == 0;
    let reach = [-1.5, -2.5, 2.25, 1.5];
    Example {
        name: "an arc and no pairs",
        paths: [vec![[0.0, 0.0, -1e-8], [0.75, -1.0, 0.5]], vec![]],
        traces: Default::default(),
        own: false,
        epsilon: 0.25,
        room,
        word,
        index: if answered { vec![reach; 2] } else { vec![] },
        rows: vec![],
        counts: if answered { [0, 0] } else { [OLD_COUNT; 2] },
        full: (0, [0, 0]),
    }
}

pub fn all() -> Vec<Example> {
    let refused = (REFUSED_8, [OLD_COUNT; 2]);
    vec![
        apart(false, [16, 0], refused),
        apart(false, [16, 1], (0, [1, 1])),
        apart(false, [19, 1], (0, [1, 1])),
        apart(true, [16, 0], refused),
        apart(true, [21, 1], (0, [1, 3])),
        touching([24, 1], 0),
        touching([25, 2], 0),
        touching([24, 0], REFUSED_8),
        touching([23, 1], REFUSED_17),
        touching([23, 0], REFUSED_17),
        touching([0, 0], REFUSED_17),
        traced(5.0, [0.0, -0.0, 1.0], 3, true),
        traced(5.0, [5.0, 0.0, 0.0], 2, true),
        traced(5.0, [5.0, 0.0, 5.0], 1, false),
        traced(5.0, [5.0; 3], 0, false),
        traced(-0.0, [0.0, -0.0, -0.0], 3, true),
        arc([8, 0], 0),
        arc([13, 1], 0),
        arc([7, 0], REFUSED_17),
    ]
}
