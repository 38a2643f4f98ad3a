//! Calls worked out by hand, which need no model: loops, a line across a loop, pairs of one, two and four results, refusals.

use super::Ours;
use crate::capi::Rows;
use crate::crossing::faults::two_to;
use crate::listings::layout::{Call, Drawn, Layout};

/// What a slice holds before the call.
const OLD: u64 = 77;
const ROWS: usize = 6;

pub const EXAMPLE_EPSILON: f64 = 0.25;

/// The request's own: the ends are nearer than epsilon.
pub fn loop_by_itself() -> Drawn {
    Drawn::of([[0.0, 0.0, 8.0], [0.125, 0.0, 0.0]], false)
}

struct Example {
    name: &'static str,
    first: Drawn,
    second: Drawn,
    call: Call,
    epsilon: f64,
    word: u64,
    rows: Vec<[u64; 5]>,
    counts: [u64; 2],
}

fn example(name: &'static str, first: Drawn, second: Drawn, call: Call) -> Example {
    Example {
        name,
        first,
        second,
        call,
        epsilon: 1.0 / 1024.0,
        word: 0,
        rows: Vec::new(),
        counts: [0, 0],
    }
}

impl Example {
    fn with(mut self, rows: &[[u64; 5]], pairs: u64) -> Example {
        self.rows = rows.to_vec();
        self.counts = [rows.len() as u64, pairs];
        self
    }

    fn refused(mut self, word: u64) -> Example {
        self.word = word;
        self.counts = [OLD; 2];
        self
    }

    fn at(mut self, epsilon: f64) -> Example {
        self.epsilon = epsilon;
        self
    }

    fn is_wrong(&self, ours: Ours) -> bool {
        let layout = Layout {
            first: self.first.clone(),
            second: self.second.clone(),
            epsilon: self.epsilon,
        };
        let mut indices = [OLD; 5 * ROWS];
        let mut points = [0.0; 4 * ROWS];
        let mut counts = [OLD; 2];
        let rows = Rows {
            indices: &mut indices,
            points: &mut points,
            counts: &mut counts,
        };
        let word = (ours.full)(layout.listed(self.call), self.epsilon, rows);
        let mut right = self.rows.concat();
        right.resize(5 * ROWS, OLD);
        word != self.word || counts != self.counts || indices[..] != right[..]
    }
}

/// Open paths, vertices as x, y and bulge.
fn open(vertices: &[[f64; 3]]) -> Drawn {
    Drawn::of(vertices.iter().copied(), false)
}

/// An arc from (-1/2, 0) to (1/2, 0) with the bulge 2: the cut point is (0, -1), the centre (0, -3/8), the radius 5/8.
const ARC: [[f64; 3]; 2] = [[-0.5, 0.0, 2.0], [0.5, 0.0, 0.0]];
/// Through the centre: it meets the first half to the left and the second to the right.
const ACROSS: [[f64; 3]; 2] = [[-2.0, -0.375, 0.0], [2.0, -0.375, 0.0]];

fn with_traces(mut drawn: Drawn, traces: &[f64]) -> Drawn {
    for (trace, given) in drawn.traces().zip(traces) {
        *trace = *given;
    }
    drawn
}

fn examples() -> Vec<Example> {
    let none = Drawn::default;
    let (arc, across) = (open(&ARC), open(&ACROSS));
    let small = [[-0.5, 0.0, 1.0], [0.5, 0.0, 0.0]];
    let limit = 1_048_576.0;
    let right = |y: f64| {
        open(&[
            [9.0, 9.0, 0.0],
            [limit - 6.0, 0.0, 2.0],
            [limit - 6.0, y, 0.0],
        ])
    };
    let below = |x: f64| {
        open(&[
            [9.0, 9.0, 0.0],
            [0.0, 6.0 - limit, 2.0],
            [x, 6.0 - limit, 0.0],
        ])
    };
    let beyond = 6.0 + two_to(-32);
    let chord = |long: f64, b: f64| open(&[[0.0, 0.0, b], [long, 0.0, 0.0]]);
    let bulge = |b: f64| open(&[[0.0, 0.0, 0.0], [1.0, 0.0, b]]);
    let many = |n: usize| Drawn::of((0..n).map(|i| [3.0 * i as f64, 0.0, 2.0]), false);
    vec![
        example("the request's loop", loop_by_itself(), none(), Call::Own)
            .at(EXAMPLE_EPSILON)
            .with(&[[0, 1, 0, 2, 3]], 1),
        example("a loop with its ends apart", arc.clone(), none(), Call::Own).with(&[], 1),
        example(
            "a line across an arc",
            across.clone(),
            arc.clone(),
            Call::Mutual,
        )
        .with(&[[0, 0, 0, 1, 2], [0, 0, 0, 2, 2]], 2),
        example(
            "an arc and a line",
            arc.clone(),
            across.clone(),
            Call::Mutual,
        )
        .with(&[[0, 1, 0, 0, 2], [0, 2, 0, 0, 2]], 2),
        example(
            "one track",
            with_traces(arc.clone(), &[3.0, 0.0]),
            with_traces(across.clone(), &[3.0, 0.0]),
            Call::Mutual,
        )
        .with(&[], 0),
        example(
            "no large arc",
            open(&small),
            open(&[[0.0, -3.0, 0.0], [0.0, 3.0, 0.0]]),
            Call::Mutual,
        )
        .with(&[[0, 0, 0, 0, 2]], 1),
        // the loop's line comes back over its first half: segments 0 and 1, which are no neighbours of one another
        example(
            "a line behind a loop",
            open(&[ARC[0], ARC[1], [-2.0, -1.5, 0.0]]),
            none(),
            Call::Own,
        )
        .with(&[[0, 1, 1, 0, 2]], 3),
        example("16 is taken", bulge(16.0), none(), Call::Own).with(&[], 0),
        example("beyond 16", bulge(16f64.next_up()), none(), Call::Own).refused(0x1_0003_0103),
        example("x at the limit", right(6.0), none(), Call::Own).with(&[], 3),
        example("x beyond", right(beyond), none(), Call::Own).refused(0x1_0011_0102),
        example("y at the limit", below(6.0), none(), Call::Own).with(&[], 3),
        example("y beyond", below(beyond), none(), Call::Own).refused(0x1_0012_0102),
        example("the second path's", across, right(beyond), Call::Mutual).refused(0x1_0111_0102),
        example("2^-40 at 1", chord(two_to(-40), 1.0), none(), Call::Own).with(&[], 0),
        example(
            "2^-40 just above",
            chord(two_to(-40), 1f64.next_up()),
            none(),
            Call::Own,
        )
        .refused(0x0007_0105),
        // all of it is nearer to the cut than epsilon
        example("2^-43 at 16", chord(two_to(-43), 16.0), none(), Call::Own).with(&[], 1),
        example("4,097 vertices", many(4097), none(), Call::Own).refused(0x0008_0107),
        example(
            "2,049 vertices, 4,096 segments",
            many(2049),
            open(&[[0.0, 99.0, 0.0]]),
            Call::Mutual,
        )
        .with(&[], 0),
    ]
}

/// Four vertices and an epsilon, and the words that a pair call writes.
type PairExample = (&'static str, [f64; 13], u64, &'static [u64]);

fn pair(v: [[f64; 3]; 2], u: [[f64; 3]; 2]) -> [f64; 13] {
    let mut numbers = [1.0 / 1024.0; 13];
    for (at, vertex) in [v[0], v[1], u[0], u[1]].into_iter().enumerate() {
        numbers[3 * at..3 * at + 3].copy_from_slice(&vertex);
    }
    numbers
}

fn pairs() -> Vec<PairExample> {
    // another arc, turned by a right angle about its own cut point's height: its halves lie left and right of it
    let lines = [
        [[-1.0, 0.0, 0.0], [1.0, 0.0, 9.0]],
        [[0.0, -1.0, 0.0], [0.0, 1.0, -9.0]],
    ];
    let far = [[99.0, 0.0, 3.0], [98.0, 0.0, 0.0]];
    let limit = 1_048_576.0;
    let beyond = [[0.0, limit - 6.0, -4.0], [4.0, limit - 6.0, 0.0]];
    vec![
        ("two lines", pair(lines[0], lines[1]), 1, &[0, 0, 2]),
        (
            "a line across an arc",
            pair(ACROSS, ARC),
            2,
            &[0, 1, 2, 0, 2, 2],
        ),
        (
            "an arc and a line",
            pair(ARC, ACROSS),
            2,
            &[1, 0, 2, 2, 0, 2],
        ),
        (
            "two arcs apart",
            pair(ARC, far),
            4,
            &[1, 1, 0, 1, 2, 0, 2, 1, 0, 2, 2, 0],
        ),
        ("y beyond", pair(ARC, beyond), 0x0112_0102, &[]),
        (
            "bulge beyond",
            pair([[0.0, 0.0, -16.5], ARC[1]], ARC),
            0x0003_0103,
            &[],
        ),
    ]
}

/// What is not as written here.
pub fn wrong(ours: Ours) -> Vec<String> {
    let listings = examples();
    let listings = listings.iter().filter(|example| example.is_wrong(ours));
    let mut all: Vec<String> = listings.map(|example| example.name.to_string()).collect();
    for (name, numbers, word, words) in pairs() {
        let (mut results, mut points) = ([OLD; 12], [0.0; 16]);
        let answer = (ours.pair)(&numbers, &mut results, &mut points);
        let mut right = words.to_vec();
        right.resize(12, OLD);
        if answer != word || results[..] != right[..] {
            all.push(format!("pair, {name}"));
        }
    }
    all
}
