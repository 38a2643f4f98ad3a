//! Traces: drawn ones for a layout, and what traces do in a listing, read from its paths.

use super::layout::{Call, Drawn, Layout};
use super::model::{Listed, Path, Row};
use crate::pages::model::in_order;
use crate::rng::Rng;
use crate::vertex::{TRACE, VERTEX};

/// Those that are mixed: 0 with either sign, and the least and the greatest above it.
const MIXED: [f64; 5] = [0.0, -0.0, 1.0, 2.0, 255.0];
/// Those above 0 among them.
const ABOVE: [f64; 3] = [1.0, 2.0, 255.0];

/// The same layout with traces. Both paths have them in the same way, so that a good part of the pairs is of one trace.
pub fn traced(layout: &Layout, rng: &mut Rng) -> Layout {
    let mut layout = layout.clone();
    let way = rng.below(8);
    let one = rng.pick(&ABOVE);
    let low = rng.below(127) as f64;
    for path in [&mut layout.first, &mut layout.second] {
        let vertices = path.path().vertices();
        let mut last = rng.pick(&MIXED);
        for (i, trace) in path.traces().enumerate() {
            *trace = match way {
                0..=2 => rng.pick(&MIXED),
                // tracks one after the other
                3 | 4 => {
                    if rng.one_in(4) {
                        last = rng.pick(&MIXED);
                    }
                    last
                }
                5 => one,
                // two tracks of equal length
                6 => [1.0, 2.0][2 * i / vertices],
                // some that differ by little, or by their highest bit
                _ => low + rng.pick(&[0.0, 0.0, 1.0, 128.0]),
            };
        }
        if rng.one_in(4) {
            // an open path's last trace plays no part, whatever it is
            path.traces()
                .last()
                .into_iter()
                .for_each(|trace| *trace = one);
        }
    }
    layout
}

/// Folds with each three of the mixed traces: a path of two segments, open and closed, and a closed one of two vertices. All are
/// on one line, so that each pair would make a row.
pub fn folds() -> Vec<Layout> {
    let mut all = Vec::new();
    for (a, b, c) in MIXED
        .iter()
        .flat_map(|a| MIXED.iter().map(move |b| (a, b)))
        .flat_map(|(a, b)| MIXED.iter().map(move |c| (*a, *b, *c)))
    {
        for (vertices, closed) in [(3, false), (3, true), (2, true)] {
            let path = [[0.0, 0.0, 0.0], [10.0, 0.0, 0.0], [5.0, 0.0, 0.0]];
            let mut first = Drawn::of(path.into_iter().take(vertices), closed);
            first
                .traces()
                .zip([a, b, c])
                .for_each(|(trace, of)| *trace = of);
            let mut second = Drawn::of([[0.0, 0.0, 0.0], [8.0, 0.0, 0.0]], closed);
            second
                .traces()
                .zip([c, a])
                .for_each(|(trace, of)| *trace = of);
            all.push(Layout {
                first,
                second,
                epsilon: 1e-5,
            });
        }
    }
    all
}

/// Two tracks of equal length: half of all pairs are of one trace.
pub fn in_halves(layout: &Layout) -> Layout {
    given(layout, |i, vertices| [1.0, 2.0][2 * i / vertices])
}

/// Every vertex with this trace.
pub fn all_of(layout: &Layout, trace: f64) -> Layout {
    given(layout, |_, _| trace)
}

/// Traces by a vertex's index and how many there are.
fn given(layout: &Layout, trace_of: impl Fn(usize, usize) -> f64) -> Layout {
    let mut layout = layout.clone();
    for path in [&mut layout.first, &mut layout.second] {
        let vertices = path.path().vertices();
        for (i, trace) in path.traces().enumerate() {
            *trace = trace_of(i, vertices);
        }
    }
    layout
}

/// What is found if every trace is 0.
pub fn cleared<T>(listed: Listed, find: impl FnOnce(Listed) -> T) -> T {
    let paths: Vec<Drawn> = listed.paths().into_iter().map(without_traces).collect();
    find(match &paths[..] {
        [first, second] => Listed::Mutual(first.path(), second.path()),
        [path] => Listed::Own(path.path()),
        _ => unreachable!("a listing has one path or two"),
    })
}

fn without_traces(path: Path) -> Drawn {
    let mut drawn = Drawn {
        numbers: path.numbers.to_vec(),
        closed: path.closed,
    };
    drawn.traces().for_each(|trace| *trace = 0.0);
    drawn
}

/// The pairs that would make a row if none were passed over, of paths without a fault, which have these rows.
pub fn would_row(listed: Listed, epsilon: f64, rows: &[Row]) -> Vec<[u64; 2]> {
    let indices = |rows: &[Row]| rows.iter().map(|row| row.indices).collect();
    let any = |path: &Path| (0..path.segments()).any(|i| path.trace(i) > 0.0);
    if listed.paths().iter().any(any) {
        cleared(listed, |listed| indices(&listed.rows(epsilon).rows))
    } else {
        indices(rows)
    }
}

/// What came up among the pairs of a listing. Each is a bit.
#[derive(Clone, Copy, Debug, PartialEq)]
pub enum Sight {
    /// A pair of this trace, by its place in `ABOVE`, or of another one behind them; and the same if it meets, so that it would
    /// make a row.
    PassedOver(usize),
    PassedRow(usize),
    /// A row of two zeros: whether each has a minus.
    RowOfZeros([bool; 2]),
    /// A row of a trace above 0 and a zero, in either order, and one of two traces above 0.
    RowBesideZero,
    RowBehindZero,
    RowOfTwo,
    /// Neighbours of one path by what they share: the vertex between them, vertex 0, or both. They are passed over, or they are
    /// and would make a row.
    Neighbours(usize),
    NeighboursRow(usize),
    /// Neighbours that make a row, though both have a trace above 0.
    NeighboursOfTwo,
    /// By the segments' second vertices it would be passed over, and it makes a row; or the other way round.
    OnlyByEnds,
    NotByEnds,
    /// The same by the traces of vertex 0, of a closing segment of each path.
    OnlyByStart(usize),
    NotByStart(usize),
    /// The last segment of an open path makes a row, and would be passed over by the path's last trace; or the other way round.
    OnlyByLast(usize),
    NotByLast(usize),
}

/// The greatest place in `ABOVE`, for another trace.
const ANOTHER: usize = ABOVE.len();
/// What neighbours share.
pub const NEXT: usize = 0;
pub const CLOSING: usize = 1;
pub const BOTH: usize = 2;

impl Sight {
    fn bit(self) -> u64 {
        let at = match self {
            Sight::PassedOver(which) => which,
            Sight::PassedRow(which) => 4 + which,
            Sight::RowOfZeros([a, b]) => 8 + usize::from(a) + 2 * usize::from(b),
            Sight::RowBesideZero => 12,
            Sight::RowBehindZero => 13,
            Sight::RowOfTwo => 14,
            Sight::Neighbours(share) => 15 + share,
            Sight::NeighboursRow(share) => 18 + share,
            Sight::NeighboursOfTwo => 21,
            Sight::OnlyByEnds => 22,
            Sight::NotByEnds => 23,
            Sight::OnlyByStart(path) => 24 + path,
            Sight::NotByStart(path) => 26 + path,
            Sight::OnlyByLast(path) => 28 + path,
            Sight::NotByLast(path) => 30 + path,
        };
        1 << at
    }

    /// Those that a call must meet.
    pub fn of(call: Call) -> Vec<Sight> {
        let mut all = Vec::new();
        for which in 0..=ANOTHER {
            all.extend([Sight::PassedOver(which), Sight::PassedRow(which)]);
        }
        for a in [false, true] {
            all.extend([false, true].map(|b| Sight::RowOfZeros([a, b])));
        }
        all.extend([Sight::RowBesideZero, Sight::RowBehindZero, Sight::RowOfTwo]);
        all.extend([Sight::OnlyByEnds, Sight::NotByEnds]);
        let paths = if call == Call::Own {
            for share in [NEXT, CLOSING, BOTH] {
                all.extend([Sight::Neighbours(share), Sight::NeighboursRow(share)]);
            }
            all.push(Sight::NeighboursOfTwo);
            // the closing segment and the last one are the second of their pairs
            1..2
        } else {
            0..2
        };
        for path in paths {
            all.extend([Sight::OnlyByStart(path), Sight::NotByStart(path)]);
            all.extend([Sight::OnlyByLast(path), Sight::NotByLast(path)]);
        }
        all
    }
}

/// What traces do in a listing.
#[derive(Clone, Copy, Default)]
pub struct Passed {
    /// Pairs, and those of them that are passed over.
    pub all: u64,
    pub over: u64,
    /// How many rows there would be if none were passed over.
    pub rows_without: usize,
    sights: u64,
}

impl Passed {
    pub fn has(&self, sight: Sight) -> bool {
        self.sights & sight.bit() != 0
    }

    /// Of paths without a fault. If none were passed over, these pairs would make a row.
    pub fn of(listed: Listed, would_row: &[[u64; 2]]) -> Passed {
        let mut passed = Passed {
            rows_without: would_row.len(),
            ..Passed::default()
        };
        let mut rows = would_row.iter().peekable();
        in_order(listed, |pair| {
            let would_row = rows.next_if_eq(&&pair).is_some();
            passed.count(listed, pair.map(|index| index as usize), would_row);
        });
        passed
    }

    fn see(&mut self, sight: Sight) {
        self.sights |= sight.bit();
    }

    fn count(&mut self, listed: Listed, [i, j]: [usize; 2], would_row: bool) {
        let (first, second, own) = match listed {
            Listed::Mutual(first, second) => (first, second, false),
            Listed::Own(path) => (path, path, true),
        };
        let (a, b) = (first.trace(i), second.trace(j));
        let over = listed.passes_over([i, j]);
        self.all += 1;
        self.over += u64::from(over);
        if over {
            let which = ABOVE.iter().position(|trace| *trace == a);
            let which = which.unwrap_or(ANOTHER);
            self.see(Sight::PassedOver(which));
            if would_row {
                self.see(Sight::PassedRow(which));
            }
        } else if would_row {
            self.see(match [a, b].map(|trace| trace > 0.0) {
                [false, false] => Sight::RowOfZeros([a, b].map(f64::is_sign_negative)),
                [true, false] => Sight::RowBesideZero,
                [false, true] => Sight::RowBehindZero,
                [true, true] => Sight::RowOfTwo,
            });
        }
        if own {
            self.count_neighbours(first, [i, j], over, would_row);
        }
        if would_row {
            self.count_others([(first, i), (second, j)], [a, b], over);
        }
    }

    fn count_neighbours(&mut self, path: Path, [i, j]: [usize; 2], over: bool, would_row: bool) {
        let share = match (
            j == i + 1,
            path.closed && i == 0 && j + 1 == path.segments(),
        ) {
            (false, false) => return,
            (true, false) => NEXT,
            (false, true) => CLOSING,
            (true, true) => BOTH,
        };
        if over {
            self.see(Sight::Neighbours(share));
            if would_row {
                self.see(Sight::NeighboursRow(share));
            }
        } else if would_row && path.trace(i) > 0.0 && path.trace(j) > 0.0 {
            self.see(Sight::NeighboursOfTwo);
        }
    }

    /// What other vertices' traces would do.
    fn count_others(&mut self, pair: [(Path, usize); 2], traces: [f64; 2], over: bool) {
        let same = |[a, b]: [f64; 2]| a > 0.0 && a == b;
        let ends = pair.map(|(path, i)| path.numbers[VERTEX * ((i + 1) % path.vertices()) + TRACE]);
        match (over, same(ends)) {
            (false, true) => self.see(Sight::OnlyByEnds),
            (true, false) => self.see(Sight::NotByEnds),
            _ => {}
        }
        for at in 0..2 {
            let (path, i) = pair[at];
            let mut with = traces;
            with[at] = ends[at];
            let only = !over && same(with);
            let not = over && !same(with);
            if path.closed && i + 1 == path.vertices() {
                if only {
                    self.see(Sight::OnlyByStart(at));
                } else if not {
                    self.see(Sight::NotByStart(at));
                }
            } else if !path.closed && i + 2 == path.vertices() {
                if only {
                    self.see(Sight::OnlyByLast(at));
                } else if not {
                    self.see(Sight::NotByLast(at));
                }
            }
        }
    }
}
