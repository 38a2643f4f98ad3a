//! Nanoseconds for each pair of whole listings: ours, and a plain loop in Rust with the same checks, on the same layouts, in
//! turns. Then ours on the same layouts with traces, beside ours with all traces 0.

use std::hint::black_box;

use cavalier_contours::polyline::{pline_seg_intr, PlineSegIntr, PlineVertex};

use super::layout::{ours, Call, Drawn, Layout};
use super::model::{no_row_left, Listed, Path, Row};
use super::shapes::{coil, on_grid, placed, pocket};
use super::sheets::{Sheet, EPSILONS, SHEETS};
use super::traces::{all_of, in_halves};
use crate::bench::{self, head};
use crate::capi::Rows;
use crate::inputs::{Point, Vertex};
use crate::numbers::same;
use crate::rng::Rng;

/// A listing of fewer pairs than this is repeated until a round has as many.
const A_ROUND: u64 = 1 << 17;
/// For layouts on which the epsilon matters little.
const EPSILON: f64 = 1e-5;
/// Sheets of which the first path is listed by itself.
const BY_ITSELF: [(&str, usize); 4] = [
    ("4,096 lines, spread", 0),
    ("4,096 lines, a coil", 1),
    ("4,096 arcs, spread", 6),
    ("4,096 arcs, a coil", 7),
];

pub fn run() {
    let mut rng = Rng::new(0xbe7c);
    head("a pair of a listing of 1,024 by 1,024, checks negligible");
    for sheet in &SHEETS {
        let layout = of_sheet(sheet, 1024, &mut rng);
        for epsilon in EPSILONS {
            timed(sheet.name, &layout, epsilon, Call::Mutual);
        }
    }
    let layout = anywhere(&mut rng);
    timed(
        "line and line, anywhere, a quarter cross",
        &layout,
        EPSILON,
        Call::Mutual,
    );

    head("whole listings, checks included, on either side");
    let layout = of_sheet(&SHEETS[0], 4096, &mut rng);
    for epsilon in EPSILONS {
        timed(
            "4,096 lines by 4,096, spread",
            &layout,
            epsilon,
            Call::Mutual,
        );
    }
    let layout = of_sheet(&SHEETS[1], 4096, &mut rng);
    timed(
        "4,096 lines by 4,096, coils",
        &layout,
        EPSILON,
        Call::Mutual,
    );
    real_coil();

    by_itself();

    head("growth, closed paths spread over the sheet (4,096 lines above)");
    for (name, sheet, sizes) in [
        ("lines", &SHEETS[0], [64, 256, 1024].as_slice()),
        ("arcs", &SHEETS[6], &[64, 256, 1024, 4096]),
    ] {
        for size in sizes {
            let layout = of_sheet(sheet, *size, &mut rng);
            let name = format!("{size} {name} by {size}");
            timed(&name, &layout, EPSILON, Call::Mutual);
        }
    }
}

/// With numbers of its own, so that the other layouts stay as they are.
fn by_itself() {
    let mut rng = Rng::new(0xbe7c);
    head("a path of 4,096 by itself, closed");
    for (name, at) in BY_ITSELF {
        let layout = of_sheet(&SHEETS[at], 4096, &mut rng);
        for epsilon in EPSILONS {
            timed(name, &layout, epsilon, Call::Own);
        }
    }
}

/// A coil of lines and quarter arcs in turns: with the outline of a pocket around one of its corners, with another coil, and by
/// itself.
fn real_coil() {
    let winding = coil(2000, 0.5, 0.25);
    let corner = winding[0].at;
    let outline = Drawn::new(&pocket(corner, 120.0, 90.0, 5.0), true);
    let by = Point {
        x: 240.0,
        y: 225.25,
    };
    let other = open(&placed(&winding, (1.0, 0.0), 1.0, by));
    let (with_pocket, with_coil) = (
        Layout {
            first: open(&winding),
            second: outline,
            epsilon: EPSILON,
        },
        Layout {
            first: open(&winding),
            second: other,
            epsilon: EPSILON,
        },
    );
    for epsilon in EPSILONS {
        let name = "coil of 2,000 segments, a pocket's outline of 8";
        timed(name, &with_pocket, epsilon, Call::Mutual);
    }
    for epsilon in EPSILONS {
        let name = "coil of 2,000 segments, another coil";
        timed(name, &with_coil, epsilon, Call::Mutual);
    }
    let name = "coil of 2,000 segments, by itself";
    timed(name, &with_coil, EPSILON, Call::Own);
}

fn open(path: &[Vertex]) -> Drawn {
    Drawn::new(path, false)
}

pub fn of_sheet(sheet: &Sheet, vertices: usize, rng: &mut Rng) -> Layout {
    let [first, second] = sheet.paths(vertices, rng);
    Layout {
        first: Drawn::new(&first, true),
        second: Drawn::new(&second, true),
        epsilon: EPSILON,
    }
}

/// Long lines from anywhere to anywhere on the sheet, on whole numbers.
fn anywhere(rng: &mut Rng) -> Layout {
    let mut path = || {
        let line = |v: Vertex| Vertex { bulge: 0.0, ..v };
        let path: Vec<Vertex> = on_grid(1024, 32_000, rng).into_iter().map(line).collect();
        Drawn::new(&path, true)
    };
    Layout {
        first: path(),
        second: path(),
        epsilon: EPSILON,
    }
}

/// Slices with room for this many rows.
pub(super) struct Lent {
    indices: Vec<u64>,
    points: Vec<f64>,
    counts: [u64; 2],
}

impl Lent {
    fn new(rows: usize) -> Lent {
        Lent {
            indices: vec![0; 3 * rows],
            points: vec![0.0; 4 * rows],
            counts: [0; 2],
        }
    }

    fn slices(&mut self) -> Rows<'_> {
        Rows {
            indices: &mut self.indices,
            points: &mut self.points,
            counts: &mut self.counts,
        }
    }

    fn is(&self, other: &Lent) -> bool {
        self.counts == other.counts
            && self.indices == other.indices
            && same(&self.points, &other.points)
    }
}

fn timed(name: &str, layout: &Layout, epsilon: f64, call: Call) {
    let listed = layout.listed(call);
    let mut lent = beside_plain(name, listed, epsilon, Room::ForRows);
    let [_, pairs] = lent.counts;
    for (name, layout) in with_traces(layout) {
        let traced = layout.listed(call);
        let found = traced.rows(epsilon);
        let mut lent_traced = Lent::new(found.rows.len());
        let row = bench::Row::new(name).epsilon(epsilon).of(pairs);
        row.meeting(found.rows.len()).timed(
            A_ROUND,
            || accepted(name, ours(traced, epsilon, lent_traced.slices())),
            || accepted(name, ours(listed, epsilon, lent.slices())),
        );
        let counts = [found.rows.len() as u64, found.pairs];
        assert_eq!(lent_traced.counts, counts, "{name}: other counts");
    }
}

/// For how many rows there is room.
#[derive(Clone, Copy)]
pub(super) enum Room {
    /// For exactly those that the listing has.
    ForRows,
    /// For one of every pair.
    ForPairs,
}

/// Ours beside the plain loop, each with the same room. Answers what ours wrote.
pub(super) fn beside_plain(name: &str, listed: Listed, epsilon: f64, room: Room) -> Lent {
    let found = listed.rows(epsilon);
    let (pairs, rows) = (found.pairs, found.rows.len());
    let room = match room {
        Room::ForRows => rows,
        Room::ForPairs => pairs as usize,
    };
    let (mut lent, mut lent_too) = (Lent::new(room), Lent::new(room));
    let row = bench::Row::new(name).epsilon(epsilon).of(pairs);
    row.meeting(rows).timed(
        A_ROUND,
        || accepted(name, ours(listed, epsilon, lent.slices())),
        || accepted(name, plain(listed, epsilon, lent_too.slices())),
    );
    assert!(lent.is(&lent_too), "{name}: the two differ");
    lent
}

fn accepted(name: &str, answer: u64) {
    assert_eq!(black_box(answer), 0, "{name}: refused");
}

/// The same layout in two tracks, half of whose pairs are of one trace, and in one, all of whose pairs are. Their rows of the
/// table have our own time with all traces 0 as the other one.
pub fn with_traces(layout: &Layout) -> [(&'static str, Layout); 2] {
    [
        ("- two tracks, beside all traces 0", in_halves(layout)),
        ("- one track, beside all traces 0", all_of(layout, 1.0)),
    ]
}

/// The listing as one would write it in Rust: the checks once for each path, then two nested loops that write rows as they come.
/// So if there are too many rows, it does not leave the slices unchanged.
#[inline(never)]
fn plain(listed: Listed, epsilon: f64, lent: Rows) -> u64 {
    if let Some(fault) = listed.faults(epsilon).next() {
        return fault.word();
    }
    let mut writer = Writer {
        lent,
        epsilon,
        rows: 0,
        pairs: 0,
    };
    let done = match listed {
        Listed::Mutual(first, second) => {
            let (first, second) = (segments(first), segments(second));
            first
                .iter()
                .enumerate()
                .try_for_each(|(i, v)| writer.look(i, *v, 0, &second, |_| false))
        }
        Listed::Own(path) => {
            let all = segments(path);
            all.iter().enumerate().try_for_each(|(i, v)| {
                let at_joint = |row: &Row| {
                    let [i, j] = row.indices.map(|index| index as usize);
                    row.is_at_joint(path.shared(i, j), epsilon)
                };
                writer.look(i, *v, i + 1, &all[i + 1..], at_joint)
            })
        }
    };
    if done.is_none() {
        return no_row_left().word();
    }
    writer.lent.counts[0] = writer.rows as u64;
    writer.lent.counts[1] = writer.pairs;
    0
}

type Segment = (PlineVertex, PlineVertex);

fn segments(path: Path) -> Vec<Segment> {
    (0..path.segments()).map(|i| path.segment(i)).collect()
}

struct Writer<'a> {
    lent: Rows<'a>,
    epsilon: f64,
    rows: usize,
    pairs: u64,
}

impl Writer<'_> {
    /// A segment with others, the first of which has the index `from`. Some that meet make no row. None if there are too many
    /// rows.
    fn look(
        &mut self,
        i: usize,
        (v1, v2): Segment,
        from: usize,
        others: &[Segment],
        silent: impl Fn(&Row) -> bool,
    ) -> Option<()> {
        self.pairs += others.len() as u64;
        for (j, (u1, u2)) in (from..).zip(others) {
            let answer = pline_seg_intr(v1, v2, *u1, *u2, self.epsilon);
            if !matches!(answer, PlineSegIntr::NoIntersect) {
                let row = Row::new([i, j], answer);
                if !silent(&row) {
                    self.push(&row)?;
                }
            }
        }
        Some(())
    }

    fn push(&mut self, row: &Row) -> Option<()> {
        let at = self.rows;
        let indices = self.lent.indices.get_mut(3 * at..3 * at + 3)?;
        let points = self.lent.points.get_mut(4 * at..4 * at + 4)?;
        indices.copy_from_slice(&[row.indices[0], row.indices[1], row.class]);
        points.copy_from_slice(&row.points);
        self.rows += 1;
        Some(())
    }
}
