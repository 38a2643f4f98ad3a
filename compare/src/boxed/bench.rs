//! What boxes save: the boxed listing beside our own full one, on the same paths and with the same rooms, by turns; the boxed
//! one with traces beside that with all traces 0; how the boxed one grows with the paths; and the stack that each takes.

use std::hint::black_box;

use super::index::floats_needed;
use super::model::Boxed;
use super::OURS;
use crate::bench::by_turns;
use crate::capi::Rows;
use crate::inputs::{Point, Vertex};
use crate::listings::bench::with_traces;
use crate::listings::layout::{Call, Drawn, Layout};
use crate::listings::model::Listed;
use crate::listings::shapes::{coil, on_grid, placed};
use crate::listings::sheets::{Sheet, SHEETS};
use crate::rng::Rng;
use crate::stack;
use crate::vertex::VERTEX;

const EPSILON: f64 = 1e-5;
const EPSILONS: [f64; 2] = [1.0 / 1024.0, EPSILON];
/// A listing of fewer pairs than this is repeated until a round has as many.
const A_ROUND: u64 = 1 << 18;
const SIZES: [usize; 3] = [1024, 2048, 4096];
/// How the coils of a size are listed.
const HOW: [(Call, &str); 2] = [(Call::Mutual, "two"), (Call::Own, "by itself")];
/// Two coils in short lines, and two in short arcs.
const ROUND: [(&str, &Sheet); 2] = [("lines", &SHEETS[1]), ("arcs", &SHEETS[7])];

pub fn run() {
    let mut rng = Rng::new(0xbe7c);
    head("boxed beside full, rectangular coils of 2,000");
    let two = rectangular(2000, false);
    for epsilon in EPSILONS {
        timed("a coil, another at its corner", &two, epsilon, Call::Mutual);
        timed("a coil by itself", &two, epsilon, Call::Own);
    }

    head("boxed beside full, round coils of 2,000");
    for (name, sheet) in ROUND {
        let across = round(sheet, 2000, &mut rng);
        let beside = side_by_side(&across);
        for epsilon in EPSILONS {
            let name = |what: &str| format!("{name}, {what}");
            let into = name("another a third of a radius aside");
            timed(&into, &across, epsilon, Call::Mutual);
            let aside = name("another side by side");
            timed(&aside, &beside, epsilon, Call::Mutual);
            timed(&name("by itself"), &across, epsilon, Call::Own);
        }
    }

    head("boxed beside full, over the sheet");
    let layout = anywhere(1024, &mut rng);
    timed(
        "1,024 lines from anywhere to anywhere",
        &layout,
        EPSILON,
        Call::Mutual,
    );
    for (at, name) in [(0, "short lines, spread"), (6, "short arcs, spread")] {
        let layout = round(&SHEETS[at], 1024, &mut rng);
        timed(name, &layout, EPSILON, Call::Mutual);
    }

    head("growth, closed coils");
    let mut grown = vec![Grown::of("rectangular", |size| rectangular(size, true))];
    for (name, sheet) in ROUND {
        let layout = |size: usize| round(sheet, size, &mut rng);
        grown.push(Grown::of(&format!("{name}, round"), layout));
    }
    print_growth(&grown);

    println!("stack, bytes: {:>10} {:>10}", "boxed", "full");
    for (name, sheet) in ROUND {
        let layout = round(sheet, 4096, &mut rng);
        for call in [Call::Mutual, Call::Own] {
            of_stack(name, &layout, call);
        }
    }
}

/// Nanoseconds of the boxed listing at each size, of either call.
struct Grown {
    name: String,
    times: [[f64; SIZES.len()]; HOW.len()],
}

impl Grown {
    /// Times coils of each size, and prints their lines of the table.
    fn of(name: &str, mut layout: impl FnMut(usize) -> Layout) -> Grown {
        let mut times = [[0.0; SIZES.len()]; HOW.len()];
        for (at, size) in SIZES.into_iter().enumerate() {
            let layout = layout(size);
            for (times, (call, how)) in times.iter_mut().zip(HOW) {
                let name = format!("{size} {name}, {how}");
                times[at] = timed(&name, &layout, EPSILON, call);
            }
        }
        let name = name.to_string();
        Grown { name, times }
    }
}

/// The time of the boxed listing at each size, and how many times that at the first size it is.
fn print_growth(grown: &[Grown]) {
    let [first, second, third] = SIZES.map(|size| format!("{size} us"));
    let [to_second, to_third] = [1, 2].map(|at: usize| format!("{}/{}", SIZES[at], SIZES[0]));
    let part = "growth of boxed, closed coils";
    println!("{part:52} {first:>10} {second:>10} {third:>10} {to_second:>10} {to_third:>10}");
    for Grown { name, times } in grown {
        for (times, (_, how)) in times.iter().zip(HOW) {
            let name = format!("{name}, {how}");
            let [first, second, third] = times.map(|time| time / 1000.0);
            println!(
                "{name:52} {first:10.1} {second:10.1} {third:10.1} {:10.2} {:10.2}",
                second / first,
                third / first
            );
        }
    }
}

/// Coils of lines and quarter arcs, the second at a corner of the first.
fn rectangular(segments: usize, closed: bool) -> Layout {
    // as many vertices as segments if the path is closed
    let winding = coil(if closed { segments - 1 } else { segments }, 0.5, 0.25);
    let aside = segments as f64 / 2000.0;
    let by = Point {
        x: 240.0 * aside,
        y: 225.25 * aside,
    };
    let other = placed(&winding, (1.0, 0.0), 1.0, by);
    layout_of(&winding, &other, closed)
}

fn round(sheet: &Sheet, vertices: usize, rng: &mut Rng) -> Layout {
    let [first, second] = sheet.paths(vertices, rng);
    layout_of(&first, &second, true)
}

/// The same path a second time, so far aside that the two reach into each other by a twentieth.
fn side_by_side(layout: &Layout) -> Layout {
    let first = &layout.first;
    let xs = first.numbers.iter().step_by(VERTEX);
    let [least, most] = [f64::min, f64::max].map(|of| xs.clone().copied().fold(0.0, of));
    let mut second = first.clone();
    for x in second.numbers.iter_mut().step_by(VERTEX) {
        *x += 0.95 * (most - least);
    }
    Layout {
        first: first.clone(),
        second,
        epsilon: EPSILON,
    }
}

/// Long lines from anywhere to anywhere on the sheet, on whole numbers.
fn anywhere(vertices: usize, rng: &mut Rng) -> Layout {
    let mut path = || -> Vec<Vertex> {
        let line = |v: Vertex| Vertex { bulge: 0.0, ..v };
        let path = on_grid(vertices, 32_000, rng);
        path.into_iter().map(line).collect()
    };
    layout_of(&path(), &path(), true)
}

fn layout_of(first: &[Vertex], second: &[Vertex], closed: bool) -> Layout {
    Layout {
        first: Drawn::new(first, closed),
        second: Drawn::new(second, closed),
        epsilon: EPSILON,
    }
}

/// Slices with room for so many rows, and for an index.
struct Lent {
    boxes: Vec<f64>,
    indices: Vec<u64>,
    points: Vec<f64>,
    counts: [u64; 2],
}

impl Lent {
    fn new(listed: Listed, rows: usize) -> Lent {
        let paths = listed.paths();
        let floats = paths.iter().map(|path| floats_needed(path.segments()));
        Lent {
            boxes: vec![0.0; floats.sum()],
            indices: vec![0; 3 * rows],
            points: vec![0.0; 4 * rows],
            counts: [0; 2],
        }
    }

    fn slices(&mut self) -> (&mut [f64], Rows<'_>) {
        let rows = Rows {
            indices: &mut self.indices,
            points: &mut self.points,
            counts: &mut self.counts,
        };
        (&mut self.boxes, rows)
    }

    fn boxed(&mut self, listed: Listed, epsilon: f64) {
        let (boxes, rows) = self.slices();
        assert_eq!(black_box((OURS.boxed)(listed, epsilon, boxes, rows)), 0);
    }

    fn full(&mut self, listed: Listed, epsilon: f64) {
        let (_, rows) = self.slices();
        assert_eq!(black_box((OURS.full)(listed, epsilon, rows)), 0);
    }
}

fn head(part: &str) {
    println!(
        "{part:52} {:>8} {:>9} {:>9} {:>7} {:>10} {:>10} {:>10}",
        "epsilon", "pairs", "looked at", "rows", "boxed us", "full us", "full/boxed"
    );
}

/// Prints the line of a layout, and those of the same with traces. Answers the nanoseconds of the boxed listing.
fn timed(name: &str, layout: &Layout, epsilon: f64, call: Call) -> f64 {
    let listed = layout.listed(call);
    let model = Boxed::new(listed, epsilon);
    let (mut lent, mut lent_too) = (
        Lent::new(listed, model.full_rows),
        Lent::new(listed, model.full_rows),
    );
    let times = (A_ROUND / model.all_pairs).max(1);
    let [boxed, full] = by_turns(times, &mut || lent.boxed(listed, epsilon), &mut || {
        lent_too.full(listed, epsilon)
    });
    assert_eq!(lent.counts[..], model.counts(), "{name}: other counts");
    line(name, epsilon, &model, [boxed, full], full / boxed);
    for (name, layout) in with_traces(layout) {
        let traced = layout.listed(call);
        let model = Boxed::new(traced, epsilon);
        let mut lent_traced = Lent::new(traced, model.rows.len());
        let [with, without] = by_turns(
            times,
            &mut || lent_traced.boxed(traced, epsilon),
            &mut || lent.boxed(listed, epsilon),
        );
        let counts = &lent_traced.counts[..];
        assert_eq!(counts, model.counts(), "{name}: other counts");
        line(name, epsilon, &model, [with, without], with / without);
    }
    boxed
}

/// A line of the table: two times in nanoseconds, and their ratio. With traces, the second is ours with all traces 0, and the
/// ratio is the first's to it.
fn line(name: &str, epsilon: f64, model: &Boxed, times: [f64; 2], ratio: f64) {
    let [first, second] = times.map(|time| time / 1000.0);
    println!(
        "{name:52} {epsilon:8.1e} {:9} {:9} {:7} {first:10.1} {second:10.1} {ratio:10.2}",
        model.all_pairs,
        model.looked_at,
        model.rows.len(),
    );
}

/// With room for all rows, and with room for all but one, which is refused.
fn of_stack(name: &str, layout: &Layout, call: Call) {
    let listed = layout.listed(call);
    let model = Boxed::new(listed, EPSILON);
    for short in [0, 1] {
        let rows = |rows: usize| rows.saturating_sub(short);
        let mut lent = Lent::new(listed, rows(model.rows.len()));
        let mut lent_too = Lent::new(listed, rows(model.full_rows));
        let boxed = stack::of(|| {
            let (boxes, rows) = lent.slices();
            black_box((OURS.boxed)(listed, EPSILON, boxes, rows));
        });
        let full = stack::of(|| {
            let (_, rows) = lent_too.slices();
            black_box((OURS.full)(listed, EPSILON, rows));
        });
        println!("{name}, {call:?}, {short} rows short: {boxed:10} {full:10}");
    }
}
