//! Listings with many rows, and some with none or few, timed as `bench` times its own: all over a sheet, of which each path
//! crosses the other again and again; two walks that never meet, though each is in the other's way; and a coil with a pocket of
//! few segments.

mod files;
mod paths;
#[cfg(test)]
mod tests;

pub use files::write;

use super::bench::{beside_plain, Room};
use super::layout::{Call, Drawn, Layout};
use super::shapes::coil;
use super::sheets::EPSILONS;
use crate::bench::head;
use crate::inputs::Vertex;
use crate::rng::Rng;
use paths::{over_a_sheet, pocket_of_six, walks, Sort, SORTS};

/// Segments a path of each sort.
const SEGMENTS: usize = 1000;
const STEPS: usize = 2000;
/// An open path has at most 4,095 segments.
const SIZES: [usize; 4] = [64, 256, 1024, 4095];
const ROOMS: [(Room, &str); 2] = [
    (Room::ForRows, "room for the rows"),
    (Room::ForPairs, "room for every pair"),
];

/// Layouts that are timed below one head, each with the first rooms.
struct Part {
    head: &'static str,
    rooms: usize,
    layouts: Vec<Named>,
}

/// A layout, what the table calls it, and what its files are called.
struct Named {
    name: String,
    file: String,
    layout: Layout,
}

pub fn run() {
    for part in parts() {
        head(part.head);
        for Named { name, layout, .. } in &part.layouts {
            for epsilon in EPSILONS {
                for (room, how) in &ROOMS[..part.rooms] {
                    let name = match part.rooms {
                        1 => name.clone(),
                        _ => format!("{name}, {how}"),
                    };
                    beside_plain(&name, layout.listed(Call::Mutual), epsilon, *room);
                }
            }
        }
    }
}

fn parts() -> [Part; 5] {
    [
        Part {
            head: "1,000 by 1,000 over a sheet, a twelfth of all pairs meet",
            rooms: 2,
            layouts: SORTS.iter().map(|sort| crossing(sort, SEGMENTS)).collect(),
        },
        Part {
            head: "two walks in short steps that do not meet",
            rooms: 1,
            layouts: vec![walking(STEPS)],
        },
        Part {
            head: "a coil of 2,000 segments, a pocket's outline of 6",
            rooms: 1,
            layouts: vec![with_pocket(true), with_pocket(false)],
        },
        Part {
            head: "growth, over a sheet, a twelfth of all pairs meet",
            rooms: 1,
            layouts: SIZES.map(|size| crossing(&SORTS[0], size)).into(),
        },
        Part {
            head: "growth, two walks that do not meet",
            rooms: 1,
            layouts: SIZES.map(walking).into(),
        },
    ]
}

/// Each layout is drawn from the same numbers, so that it stays as it is whatever else is timed.
fn numbers() -> Rng {
    Rng::new(1)
}

fn crossing(sort: &Sort, segments: usize) -> Named {
    let [first, second] = over_a_sheet(sort, segments, &mut numbers());
    Named {
        name: format!("{segments} by {segments}, {}", sort.name),
        file: format!("sheet-{}-{segments}", sort.file),
        layout: layout(&first, Drawn::new(&second, false)),
    }
}

fn walking(steps: usize) -> Named {
    let [first, second] = walks(steps, &mut numbers());
    Named {
        name: format!("{steps} by {steps}, line and line"),
        file: format!("walks-{steps}"),
        layout: layout(&first, Drawn::new(&second, false)),
    }
}

/// A coil of lines and quarter arcs in turns, and the outline around one of its corners.
fn with_pocket(rounded: bool) -> Named {
    let winding = coil(2000, 0.5, 0.25);
    let outline = pocket_of_six(winding[0].at, rounded);
    let (name, file) = match rounded {
        true => ("4 lines and 2 arcs", "coil-pocket-arcs"),
        false => ("6 lines", "coil-pocket-lines"),
    };
    Named {
        name: name.to_string(),
        file: file.to_string(),
        layout: layout(&winding, Drawn::new(&outline, true)),
    }
}

/// An open path with another.
fn layout(first: &[Vertex], second: Drawn) -> Layout {
    Layout {
        first: Drawn::new(first, false),
        second,
        epsilon: EPSILONS[0],
    }
}
