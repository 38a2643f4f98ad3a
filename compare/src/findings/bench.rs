//! Nanoseconds for a call with findings, beside the pair call without, on the same inputs by turns.

use std::hint::black_box;

use cavalier_contours::log::Kernel;

use super::run::numbers;
use super::{story, Ours, OURS};
use crate::bench::{head, Row};
use crate::crossing::of_sheet;
use crate::inputs::{Kind, Pair};
use crate::listings::sheets::{EPSILONS, SHEETS};
use crate::numbers::Numbers;
use crate::rng::Rng;

const INPUTS: usize = 4096;
const A_ROUND: u64 = 1 << 14;

/// Which pairs, by the kernel and by whether they meet.
type Wanted = fn(Kernel, bool) -> bool;

const KINDS: [(&str, Wanted); 6] = [
    ("two lines", |kernel, _| kernel == Kernel::Lines),
    ("line and arc, meeting", |kernel, meet| {
        of_line(kernel) && meet
    }),
    ("line and arc, apart", |kernel, meet| {
        of_line(kernel) && !meet
    }),
    ("two arcs, meeting", |kernel, meet| of_arcs(kernel) && meet),
    ("two arcs, apart", |kernel, meet| of_arcs(kernel) && !meet),
    ("two arcs of one circle", |kernel, _| {
        kernel == Kernel::OneCircle
    }),
];

fn of_line(kernel: Kernel) -> bool {
    matches!(
        kernel,
        Kernel::LineMisses | Kernel::LineTouches | Kernel::LineCrosses
    )
}

fn of_arcs(kernel: Kernel) -> bool {
    matches!(
        kernel,
        Kernel::ArcsMiss | Kernel::ArcsTouch | Kernel::ArcsCross
    )
}

pub fn run() {
    let mut rng = Rng::new(0xbe7c);
    head("with findings and without, on pairs of a layout, near and any");
    for sheet in &SHEETS {
        for epsilon in EPSILONS {
            let inputs = of_sheet(sheet, epsilon, &mut rng);
            let name = format!("a pair, {}", sheet.name);
            timed(Row::new(&name).epsilon(epsilon), &inputs);
        }
    }
    head("with findings and without, on inputs of the comparison");
    for (name, wanted) in KINDS {
        let inputs = accepted(wanted, &mut rng);
        timed(Row::new(&format!("a pair, {name}")), &inputs);
    }
}

fn timed(row: Row, inputs: &[Numbers]) {
    let Ours { pair, findings } = OURS;
    let (mut points, mut found) = ([0.0; 4], [0; 4]);
    let mut plain = [0.0; 4];
    let meet = inputs.iter().filter(|n| pair(n, &mut plain) != 0).count();
    row.of(inputs.len() as u64).meeting(meet).timed(
        A_ROUND,
        || {
            for n in inputs {
                black_box(findings(n, &mut points, &mut found));
            }
        },
        || {
            for n in inputs {
                black_box(pair(n, &mut plain));
            }
        },
    );
}

fn accepted(wanted: Wanted, rng: &mut Rng) -> Vec<Numbers> {
    let mut inputs = Vec::new();
    let mut events = Vec::new();
    while inputs.len() < INPUTS {
        let pair = Pair::draw(Kind::Accepted, rng);
        let input = numbers(&pair, rng);
        let ((class, _), story) = story::run(&input, &mut events);
        if story.is_ok_and(|story| wanted(story.kernel, class != 0)) {
            inputs.push(input);
        }
    }
    inputs
}
