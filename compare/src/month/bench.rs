//! What counting costs: the counted listing beside the plain one, on the same paths with the same rooms, by turns.

use std::hint::black_box;

use super::model::{Report, WORDS};
use super::OURS;
use crate::bench::by_turns;
use crate::capi::Rows;
use crate::inputs::Point;
use crate::listings::bench::of_sheet;
use crate::listings::draw::{of_each_class, of_pair};
use crate::listings::layout::Drawn;
use crate::listings::layout::{Call, Layout};
use crate::listings::model::Listed;
use crate::listings::shapes::{coil, crossed, placed, pocket};
use crate::listings::sheets::SHEETS;
use crate::listings::traces::{all_of, in_halves};
use crate::rng::Rng;

/// A listing of fewer pairs than this is repeated until a round has as many.
const A_ROUND: u64 = 1 << 18;
const MOST_TIMES: u64 = 1 << 12;
/// So often each row is timed. The ratio is to be known to a hundredth.
const TURNS: usize = 3;
const EPSILON: f64 = 1e-5;

pub fn run() {
    let mut rng = Rng::new(0xbe7c);
    head("counted beside plain, 1,024 by 1,024");
    for sheet in &SHEETS {
        let layout = of_sheet(sheet, 1024, &mut rng);
        timed(sheet.name, &layout, EPSILON);
    }
    head("counted beside plain, whole listings");
    let layout = of_sheet(&SHEETS[0], 4096, &mut rng);
    timed("4,096 lines by 4,096, spread", &layout, EPSILON);
    timed("- the same in two tracks", &in_halves(&layout), EPSILON);
    timed("- the same in one track", &all_of(&layout, 1.0), EPSILON);
    let layout = of_sheet(&SHEETS[1], 4096, &mut rng);
    timed("4,096 lines by 4,096, coils", &layout, EPSILON);
    let winding = coil(2000, 0.5, 0.25);
    let corner = winding[0].at;
    let by = Point {
        x: 240.0,
        y: 225.25,
    };
    let other = placed(&winding, (1.0, 0.0), 1.0, by);
    let layout = |second: Drawn| Layout {
        first: Drawn::new(&winding, false),
        second,
        epsilon: EPSILON,
    };
    let outline = Drawn::new(&pocket(corner, 120.0, 90.0, 5.0), true);
    timed(
        "coil of 2,000 segments, a pocket's outline of 8",
        &layout(outline),
        EPSILON,
    );
    let other = Drawn::new(&other, false);
    timed(
        "coil of 2,000 segments, another coil",
        &layout(other),
        EPSILON,
    );
    // each row is counted by its class, and behind the 2,048th the pairs are walked twice
    for rows in [1024, 2048, 8192] {
        let (first, second) = crossed(rows, 46);
        let layout = Layout {
            first: Drawn::new(&first, false),
            second: Drawn::new(&second, false),
            epsilon: EPSILON,
        };
        timed(
            &format!("meanders that cross, {rows} rows"),
            &layout,
            EPSILON,
        );
    }
    head("counted beside plain, small layouts");
    timed(
        "a line by an arc",
        &of_pair(&of_each_class()[1], [false; 2]),
        EPSILON,
    );
    for vertices in [8, 32, 128] {
        let layout = of_sheet(&SHEETS[0], vertices, &mut rng);
        timed(&format!("{vertices} lines by {vertices}"), &layout, EPSILON);
    }
}

/// Slices with room for this many rows, and a report.
struct Lent {
    indices: Vec<u64>,
    points: Vec<f64>,
    counts: [u64; 2],
    report: [u64; WORDS],
}

impl Lent {
    fn new(rows: usize) -> Lent {
        Lent {
            indices: vec![0; 3 * rows],
            points: vec![0.0; 4 * rows],
            counts: [0; 2],
            report: [0; WORDS],
        }
    }

    fn rows(&mut self) -> (Rows<'_>, &mut [u64]) {
        let rows = Rows {
            indices: &mut self.indices,
            points: &mut self.points,
            counts: &mut self.counts,
        };
        (rows, &mut self.report)
    }

    /// In a fresh report each time, which would be too full soon.
    fn counted(&mut self, listed: Listed, epsilon: f64) {
        self.report[0] = 0;
        let (rows, report) = self.rows();
        assert_eq!(black_box((OURS.counted)(listed, epsilon, rows, report)), 0);
    }

    fn plain(&mut self, listed: Listed, epsilon: f64) {
        let (rows, _) = self.rows();
        assert_eq!(black_box((OURS.plain)(listed, epsilon, rows)), 0);
    }
}

fn head(part: &str) {
    println!(
        "{part:52} {:>8} {:>9} {:>7} {:>11} {:>11} {:>7}",
        "epsilon", "pairs", "rows", "counted us", "plain us", "ratio"
    );
}

/// Microseconds of each, the least of some times by turns, and the counted listing's to the plain one's.
fn timed(name: &str, layout: &Layout, epsilon: f64) {
    let listed = layout.listed(Call::Mutual);
    let found = listed.rows(epsilon);
    let (pairs, rows) = (found.pairs, found.rows.len());
    let (mut lent, mut lent_too) = (Lent::new(rows), Lent::new(rows));
    // those that are passed over take time too
    let of = layout.first.path().segments() * layout.second.path().segments();
    let times = (A_ROUND / of as u64).clamp(1, MOST_TIMES);
    let mut least = [f64::INFINITY; 2];
    for _ in 0..TURNS {
        let turn = by_turns(times, &mut || lent.counted(listed, epsilon), &mut || {
            lent_too.plain(listed, epsilon)
        });
        least = [0, 1].map(|side: usize| least[side].min(turn[side] / 1000.0));
    }
    let [counted, plain] = least;
    println!(
        "{name:52} {epsilon:8.1e} {pairs:9} {rows:7} {counted:11.2} {plain:11.2} {:7.3}",
        counted / plain
    );
    assert_eq!(lent.counts, [rows as u64, pairs], "{name}: other counts");
    assert_eq!(lent.counts, lent_too.counts, "{name}: the two differ");
    // the other words went on from call to call
    lent.report = Report::FRESH.0;
    lent.counted(listed, epsilon);
    let report = Report::FRESH.accepted(&found);
    assert_eq!(lent.report, report.0, "{name}: another report");
}
