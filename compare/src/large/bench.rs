//! What the mode costs: its calls beside those of the other mode, by turns. Without a large arc both get the same paths. With
//! large arcs the other mode gets the cut paths, and for a pair call as many calls as there are results. Then the stack that
//! each call takes.

use std::hint::black_box;

use super::ask::{Asked, Kind, KINDS};
use super::cut::RULE;
use super::draw::{all_cut, large_bulge};
use super::faults::{of_pair, segment_of};
use super::lent::Lent;
use super::model::{on, Large};
use super::ours::OURS;
use crate::bench::by_turns;
use crate::capi::{vj_pair, Rows};
use crate::inputs::Point;
use crate::listings::bench::of_sheet;
use crate::listings::layout::{self, Call, Drawn, Layout};
use crate::listings::model::Listed;
use crate::listings::shapes::{coil, placed, pocket};
use crate::listings::sheets::SHEETS;
use crate::listings::traces::in_halves;
use crate::rng::Rng;
use crate::{boxed, crossing, month, pages, stack};

const EPSILON: f64 = 1e-5;
/// A call on fewer pairs than this is repeated until a round has as many.
const A_ROUND: u64 = 1 << 18;
const MOST_TIMES: u64 = 1 << 12;
/// So often each row is timed. The ratio is to be known to a hundredth.
const TURNS: usize = 3;

pub fn run() {
    let mut rng = Rng::new(0xbe7c);
    head("no large arc, 1,024 by 1,024");
    for sheet in &SHEETS {
        let layout = of_sheet(sheet, 1024, &mut rng);
        timed(sheet.name, &layout, Call::Mutual, Kind::Full);
    }
    head("no large arc, whole listings");
    let winding = coil(2000, 0.5, 0.25);
    let by = Point {
        x: 240.0,
        y: 225.25,
    };
    let other = Drawn::new(&placed(&winding, (1.0, 0.0), 1.0, by), false);
    let outline = Drawn::new(&pocket(winding[0].at, 120.0, 90.0, 5.0), true);
    let coils = |second: &Drawn| Layout {
        first: Drawn::new(&winding, false),
        second: second.clone(),
        epsilon: EPSILON,
    };
    let layout = of_sheet(&SHEETS[0], 4096, &mut rng);
    timed(
        "4,096 lines by 4,096, spread",
        &layout,
        Call::Mutual,
        Kind::Full,
    );
    timed(
        "- the same in two tracks",
        &in_halves(&layout),
        Call::Mutual,
        Kind::Full,
    );
    timed(
        "4,096 lines, spread, by themselves",
        &layout,
        Call::Own,
        Kind::Full,
    );
    for (name, second) in [
        ("a pocket's outline of 8", &outline),
        ("another coil", &other),
    ] {
        let name = format!("coil of 2,000 segments, {name}");
        timed(&name, &coils(second), Call::Mutual, Kind::Full);
    }
    timed(
        "coil of 2,000 segments, by itself",
        &coils(&other),
        Call::Own,
        Kind::Full,
    );
    head("no large arc, other forms");
    for kind in [Kind::Page, Kind::Boxed, Kind::Counted] {
        let name = |what: &str| format!("{kind:?}, {what}");
        timed(
            &name("coil of 2,000, another coil"),
            &coils(&other),
            Call::Mutual,
            kind,
        );
        if kind != Kind::Counted {
            timed(
                &name("coil of 2,000, by itself"),
                &coils(&other),
                Call::Own,
                kind,
            );
        }
        let layout = of_sheet(&SHEETS[6], 1024, &mut rng);
        timed(&name("arc and arc, spread"), &layout, Call::Mutual, kind);
    }
    head("no large arc, small layouts");
    for vertices in [8, 32, 128] {
        let layout = of_sheet(&SHEETS[0], vertices, &mut rng);
        timed(
            &format!("{vertices} lines by {vertices}"),
            &layout,
            Call::Mutual,
            Kind::Full,
        );
    }
    head("large arcs, beside the other mode on the cut paths");
    let layout = Layout {
        first: all_cut(1024, true, &mut rng),
        second: all_cut(1024, true, &mut rng),
        epsilon: EPSILON,
    };
    for kind in KINDS {
        timed(
            &format!("{kind:?}, 1,024 arcs by 1,024, all cut"),
            &layout,
            Call::Mutual,
            kind,
        );
    }
    timed(
        "1,024 arcs by themselves, all cut",
        &layout,
        Call::Own,
        Kind::Full,
    );
    pairs(&mut rng);
    stacks(&mut rng);
}

fn head(part: &str) {
    println!(
        "{part:52} {:>9} {:>7} {:>11} {:>11} {:>7}",
        "pairs", "rows", "large us", "other us", "ratio"
    );
}

/// Microseconds of each, the least of some times by turns, and the ratio.
fn timed(name: &str, layout: &Layout, call: Call, kind: Kind) {
    let listed = layout.listed(call);
    let large = Large::new(listed, EPSILON);
    let asked = Asked::exact(kind, &large);
    let own = call == Call::Own;
    let cut = on(&large.cuts, own);
    let mut lent = Lent::new(&asked);
    let mut other = Other::new(&asked, &large);
    let times = (A_ROUND / large.all.max(1)).clamp(1, MOST_TIMES);
    let mut least = [f64::INFINITY; 2];
    for _ in 0..TURNS {
        let turn = by_turns(
            times,
            &mut || {
                lent.fresh(&asked);
                assert_eq!(black_box(OURS.asked(listed, EPSILON, &asked, &mut lent)), 0);
            },
            &mut || assert_eq!(black_box(other.call(cut, &asked)), 0),
        );
        least = [0, 1].map(|side: usize| least[side].min(turn[side] / 1000.0));
    }
    let [ours, old] = least;
    println!(
        "{name:52} {:9} {:7} {ours:11.2} {old:11.2} {:7.3}",
        large.all,
        large.rows(),
        ours / old
    );
}

/// The slices of a call of the other mode.
struct Other {
    indices: Vec<u64>,
    points: Vec<f64>,
    counts: Vec<u64>,
    boxes: Vec<f64>,
    report: Vec<u64>,
}

impl Other {
    fn new(asked: &Asked, large: &Large) -> Other {
        let rows = asked.room.points / 4;
        Other {
            indices: vec![0; 3 * rows],
            points: vec![0.0; 4 * rows],
            counts: vec![0; asked.kind.counts()],
            boxes: vec![0.0; large.index.len()],
            report: asked.report.0.to_vec(),
        }
    }

    fn call(&mut self, listed: Listed, asked: &Asked) -> u64 {
        // a report would be too full soon
        self.report[0] = 0;
        let rows = Rows {
            indices: &mut self.indices,
            points: &mut self.points,
            counts: &mut self.counts,
        };
        match asked.kind {
            Kind::Full => layout::ours(listed, EPSILON, rows),
            Kind::Page => pages::ours(listed, EPSILON, asked.span, rows),
            Kind::Boxed => boxed::ours(listed, EPSILON, &mut self.boxes, rows),
            Kind::Counted => month::ours(listed, EPSILON, rows, &mut self.report),
        }
    }
}

/// A pair call of one, two and four results beside as many calls of the other mode, with their parts at hand.
fn pairs(rng: &mut Rng) {
    println!(
        "{:52} {:>9} {:>7} {:>11} {:>11} {:>7}",
        "a pair, nanoseconds", "calls", "results", "large", "other", "ratio"
    );
    for sheet in &SHEETS {
        for cut in [[false, false], [true, false], [false, true], [true, true]] {
            let mut inputs: Vec<[f64; 13]> = Vec::new();
            for numbers in crossing::of_sheet(sheet, EPSILON, rng) {
                let mut n: [f64; 13] = numbers.to_vec().try_into().expect("as many as a pair has");
                for (owner, cut) in cut.into_iter().enumerate() {
                    if cut {
                        n[6 * owner + 2] = large_bulge(rng);
                    }
                }
                if of_pair(&RULE, &n).next().is_none() {
                    inputs.push(n);
                }
            }
            let mut parts: Vec<[f64; 13]> = Vec::new();
            for n in &inputs {
                let [v, u] = [0, 1].map(|owner| RULE.parts(segment_of(n, owner)));
                for (v, _) in &v {
                    for (u, _) in &u {
                        parts.push([
                            v[0], v[1], v[2], v[3], v[4], 0.0, u[0], u[1], u[2], u[3], u[4], 0.0,
                            n[12],
                        ]);
                    }
                }
            }
            let mut least = [f64::INFINITY; 2];
            for _ in 0..TURNS {
                let turn = by_turns(
                    4,
                    &mut || {
                        let (mut results, mut out) = ([0; 12], [0.0; 16]);
                        for n in &inputs {
                            black_box((OURS.pair)(n, &mut results, &mut out));
                        }
                    },
                    &mut || {
                        let mut out = [0.0; 4];
                        for n in &parts {
                            black_box(vj_pair(*n, &mut out));
                        }
                    },
                );
                least = [0, 1].map(|side: usize| least[side].min(turn[side]));
            }
            let [ours, old] = least.map(|time| time / inputs.len() as f64);
            let results = parts.len() / inputs.len();
            let name = format!("{}, cut {cut:?}", sheet.name);
            let calls = inputs.len();
            println!(
                "{name:52} {calls:9} {results:7} {ours:11.2} {old:11.2} {:7.3}",
                ours / old
            );
        }
    }
}

/// With room for all rows, and with room for all but one, which is refused: of paths whose arcs are all cut, of such that begin
/// with a line, and of such without a large arc.
fn stacks(rng: &mut Rng) {
    let layout = Layout {
        first: all_cut(4096, true, rng),
        second: all_cut(4096, true, rng),
        epsilon: EPSILON,
    };
    // the first path with few, so that the model is quick
    let short = Layout {
        first: all_cut(16, true, rng),
        ..layout.clone()
    };
    println!("stack, bytes");
    let bulges: [(&str, Bulge); 3] = [
        ("all cut", |_, bulge| bulge),
        ("a line first", |at, bulge| if at == 0 { 0.0 } else { bulge }),
        ("no large arc", |_, bulge| bulge / 16.0),
    ];
    for (layout, call) in [(&short, Call::Mutual), (&layout, Call::Own)] {
        for (what, bulge) in bulges {
            let layout = Layout {
                first: bent(&layout.first, bulge),
                second: bent(&layout.second, bulge),
                epsilon: EPSILON,
            };
            stacks_of(&layout, call, what);
        }
    }
    stack_of_pair();
}

/// A vertex's bulge, by its index and the bulge that it had.
type Bulge = fn(usize, f64) -> f64;

/// The path with other bulges.
fn bent(path: &Drawn, bulge: Bulge) -> Drawn {
    let mut path = path.clone();
    for (at, vertex) in path.numbers.chunks_exact_mut(4).enumerate() {
        vertex[2] = bulge(at, vertex[2]);
    }
    path
}

fn stacks_of(layout: &Layout, call: Call, what: &str) {
    let listed = layout.listed(call);
    let large = Large::new(listed, EPSILON);
    for kind in KINDS {
        if kind == Kind::Counted && call == Call::Own {
            continue;
        }
        for short in [0, 1] {
            let asked = Asked::exact(kind, &large);
            let asked = asked.with_rows((asked.room.points / 4).saturating_sub(short));
            let mut lent = Lent::new(&asked);
            let bytes = stack::of(|| {
                black_box(OURS.asked(listed, EPSILON, &asked, &mut lent));
            });
            println!("{kind:?}, {call:?}, {what}, {short} rows short: {bytes:10}");
        }
    }
}

fn stack_of_pair() {
    let arc = [
        0.0, 0.0, 4.0, 1.0, 0.0, 0.0, 0.5, 0.0, 3.0, 1.5, 0.0, 0.0, EPSILON,
    ];
    let bytes = stack::of(|| {
        let (mut results, mut out) = ([0; 12], [0.0; 16]);
        black_box((OURS.pair)(&arc, &mut results, &mut out));
    });
    println!("a pair: {bytes:10}");
}
