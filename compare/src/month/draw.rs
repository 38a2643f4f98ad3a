//! Reports at each limit and random ones, and small layouts that are accepted and refused with every number.

use super::model::{Report, LAYOUTS, MOST, MOST_LAYOUTS, WORDS};
use crate::inputs::values::up;
use crate::listings::damage;
use crate::listings::draw::{joined, of_each_class, of_pair};
use crate::listings::layout::{Drawn, Layout};
use crate::listings::shapes::{on_grid, straightened, vertex};
use crate::listings::traces::{all_of, traced};
use crate::rng::Rng;
use crate::vertex::{BULGE, TRACE, VERTEX};

/// The refusals that a layout can have.
pub const NUMBERS: [u64; 10] = [2, 3, 4, 5, 6, 7, 8, 11, 12, 15];

impl Report {
    /// The same but for a word.
    pub fn with(mut self, word: usize, value: u64) -> Report {
        self.0[word] = value;
        self
    }

    /// Any words of some count of bits that a counted listing takes, and mostly fewer than 10,000 layouts.
    pub fn draw(rng: &mut Rng) -> Report {
        let bits = rng.pick(&[1, 8, 16, 24, 31, 32, 33, 52, 53, 63, 64]);
        let mut words = [0; WORDS].map(|_: u64| (rng.bits() >> (64 - bits)).min(MOST));
        words[LAYOUTS] = match rng.below(16) {
            0 => MOST_LAYOUTS - 1,
            1 => MOST_LAYOUTS,
            _ => rng.below(MOST_LAYOUTS),
        };
        if rng.one_in(16) {
            let at = 1 + rng.below(WORDS as u64 - 1) as usize;
            words[at] = MOST + rng.below(4);
        }
        Report(words)
    }
}

/// A report at each limit and beside it, one word at a time: all other words 0, or as large as they may be.
pub fn at_limits() -> Vec<Report> {
    let largest = Report([MOST; WORDS]).with(LAYOUTS, MOST_LAYOUTS - 1);
    let mut all = vec![Report::FRESH, largest];
    for rest in [Report::FRESH, largest] {
        let near = MOST_LAYOUTS - 2..MOST_LAYOUTS + 2;
        // with 32 bits or with a sign these would be fewer than 10,000
        let beyond = [1 << 32, 1 << 63, u64::MAX];
        all.extend(
            near.chain(beyond)
                .map(|layouts| rest.with(LAYOUTS, layouts)),
        );
    }
    for word in LAYOUTS + 1..WORDS {
        for value in [MOST - 1, MOST, MOST + 1, u64::MAX] {
            all.extend([Report::FRESH, largest].map(|rest| rest.with(word, value)));
        }
    }
    all.extend([MOST + 1, u64::MAX].map(|value| Report([value; WORDS])));
    all
}

/// Two reports of which one word's sum is at a limit or beside it.
pub fn to_join(rng: &mut Rng) -> Vec<[Report; 2]> {
    const LAYOUTS_OF: [[u64; 2]; 18] = [
        [9_999, 1],
        [10_000, 0],
        [0, 10_000],
        [1, 9_999],
        [5_000, 5_000],
        [9_998, 1],
        [10_000, 1],
        [9_999, 2],
        [1, 10_000],
        [0, 10_001],
        [10_001, 0],
        [5_000, 5_001],
        [10_000, 10_000],
        [u64::MAX, 1],
        [1, u64::MAX],
        [u64::MAX, u64::MAX],
        [1 << 63, 1 << 63],
        [1 << 32, 0],
    ];
    let half = 1 << 63;
    let mut rests = vec![
        [Report::FRESH; 2],
        [Report([u64::MAX; WORDS]), Report::FRESH].map(|report| report.with(LAYOUTS, 0)),
        [Report::FRESH, Report([u64::MAX; WORDS])].map(|report| report.with(LAYOUTS, 0)),
    ];
    rests.extend([0; 3].map(|_| some(rng)));
    let mut all = Vec::new();
    for rest in &rests {
        let with = |word: usize, values: [u64; 2]| {
            [0, 1].map(|report| rest[report].with(word, values[report]))
        };
        all.push(*rest);
        all.extend(LAYOUTS_OF.map(|layouts| with(LAYOUTS, layouts)));
        for word in LAYOUTS + 1..WORDS {
            let part = rng.bits().max(2);
            all.extend([
                with(word, [u64::MAX, 0]),
                with(word, [0, u64::MAX]),
                with(word, [u64::MAX - 1, 1]),
                with(word, [1, u64::MAX - 1]),
                with(word, [half, half - 1]),
                with(word, [part, u64::MAX - part]),
                with(word, [MOST, u64::MAX - MOST]),
                with(word, [u64::MAX, 1]),
                with(word, [1, u64::MAX]),
                with(word, [half, half]),
                with(word, [part, u64::MAX - part + 1]),
                with(word, [MOST, u64::MAX - MOST + 1]),
                with(word, [u64::MAX, u64::MAX]),
            ]);
        }
    }
    all
}

/// Two reports that can be joined, of words of any size.
pub fn some(rng: &mut Rng) -> [Report; 2] {
    let bits = rng.pick(&[4, 16, 31, 32, 52, 63]);
    let mut report = || Report([0; WORDS].map(|_: u64| rng.bits() >> (64 - bits)));
    let reports = [report(), report()];
    reports.map(|report| report.with(LAYOUTS, report.layouts() % (MOST_LAYOUTS / 2)))
}

/// Layouts that are accepted: each class by itself; none, one and two vertices; with traces, in one track too; and with rows of
/// more than one class. Of some each pair meets, of others none does.
pub fn accepted(rng: &mut Rng) -> Vec<Layout> {
    let mut all: Vec<Layout> = of_each_class()
        .iter()
        .map(|pair| of_pair(pair, [false; 2]))
        .collect();
    all.push(Layout {
        epsilon: 1.0 / 1024.0,
        ..Layout::default()
    });
    for vertices in [[1, 3], [3, 1], [2, 2]] {
        all.push(damage::accepted(vertices, [false, true], rng));
    }
    let lines = |y: f64| Drawn::new(&[vertex(0.0, y, 0.0), vertex(9.0, y, 0.0)], false);
    let apart = Layout {
        first: lines(0.0),
        second: lines(5.0),
        epsilon: 1.0 / 1024.0,
    };
    let crossed = of_pair(&of_each_class()[1], [false; 2]);
    all.extend([all_of(&crossed, 1.0), all_of(&apart, 255.0), apart]);
    for _ in 0..3 {
        let [first, second] = [0; 2].map(|_| {
            let path = on_grid(4 + rng.below(4) as usize, 2, rng);
            Drawn::new(&straightened(path), rng.one_in(2))
        });
        let layout = Layout {
            first,
            second,
            epsilon: 1e-5,
        };
        all.extend([traced(&layout, rng), layout]);
    }
    all
}

/// A layout that is refused with this number: one fault, of the first path or of the second. For 8 it has a row, and is lent no
/// room for it.
pub fn refused(number: u64, rng: &mut Rng) -> Layout {
    let mut layout = joined(&of_each_class()[1], false);
    layout.second = layout.first.clone();
    let Layout { first, second, .. } = &mut layout;
    let path = if rng.one_in(2) { first } else { second };
    let numbers = &mut path.numbers;
    let vertices = numbers.len() / VERTEX;
    let at = VERTEX * rng.below(vertices as u64) as usize;
    match number {
        2 => numbers[at] = up(1_048_576.0),
        3 => numbers[at + BULGE] = up(1.0),
        4 => layout.epsilon = 0.75,
        5 => {
            let (from, to) = numbers.split_at_mut(VERTEX);
            from[..3].copy_from_slice(&[to[0], to[1], 0.5]);
        }
        6 => numbers.push(0.0),
        7 => numbers.resize(VERTEX * 4097, 0.0),
        11 => numbers[at + rng.below(VERTEX as u64) as usize] = f64::NAN,
        12 => numbers[at + rng.below(VERTEX as u64) as usize] = f64::INFINITY,
        15 => numbers[at + TRACE] = 256.0,
        8 => {}
        _ => unreachable!("a layout is never refused with {number}"),
    }
    layout
}
