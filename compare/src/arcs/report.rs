//! Counts what a search of arcs met: how many pairs share a point and how many of these are missed, by radius, epsilon and kind
//! of pair; and what is reported though it shares no point, with its distance.

mod print;

use super::depth::depth;
use super::distance::distance;
use super::draw::{Pair, GRID_EPSILON, KINDS};
use super::judge::{Way, WAYS};
use super::rules::{largest, may_miss, may_report, roundings};

/// The classes of epsilons: each ends where the next begins.
pub const CLASSES: [(f64, &str); 8] = [
    (0.0, "below 2^-30"),
    (1.0 / (1u64 << 30) as f64, "below 2^-20"),
    (1.0 / (1u64 << 20) as f64, "below 1/1024"),
    (1.0 / 1024.0, "1/1024"),
    (1.0 / 1024.0 + f64::EPSILON / 1024.0, "below 1/64"),
    (1.0 / 64.0, "below 1/8"),
    (1.0 / 8.0, "below 1/2"),
    (0.5, "1/2"),
];

/// How many of the classes are finer than the promise on the grid.
const FINE: usize = 3;

/// Radii by powers of two: a band has the radii from 2^k on, the first one those from 0 on.
const BANDS: usize = 37;

/// The epsilon of the program that lists.
const PROGRAM: f64 = GRID_EPSILON;

const SHOWN: u64 = 5;

/// What the pair call answers if it finds nothing.
const NONE: u64 = 0;
/// The numbers of classes are below this one; those from here on are refusals.
const CLASS_END: u64 = 6;

#[derive(Clone, Copy, Default)]
struct Cell {
    shared: u64,
    missed: u64,
    /// The deepest of the missed that cross inside both.
    deepest: f64,
    /// Reported without a shared point, and the greatest distance, as it is and in epsilons.
    unshared: u64,
    farthest: f64,
    epsilons: f64,
}

type Bands = [Cell; BANDS];

#[derive(Clone, Copy, Default)]
struct Drawn {
    pairs: u64,
    shared: u64,
    missed: u64,
    unshared: u64,
}

const PAIRS: [&str; 3] = ["two lines", "a line and an arc", "two arcs"];

pub struct Report {
    name: &'static str,
    /// By kind of pair, way, epsilon and radius; the way is 0 if no point is shared.
    cells: Vec<[[Bands; CLASSES.len()]; WAYS.len()]>,
    drawn: [Drawn; KINDS.len()],
    broken: u64,
    /// By kind of pair, how many share a point and may not be missed.
    free: [u64; PAIRS.len()],
    /// By kind of pair and way, the missed pair of the least radius at the program's epsilon.
    least: [[Option<Pair>; WAYS.len()]; PAIRS.len()],
    /// By kind of pair, the pair reported at the greatest distance at the program's epsilon, and that distance.
    farthest: [Option<(Pair, f64)>; PAIRS.len()],
    /// By kind of pair and epsilon, the most roundings that a miss needed.
    most: [[f64; CLASSES.len()]; PAIRS.len()],
}

/// Which of the classes an epsilon is in.
pub fn class_of(epsilon: f64) -> usize {
    CLASSES
        .iter()
        .rposition(|c| epsilon >= c.0)
        .expect("an epsilon of the grid's")
}

pub fn band(radius: f64) -> usize {
    (radius.max(1.0).log2().floor() as usize).min(BANDS - 1)
}

impl Report {
    pub fn new(name: &'static str) -> Report {
        Report {
            name,
            cells: vec![[[[Cell::default(); BANDS]; CLASSES.len()]; WAYS.len()]; PAIRS.len()],
            drawn: [Drawn::default(); KINDS.len()],
            broken: 0,
            farthest: [None; PAIRS.len()],
            free: [0; PAIRS.len()],
            least: [[None; WAYS.len()]; PAIRS.len()],
            most: [[0.0; CLASSES.len()]; PAIRS.len()],
        }
    }

    /// Counts an answer's class and what the judge says.
    pub fn take(&mut self, kind: usize, pair: &Pair, way: Option<Way>, class: u64) {
        let arcs = usize::from(!pair.v.is_line()) + usize::from(!pair.u.is_line());
        let at = way.map_or(0, |way| {
            WAYS.iter().position(|w| w.0 == way).expect("a way")
        });
        let cell = &mut self.cells[arcs][at][class_of(pair.epsilon)][band(largest(pair))];
        let drawn = &mut self.drawn[kind];
        drawn.pairs += 1;
        let mut bad = class >= CLASS_END;
        self.free[arcs] += u64::from(way.is_some() && !may_miss(pair));
        match (way, class) {
            (Some(way), NONE) => {
                drawn.shared += 1;
                drawn.missed += 1;
                cell.shared += 1;
                cell.missed += 1;
                if way == Way::Cross && arcs > 0 {
                    cell.deepest = cell.deepest.max(depth(pair.v, pair.u));
                }
                let most = &mut self.most[arcs][class_of(pair.epsilon)];
                *most = most.max(roundings(pair));
                let least = &mut self.least[arcs][at];
                if pair.epsilon == PROGRAM && least.is_none_or(|l| largest(pair) < largest(&l)) {
                    *least = Some(*pair);
                }
                bad |= !may_miss(pair);
            }
            (Some(_), _) => {
                drawn.shared += 1;
                cell.shared += 1;
            }
            (None, NONE) => (),
            (None, _) => {
                drawn.unshared += 1;
                cell.unshared += 1;
                let far = distance(pair.v, pair.u);
                cell.farthest = cell.farthest.max(far);
                cell.epsilons = cell.epsilons.max(far / pair.epsilon);
                let farthest = &mut self.farthest[arcs];
                if pair.epsilon == PROGRAM && farthest.is_none_or(|f| far > f.1) {
                    *farthest = Some((*pair, far));
                }
                bad |= !may_report(pair, far);
            }
        }
        if bad {
            self.broken += 1;
            if self.broken <= SHOWN {
                println!("{}: {way:?} and answered {class}: {pair:?}", self.name);
            }
        }
    }
}

#[cfg(test)]
mod tests {
    use super::*;

    #[test]
    fn classes_and_bands() {
        let classes = [1.0 / 1024.0, 0.001, 1.0 / 64.0, 0.125, 0.49, 0.5].map(class_of);
        assert_eq!(classes, [3, 4, 5, 6, 6, 7]);
        assert_eq!([1e-12, 1e-9, 1e-7, 0.0009].map(class_of), [0, 1, 1, 2]);
        assert_eq!(
            [0.0, 0.5, 1.9, 2.0, 1_048_575.9, 1e11].map(band),
            [0, 0, 0, 1, 19, 36]
        );
    }
}
