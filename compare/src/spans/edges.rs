//! An edge: pairs that are drawn for it, and on which side of it a pair is, by what the Rust works out of it. What came up on
//! each side is counted.

use super::model::{guess_of, is_line, square_with, Rule, RULE, TOO_LARGE};
use super::shapes;
use super::{arc_arc, line_arc, line_sizes};
use crate::inputs::shapes::either_way;
use crate::inputs::values::power;
use crate::inputs::{Pair, Point, Segment};
use crate::rng::Rng;

/// What the answers of a side are like.
#[derive(Clone, Copy, PartialEq)]
pub enum Expect {
    /// Some pairs make a row, some make none.
    Varies,
    /// By the Rust's own comparison none makes a row.
    NoRow,
    /// Few or none make a row: just beside a pair that the shortcut judges, the Rust seldom finds one.
    Few,
}

/// From so many pairs a side on, a run says whether the answers are as expected.
pub const FEWEST: u64 = 512;

type Draw = Box<dyn Fn(f64, &mut Rng) -> Option<Pair>>;

pub struct Edge {
    pub name: String,
    pub epsilon: fn(&mut Rng) -> f64,
    pub draw: Draw,
    /// Whether a pair is above the edge, if it is near it.
    pub above: Box<dyn Fn(&Pair) -> Option<bool>>,
    pub expects: [Expect; 2],
    pub sides: [Side; 2],
}

/// Pairs of a side: all, those with a row, and those that the shortcut judges.
#[derive(Clone, Copy, Default)]
pub struct Side {
    pub pairs: u64,
    pub rows: u64,
    pub judged: u64,
}

impl Edge {
    pub fn new(
        name: impl Into<String>,
        draw: impl Fn(f64, &mut Rng) -> Option<Pair> + 'static,
        above: impl Fn(&Pair) -> Option<bool> + 'static,
    ) -> Edge {
        Edge {
            name: name.into(),
            epsilon: shapes::epsilon,
            draw: Box::new(draw),
            above: Box::new(above),
            expects: [Expect::Varies; 2],
            sides: [Side::default(); 2],
        }
    }

    pub fn with_epsilon(self, epsilon: fn(&mut Rng) -> f64) -> Edge {
        Edge { epsilon, ..self }
    }

    /// No pair of this side makes a row: 0 is below, 1 above.
    pub fn no_row(mut self, side: usize) -> Edge {
        self.expects[side] = Expect::NoRow;
        self
    }

    pub fn few_rows(mut self, side: usize) -> Edge {
        self.expects[side] = Expect::Few;
        self
    }

    /// An accepted pair that is near the edge, and its side. Its segments are in either order, each from either end, but for an
    /// edge of one of the two in their order.
    pub fn pair(&self, epsilon: f64, ordered: bool, rng: &mut Rng) -> Option<(Pair, usize)> {
        let Pair { v, u, .. } = (self.draw)(epsilon, rng)?;
        let (v, u) = (either_way(v, rng), either_way(u, rng));
        let swapped = !ordered && is_line(v) != is_line(u) && rng.one_in(2);
        let (v, u) = if swapped { (u, v) } else { (v, u) };
        let pair = Pair { v, u, epsilon };
        if !pair.is_accepted() {
            return None;
        }
        let above = (self.above)(&pair)?;
        Some((pair, usize::from(above)))
    }

    pub fn count(&mut self, side: usize, row: bool, pair: &Pair) {
        let counted = &mut self.sides[side];
        counted.pairs += 1;
        counted.rows += u64::from(row);
        counted.judged += u64::from(RULE.misses(pair));
    }

    pub fn least(&self) -> u64 {
        self.sides[0].pairs.min(self.sides[1].pairs)
    }

    /// Prints what was met, and answers how much is not as asked.
    pub fn report(&self, half: u64) -> u64 {
        let name = &self.name;
        let told = |side: &Side| {
            let Side {
                pairs,
                rows,
                judged,
            } = side;
            format!("{pairs} pairs ({rows} rows, {judged} judged)")
        };
        let [below, above] = [0, 1].map(|side: usize| told(&self.sides[side]));
        println!("spans, edge {name}: {below} below, {above} above");
        let mut wrong = 0;
        for (at, which) in ["below", "above"].into_iter().enumerate() {
            let Side { pairs, rows, .. } = self.sides[at];
            if pairs < half {
                println!("spans, edge {name}: TOO FEW {which}");
                wrong += 1;
            }
            let varies = rows > 0 && rows < pairs;
            let as_expected = match self.expects[at] {
                Expect::Varies => varies,
                Expect::NoRow => rows == 0,
                Expect::Few => rows < pairs / 8,
            };
            if half >= FEWEST && !as_expected {
                println!("spans, edge {name}: NOT AS EXPECTED {which}");
                wrong += 1;
            }
        }
        wrong
    }
}

/// How near an edge is, in epsilons, and as a part of the size.
const EPSILONS: f64 = 8.0;
pub const PART: f64 = 1.0 / (1u64 << 20) as f64;

pub fn near(size: f64, epsilon: f64) -> f64 {
    (EPSILONS * epsilon).min(size / 4.0).max(PART * size)
}

/// Near an edge: within this distance of it, whether above or not.
pub fn beside(number: f64, edge: f64, near: f64) -> Option<bool> {
    let off = number - edge;
    (off.abs() <= near).then_some(off >= 0.0)
}

/// Between a pair that the shortcut judges and one that it does not, which differ in the place of one segment: where its answer
/// changes, down to neighbouring floats. One of the two.
pub fn change(
    draw: impl Fn(f64, &mut Rng) -> Option<Pair>,
    epsilon: f64,
    rng: &mut Rng,
) -> Option<Pair> {
    let pair = draw(epsilon, rng)?;
    let size = match rng.below(3) {
        0 => pair.v.chord().length(),
        1 => pair.u.chord().length(),
        _ => 32.0 * epsilon,
    };
    let by = Point {
        x: rng.between(-size, size),
        y: rng.between(-size, size),
    };
    let turns = rng.one_in(2);
    let moved = |part: f64| {
        let place = |at: Point| at.along(by, part);
        let mut v: Segment = pair.v;
        v.from.at = place(v.from.at);
        if !turns {
            v.to.at = place(v.to.at);
        }
        Pair { v, ..pair }
    };
    let rule: &Rule = &RULE;
    let (mut low, mut high) = (0.0, 1.0);
    let first = rule.misses(&moved(low));
    if first == rule.misses(&moved(high)) {
        return None;
    }
    for _ in 0..60 {
        let middle = low + (high - low) / 2.0;
        if middle <= low || middle >= high {
            break;
        }
        match rule.misses(&moved(middle)) == first {
            true => low = middle,
            false => high = middle,
        }
    }
    Some(moved(rng.pick(&[low, high])))
}

/// A pair of which all is enlarged so that the square of a root is where its guess is off most, or where it is just too large.
/// `square` tells the square of a pair.
pub fn by_guess(
    draw: impl Fn(f64, &mut Rng) -> Option<Pair>,
    square: impl Fn(&Pair) -> Option<f64>,
    at_limit: bool,
    epsilon: f64,
    rng: &mut Rng,
) -> Option<Pair> {
    let pair = draw(epsilon, rng)?;
    let there = match at_limit {
        true => {
            let (from, to) = rng.pick(&[(1.5, 1.9999), (2.0001, 2.5)]);
            let little = rng.sign() * rng.pick(&[0.0, 1.0, 1.0]) * power(rng, -30, -10);
            square_with(TOO_LARGE, from, to) * (1.0 + little)
        }
        false => rng.pick(&[1.045, 2.0]) * (1.0 + rng.between(-0.01, 0.01)),
    };
    // by less than four either way
    let now = square(&pair)?;
    let mantissa = f64::from_bits(now.to_bits() & ((1 << 52) - 1) | 1023 << 52);
    let odd = (now.to_bits() >> 52) % 2 == 0;
    let now = if odd { 2.0 * mantissa } else { mantissa };
    let times = (there / now).sqrt();
    let enlarged = |s: Segment| {
        let mut s = s;
        for v in [&mut s.from, &mut s.to] {
            v.at = Point::default().along(v.at, times);
        }
        s
    };
    let (v, u) = (enlarged(pair.v), enlarged(pair.u));
    Some(Pair { v, u, epsilon })
}

/// Whether a guess is too small or too large, if it is nearly as far off as it can be.
pub fn far_off(square: f64) -> Option<bool> {
    match guess_of(square) {
        guess if guess < 0.98 => Some(false),
        guess if guess > 1.04 => Some(true),
        _ => None,
    }
}

pub fn table() -> Vec<Edge> {
    let edges = [line_arc::edges(), line_sizes::edges(), arc_arc::edges()];
    edges.into_iter().flatten().collect()
}
