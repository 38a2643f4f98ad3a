//! Inputs for everything that takes points, vertices, segments or pairs of segments: four vertices and an epsilon each.
//!
//! They use no function whose last bit depends on the machine (no sine), so that a seed gives the same inputs everywhere.

pub mod shapes;
pub mod values;

use crate::classes::{magnitude, signed, CLASSES};
use crate::rng::Rng;
use values::{BULGE_LIMIT, COORDINATE_LIMIT, LARGEST_EPSILON, LINE_LIMIT, SMALLEST};

#[derive(Clone, Copy, Debug, Default)]
pub struct Point {
    pub x: f64,
    pub y: f64,
}

#[derive(Clone, Copy, Debug, Default)]
pub struct Vertex {
    pub at: Point,
    pub bulge: f64,
}

/// From one vertex to the next, with the first one's bulge.
#[derive(Clone, Copy, Debug, Default)]
pub struct Segment {
    pub from: Vertex,
    pub to: Vertex,
}

#[derive(Clone, Copy, Debug, Default)]
pub struct Pair {
    pub v: Segment,
    pub u: Segment,
    pub epsilon: f64,
}

/// How a pair is drawn.
#[derive(Clone, Copy)]
pub enum Kind {
    /// Within the accepted ranges, structured or random.
    Accepted,
    /// Accepted except for one number, which is at a limit or one float beside it.
    Beside,
    /// All bit patterns.
    Patterns,
}

impl Kind {
    pub fn name(self) -> &'static str {
        match self {
            Kind::Accepted => "accepted",
            Kind::Beside => "beside a limit",
            Kind::Patterns => "all bit patterns",
        }
    }
}

impl Point {
    /// The point at `step` times `way` from here.
    pub fn along(self, way: Point, step: f64) -> Point {
        Point {
            x: self.x + way.x * step,
            y: self.y + way.y * step,
        }
    }

    pub fn to(self, other: Point) -> Point {
        other.along(self, -1.0)
    }

    pub fn turned(self) -> Point {
        Point {
            x: -self.y,
            y: self.x,
        }
    }

    pub fn length(self) -> f64 {
        (self.x * self.x + self.y * self.y).sqrt()
    }
}

impl Segment {
    pub fn chord(self) -> Point {
        self.from.at.to(self.to.at)
    }

    fn is_accepted(self) -> bool {
        let number = |x: f64, limit: f64| x.abs() <= limit; // a NaN is not
        let vertex = |v: Vertex| {
            number(v.at.x, COORDINATE_LIMIT)
                && number(v.at.y, COORDINATE_LIMIT)
                && number(v.bulge, BULGE_LIMIT)
        };
        let is_line = self.from.bulge.abs() < LINE_LIMIT;
        vertex(self.from) && vertex(self.to) && (is_line || self.chord().length() >= SMALLEST)
    }
}

impl Pair {
    pub fn draw(kind: Kind, rng: &mut Rng) -> Pair {
        match kind {
            Kind::Accepted => accepted(rng),
            Kind::Beside => beside(rng),
            Kind::Patterns => patterns(rng),
        }
    }

    /// Whether none of its numbers is refused.
    pub fn is_accepted(&self) -> bool {
        let epsilon = self.epsilon >= SMALLEST && self.epsilon <= LARGEST_EPSILON;
        epsilon && self.v.is_accepted() && self.u.is_accepted()
    }

    fn numbers(&mut self) -> [&mut f64; 13] {
        let Pair { v, u, epsilon } = self;
        [
            &mut v.from.at.x,
            &mut v.from.at.y,
            &mut v.from.bulge,
            &mut v.to.at.x,
            &mut v.to.at.y,
            &mut v.to.bulge,
            &mut u.from.at.x,
            &mut u.from.at.y,
            &mut u.from.bulge,
            &mut u.to.at.x,
            &mut u.to.at.y,
            &mut u.to.bulge,
            epsilon,
        ]
    }
}

fn accepted(rng: &mut Rng) -> Pair {
    loop {
        let pair = shapes::draw(rng);
        if pair.is_accepted() {
            return pair;
        }
    }
}

fn beside(rng: &mut Rng) -> Pair {
    let mut pair = accepted(rng);
    let which = rng.below(14) as usize;
    if which == 13 {
        // a chord as short as an arc's may be
        let short = values::beside(SMALLEST, 1, rng);
        pair.v.from.at = Point::default();
        pair.v.to.at = Point { x: short, y: 0.0 };
        return pair;
    }
    let limits: &[f64] = match which {
        12 => &[SMALLEST, LARGEST_EPSILON],
        2 | 5 | 8 | 11 => &[BULGE_LIMIT, LINE_LIMIT],
        _ => &[COORDINATE_LIMIT],
    };
    let number = values::beside(rng.pick(limits), 1, rng);
    let sign = if which == 12 { 1.0 } else { rng.sign() };
    *pair.numbers()[which] = sign * number;
    pair
}

/// Each number independently, of all bits or of a class; now and then one equals another.
fn patterns(rng: &mut Rng) -> Pair {
    let mut pair = Pair::default();
    for number in pair.numbers() {
        *number = f64::from_bits(if rng.one_in(2) {
            rng.bits()
        } else {
            signed(magnitude(rng.pick(&CLASSES), rng), rng.one_in(2))
        });
    }
    while rng.one_in(2) {
        let [from, to] = [0; 2].map(|_| rng.below(13) as usize);
        let number = *pair.numbers()[from];
        *pair.numbers()[to] = number;
    }
    pair
}

#[cfg(test)]
mod tests {
    use super::*;
    use crate::answer::Answer;
    use cavalier_contours::polyline::{pline_seg_intr, PlineVertex};
    use std::collections::BTreeMap;

    const DRAWN: usize = 200_000;

    /// Every answer that a pair can have comes up often, for two lines, a line and an arc, and two arcs.
    #[test]
    fn every_class_is_met() {
        let mut rng = Rng::new(1);
        let mut met = BTreeMap::new();
        for _ in 0..DRAWN {
            let p = Pair::draw(Kind::Accepted, &mut rng);
            assert!(p.is_accepted());
            let vertex = |v: Vertex| PlineVertex::new(v.at.x, v.at.y, v.bulge);
            let [v1, v2, u1, u2] = [p.v.from, p.v.to, p.u.from, p.u.to].map(vertex);
            let arcs = [v1, u1].iter().filter(|v| !v.bulge_is_zero()).count();
            let answer: Answer = pline_seg_intr(v1, v2, u1, u2, p.epsilon).into();
            *met.entry((arcs, answer.class)).or_insert(0) += 1;
        }
        let expected = [
            (0, ["none", "one", "lines"].as_slice()),
            (1, &["none", "tangent", "one", "two"]),
            (2, &["none", "tangent", "one", "two", "arcs"]),
        ];
        for (arcs, classes) in expected {
            for class in classes {
                let times = met.get(&(arcs, *class)).copied().unwrap_or(0);
                assert!(times > DRAWN / 200, "{arcs} arcs, {class}: {times}");
            }
        }
    }

    /// Numbers beside a limit are on both sides of it.
    #[test]
    fn limits_are_met_and_passed() {
        let mut rng = Rng::new(2);
        let drawn = || Pair::draw(Kind::Beside, &mut rng).is_accepted();
        let accepted = std::iter::repeat_with(drawn)
            .take(DRAWN)
            .filter(|accepted| *accepted)
            .count();
        assert!(
            accepted > DRAWN / 8 && accepted < DRAWN * 7 / 8,
            "{accepted}"
        );
    }
}
