//! Judges an answer by the promise for two grid lines (`crates/grid/specs/Promise.antt`). It uses whole numbers only: a float of
//! the answer is first split into a whole number and a power of two.

use super::number::Number;
use super::plane::{crossing, reaches, share, share_more, Point, Segment, Spot};
use super::wide::Wide;

/// The pair call's classes that two lines may have.
pub const NONE: u64 = 0;
pub const ONE: u64 = 2;
pub const LINES: u64 = 4;

/// An epsilon: `num / 2^down`.
#[derive(Clone, Copy, Debug)]
pub struct Epsilon {
    pub num: u128,
    pub down: u32,
}

/// What the pair call answered: its class and its values, or a refusal's word, which is beyond every class.
#[derive(Clone, Copy, Debug, PartialEq)]
pub struct Answer {
    pub class: u64,
    pub values: [f64; 4],
}

/// Which sentence an answer breaks.
#[derive(Clone, Copy, Debug, PartialEq, Eq)]
pub enum Broken {
    /// A refusal, or a class that two lines do not have.
    Class,
    Missed,
    Overlap,
    Beyond,
    Inexact,
}

/// What an answer that is as promised shows: how far its point lies from the crossing, if the lines have one, and whether
/// there is no shared point.
#[derive(Clone, Copy, Debug, Default)]
pub struct Shown {
    pub off: Option<[Off; 2]>,
    pub beyond: bool,
}

/// The distance of a coordinate: `gap / whole`.
#[derive(Clone, Copy, Debug)]
pub struct Off {
    pub gap: Wide,
    pub whole: Wide,
}

impl Off {
    /// The multiple of 2^-30, in millionths, rounded down.
    pub fn millionths(self) -> u64 {
        let parts = Wide::from(1_000_000 << 30);
        self.gap.times(parts).over(self.whole)
    }

    /// Whether it is more than this many millionths of 2^-30.
    pub fn more_than(self, millionths: u64) -> bool {
        let least = self.whole.times(Wide::from(u128::from(millionths) + 1));
        self.gap.times(Wide::from(1_000_000 << 30)) >= least
    }

    fn fine(self) -> bool {
        self.gap.raised(30) <= self.whole
    }
}

pub fn judge(v: Segment, u: Segment, epsilon: Epsilon, answer: Answer) -> Result<Shown, Broken> {
    if ![NONE, ONE, LINES].contains(&answer.class) {
        return Err(Broken::Class);
    }
    let shared = share(v, u);
    if answer.class == NONE && shared {
        return Err(Broken::Missed);
    }
    if (answer.class == LINES) != share_more(v, u) {
        return Err(Broken::Overlap);
    }
    if answer.class != ONE {
        return Ok(Shown::default());
    }
    let Some(point) = crossing(v, u) else {
        return if shared {
            Ok(Shown::default())
        } else {
            Err(Broken::Beyond)
        };
    };
    if !shared && ![v, u].iter().all(|&s| reached(s, point, epsilon)) {
        return Err(Broken::Beyond);
    }
    let [x, y, ..] = answer.values;
    let off = off(x, point.x, point.over).zip(off(y, point.y, point.over));
    match off {
        Some((x, y)) if x.fine() && y.fine() => Ok(Shown {
            off: Some([x, y]),
            beyond: !shared,
        }),
        _ => Err(Broken::Inexact),
    }
}

/// On the segment, or less than twice epsilon from an end of it.
fn reached(s: Segment, p: Point, epsilon: Epsilon) -> bool {
    reaches(s, p) || s.iter().any(|&end| close(p, end, epsilon))
}

/// By squares: `(dx^2 + dy^2) * 4^down < (2 * num * over)^2`.
fn close(p: Point, end: Spot, epsilon: Epsilon) -> bool {
    let over = p.over as i128;
    let square = |n: Wide| n.times(n);
    let from = |c: i128, end: i64| Wide::from((c - i128::from(end) * over).unsigned_abs());
    let (dx, dy) = (from(p.x, end.x), from(p.y, end.y));
    let reach = Wide::from(2 * epsilon.num).times(Wide::from(p.over));
    square(dx).plus(square(dy)).raised(2 * epsilon.down) < square(reach)
}

fn off(given: f64, top: i128, bottom: u128) -> Option<Off> {
    let given = Number::of(given)?;
    let whole = Wide::from(bottom).raised(given.down);
    Some(Off {
        gap: given.off(top, bottom),
        whole,
    })
}

#[cfg(test)]
mod tests {
    use super::*;

    const HALF: Epsilon = Epsilon { num: 1, down: 1 };
    const EIGHTH: Epsilon = Epsilon { num: 1, down: 3 };

    fn segment(ax: i64, ay: i64, bx: i64, by: i64) -> Segment {
        [Spot { x: ax, y: ay }, Spot { x: bx, y: by }]
    }

    fn answer(class: u64, x: f64, y: f64) -> Answer {
        Answer {
            class,
            values: [x, y, 0.0, 0.0],
        }
    }

    fn broken(v: Segment, u: Segment, epsilon: Epsilon, answer: Answer) -> Option<Broken> {
        judge(v, u, epsilon, answer).err()
    }

    const STEP: f64 = 1.0 / (1u64 << 30) as f64;

    #[test]
    fn a_right_answer_breaks_nothing() {
        let (v, u) = (segment(0, 0, 4, 0), segment(2, -2, 2, 2));
        assert_eq!(broken(v, u, HALF, answer(ONE, 2.0, 0.0)), None);
        assert_eq!(broken(v, u, HALF, answer(ONE, 2.0 + STEP, -STEP)), None);
        assert_eq!(
            broken(v, segment(1, 0, 5, 0), HALF, answer(LINES, 1.0, 0.0)),
            None
        );
        assert_eq!(
            broken(v, segment(0, 9, 4, 9), HALF, answer(NONE, 0.0, 0.0)),
            None
        );
    }

    #[test]
    fn a_changed_class_breaks_it() {
        let v = segment(0, 0, 4, 0);
        let cases = [
            (segment(2, -2, 2, 2), answer(NONE, 0.0, 0.0), Broken::Missed),
            (
                segment(2, -2, 2, 2),
                answer(LINES, 2.0, 0.0),
                Broken::Overlap,
            ),
            (segment(2, -2, 2, 2), answer(3, 2.0, 0.0), Broken::Class),
            (segment(2, -2, 2, 2), answer(258, 0.0, 0.0), Broken::Class),
            (segment(1, 0, 5, 0), answer(NONE, 0.0, 0.0), Broken::Missed),
            (segment(1, 0, 5, 0), answer(ONE, 1.0, 0.0), Broken::Overlap),
            (
                segment(4, 0, 5, 0),
                answer(LINES, 4.0, 0.0),
                Broken::Overlap,
            ),
            (segment(5, 0, 6, 0), answer(ONE, 4.0, 0.0), Broken::Beyond),
            (segment(0, 1, 4, 1), answer(ONE, 0.0, 0.0), Broken::Beyond),
            (segment(5, 5, 5, 5), answer(ONE, 5.0, 5.0), Broken::Beyond),
        ];
        for (u, answer, expected) in cases {
            assert_eq!(
                broken(v, u, HALF, answer),
                Some(expected),
                "{u:?} {answer:?}"
            );
        }
    }

    #[test]
    fn a_moved_point_breaks_it() {
        let (v, u) = (segment(0, 0, 4, 0), segment(2, -2, 2, 2));
        for (x, y) in [
            (2.0 + 1.01 * STEP, 0.0),
            (2.0, 2.0 * STEP),
            (-2.0, 0.0),
            (f64::NAN, 0.0),
            (2.0, f64::INFINITY),
        ] {
            assert_eq!(
                broken(v, u, HALF, answer(ONE, x, y)),
                Some(Broken::Inexact),
                "{x} {y}"
            );
        }
    }

    #[test]
    fn too_far_beyond_an_end_breaks_it() {
        // the lines cross at (3, 1), a quarter of the root of 10 beyond (9/4, 5/4) .. at whole ends: 3/5 beyond (2, 1)
        let (v, u) = (segment(0, 1, 2, 1), segment(3, 0, 2, 5));
        let p = crossing(v, u).unwrap();
        assert_eq!((p.x * 5, p.y), (14 * p.over as i128, p.over as i128));
        assert_eq!(broken(v, u, HALF, answer(ONE, 2.8, 1.0)), None);
        assert_eq!(
            broken(v, u, EIGHTH, answer(ONE, 2.8, 1.0)),
            Some(Broken::Beyond)
        );
        // exactly twice epsilon is too far
        let limit = Epsilon { num: 1, down: 1 };
        assert_eq!(
            broken(
                segment(0, 1, 2, 1),
                segment(3, 0, 3, 5),
                limit,
                answer(ONE, 3.0, 1.0)
            ),
            Some(Broken::Beyond)
        );
    }

    #[test]
    fn distances_in_millionths() {
        let off = off(2.0 + 0.5 * STEP, 2, 1).unwrap();
        assert_eq!(off.millionths(), 500_000);
        assert!(off.more_than(499_999) && !off.more_than(500_000));
    }
}
