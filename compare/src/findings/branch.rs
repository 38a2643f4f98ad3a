//! The branches of the text by which findings are told apart, and the values that each entry can have in each of them.

use std::fmt;

use cavalier_contours::log::Kernel;

use super::model::*;
use super::story::{Story, U, V};

/// Which computed points counted.
#[derive(Clone, Copy, Debug, PartialEq, Eq, PartialOrd, Ord)]
pub enum Counted {
    Neither,
    First,
    Second,
    Both,
}

/// Which ends are in the answer of a line and an arc, by place: an end of the line, p0 or p1, as 0 or 1.
pub type Ends = [Option<u8>; 2];

#[derive(Clone, Copy, Debug, PartialEq, Eq, PartialOrd, Ord)]
pub enum Touching {
    End(u8),
    OutOfRange,
    Tested,
}

#[derive(Clone, Copy, Debug, PartialEq, Eq, PartialOrd, Ord)]
pub enum TouchingArcs {
    /// u1, u2, v1 or v2.
    End(u8),
    FirstSaysNo,
    SecondSaysNo,
    BothSayYes,
}

/// A line is v or u.
#[derive(Clone, Copy, Debug, PartialEq, Eq, PartialOrd, Ord)]
pub enum Branch {
    Lines,
    LineMisses {
        line: usize,
    },
    LineTouches {
        line: usize,
        how: Touching,
    },
    LineCrosses {
        line: usize,
        counted: Counted,
        ends: Ends,
        exchanged: bool,
    },
    ArcsMiss,
    ArcsTouch(TouchingArcs),
    /// How many ends are kept; if both points counted and one end is kept, which point's place it takes.
    ArcsCross {
        counted: Counted,
        slots: usize,
        taken: Option<usize>,
    },
    OneCircle,
}

impl Branch {
    /// The branch of a pair of these numbers.
    pub fn of(n: &[f64], story: &Story) -> Branch {
        let line = if story.arcs[V] { U } else { V };
        let is = |at: usize, end: [f64; 2]| [n[at], n[at + 1]] == end;
        // an end of the line, which may be a point: then it is p0
        let end_of_line = |end: [f64; 2]| u8::from(!is(6 * line, end));
        let counted = match [0, 1].map(|point| counted(story, point)) {
            [false, false] => Counted::Neither,
            [true, false] => Counted::First,
            [false, true] => Counted::Second,
            [true, true] => Counted::Both,
        };
        let placed = |place: usize| story.placed.iter().find(|(at, _)| *at == place);
        match story.kernel {
            Kernel::Lines => Branch::Lines,
            Kernel::LineMisses => Branch::LineMisses { line },
            Kernel::LineTouches => {
                let how = match story.placed.first() {
                    Some((_, end)) => Touching::End(end_of_line(*end)),
                    None if story.tests[0] == [None; 2] => Touching::OutOfRange,
                    None => Touching::Tested,
                };
                Branch::LineTouches { line, how }
            }
            Kernel::LineCrosses => Branch::LineCrosses {
                line,
                counted,
                ends: [0, 1].map(|place| placed(place).map(|(_, end)| end_of_line(*end))),
                exchanged: story.exchanged,
            },
            Kernel::ArcsMiss => Branch::ArcsMiss,
            Kernel::ArcsTouch => Branch::ArcsTouch(match story.tests[0] {
                _ if !story.placed.is_empty() => {
                    let asked = story.ends.iter().position(|asked| asked.lies);
                    TouchingArcs::End(asked.expect("an end answers") as u8)
                }
                [_, Some(swept)] if swept.rule.is_some() => TouchingArcs::BothSayYes,
                [_, Some(_)] => TouchingArcs::SecondSaysNo,
                _ => TouchingArcs::FirstSaysNo,
            }),
            Kernel::ArcsCross => {
                let slots = story.slots.len();
                let one_of_two = counted == Counted::Both && slots == 1;
                let taken = story.placed.first().map(|(place, _)| *place);
                Branch::ArcsCross {
                    counted,
                    slots,
                    taken: taken.filter(|_| one_of_two),
                }
            }
            Kernel::OneCircle => Branch::OneCircle,
        }
    }

    /// Every branch.
    pub fn all() -> Vec<Branch> {
        let mut all = vec![Branch::Lines, Branch::ArcsMiss, Branch::OneCircle];
        for line in [V, U] {
            all.push(Branch::LineMisses { line });
            for how in [
                Touching::End(0),
                Touching::End(1),
                Touching::OutOfRange,
                Touching::Tested,
            ] {
                all.push(Branch::LineTouches { line, how });
            }
            all.extend(crossing_lines(line));
        }
        all.extend((0..4).map(|end| Branch::ArcsTouch(TouchingArcs::End(end))));
        all.extend(
            [
                TouchingArcs::FirstSaysNo,
                TouchingArcs::SecondSaysNo,
                TouchingArcs::BothSayYes,
            ]
            .map(Branch::ArcsTouch),
        );
        for counted in [
            Counted::Neither,
            Counted::First,
            Counted::Second,
            Counted::Both,
        ] {
            for slots in 0..3 {
                let one_of_two = counted == Counted::Both && slots == 1;
                let takings: &[Option<usize>] = if one_of_two {
                    &[Some(0), Some(1)]
                } else {
                    &[None]
                };
                all.extend(takings.iter().map(|taken| Branch::ArcsCross {
                    counted,
                    slots,
                    taken: *taken,
                }));
            }
        }
        all
    }

    /// The values that each entry can have here.
    pub fn values(&self) -> [&'static [u64]; 4] {
        const NONE: &[u64] = &[NOT_TESTED];
        const END: &[u64] = &[END_POINT];
        const ANY: &[u64] = &[OUTSIDE, NEAR_CENTRE, INSIDE, NEAR_START, NEAR_END];
        const YES: &[u64] = &[NEAR_CENTRE, INSIDE, NEAR_START, NEAR_END];
        const NO: &[u64] = &[OUTSIDE];
        /// Of a point on a line that did not count; and of the second arc if the point did not count.
        const NOT_YES: &[u64] = &[OUTSIDE, NOT_TESTED];
        // an arc's two entries, beside a line's
        let beside = |line: usize, first: &'static [u64], second: &'static [u64]| match line {
            V => [NONE, first, NONE, second],
            _ => [first, NONE, second, NONE],
        };
        match *self {
            Branch::Lines | Branch::LineMisses { .. } | Branch::ArcsMiss | Branch::OneCircle => {
                [NONE; 4]
            }
            Branch::LineTouches { line, how } => {
                let first = match how {
                    Touching::End(_) => END,
                    Touching::OutOfRange => NONE,
                    Touching::Tested => ANY,
                };
                beside(line, first, NONE)
            }
            Branch::LineCrosses {
                line,
                counted,
                ends,
                exchanged,
            } => {
                let yes = |place: usize| if ends[place].is_some() { END } else { YES };
                let [first, second] = match counted {
                    Counted::Neither => [NOT_YES, NOT_YES],
                    Counted::First => [yes(0), NOT_YES],
                    Counted::Second => [NOT_YES, yes(0)],
                    Counted::Both if exchanged => [yes(1), yes(0)],
                    Counted::Both => [yes(0), yes(1)],
                };
                beside(line, first, second)
            }
            Branch::ArcsTouch(TouchingArcs::End(_)) => [END, END, NONE, NONE],
            Branch::ArcsTouch(TouchingArcs::FirstSaysNo) => [NO, NONE, NONE, NONE],
            Branch::ArcsTouch(TouchingArcs::SecondSaysNo) => [YES, NO, NONE, NONE],
            Branch::ArcsTouch(TouchingArcs::BothSayYes) => [YES, YES, NONE, NONE],
            Branch::ArcsCross {
                counted,
                slots,
                taken,
            } => {
                let both = counted == Counted::Both;
                let of = |point: usize| {
                    let counts = both || counted == [Counted::First, Counted::Second][point];
                    let end = match slots {
                        0 => false,
                        1 if both => taken == Some(point),
                        _ => true,
                    };
                    match counts {
                        true if end => [END, END],
                        true => [YES, YES],
                        false => [ANY, NOT_YES],
                    }
                };
                let ([a, b], [c, d]) = (of(0), of(1));
                [a, b, c, d]
            }
        }
    }
}

fn crossing_lines(line: usize) -> Vec<Branch> {
    let mut all = Vec::new();
    let mut add = |counted: Counted, ends: Ends, exchanged: bool| {
        all.push(Branch::LineCrosses {
            line,
            counted,
            ends,
            exchanged,
        });
    };
    add(Counted::Neither, [None; 2], false);
    for counted in [Counted::First, Counted::Second] {
        for end in [None, Some(0), Some(1)] {
            add(counted, [end, None], false);
        }
    }
    // only where the arc is u the order is the arc's
    let orders: &[bool] = if line == V { &[false, true] } else { &[false] };
    for exchanged in orders {
        add(Counted::Both, [None; 2], *exchanged);
        for end in [0, 1] {
            add(Counted::Both, [Some(end), None], *exchanged);
            add(Counted::Both, [None, Some(end)], *exchanged);
            add(Counted::Both, [Some(end), Some(1 - end)], *exchanged);
        }
    }
    all
}

impl fmt::Display for Branch {
    fn fmt(&self, f: &mut fmt::Formatter) -> fmt::Result {
        let order = |line: usize| {
            if line == V {
                "line and arc"
            } else {
                "arc and line"
            }
        };
        match *self {
            Branch::Lines => write!(f, "two lines"),
            Branch::LineMisses { line } => write!(f, "{}, nothing found", order(line)),
            Branch::LineTouches { line, how } => {
                write!(f, "{}, touching, ", order(line))?;
                match how {
                    Touching::End(end) => write!(f, "p{end} stands in"),
                    Touching::OutOfRange => write!(f, "out of range"),
                    Touching::Tested => write!(f, "tested"),
                }
            }
            Branch::LineCrosses {
                line,
                counted,
                ends,
                exchanged,
            } => {
                write!(f, "{}, crossing, {counted}", order(line))?;
                match ends {
                    [None, None] => {}
                    [Some(end), None] if counted != Counted::Both => {
                        write!(f, ", p{end} stands in")?
                    }
                    [first, second] => {
                        let name =
                            |end: Option<u8>| end.map_or("-".to_string(), |end| format!("p{end}"));
                        write!(f, ", {} {} stand in", name(first), name(second))?;
                    }
                }
                if exchanged {
                    write!(f, ", exchanged")?;
                }
                Ok(())
            }
            Branch::ArcsMiss => write!(f, "two arcs, nothing found"),
            Branch::ArcsTouch(how) => {
                write!(f, "two arcs, touching, ")?;
                match how {
                    TouchingArcs::End(end) => {
                        write!(f, "{} answers", ["u1", "u2", "v1", "v2"][usize::from(end)])
                    }
                    TouchingArcs::FirstSaysNo => write!(f, "the first says no"),
                    TouchingArcs::SecondSaysNo => write!(f, "the second says no"),
                    TouchingArcs::BothSayYes => write!(f, "both say yes"),
                }
            }
            Branch::ArcsCross {
                counted,
                slots,
                taken,
            } => {
                let slots = ["no end", "one end", "two ends"][slots];
                write!(f, "two arcs, crossing, {counted}, {slots}")?;
                match taken {
                    Some(point) => write!(f, " for the {}", ["first", "second"][point]),
                    None => Ok(()),
                }
            }
            Branch::OneCircle => write!(f, "one circle"),
        }
    }
}

impl fmt::Display for Counted {
    fn fmt(&self, f: &mut fmt::Formatter) -> fmt::Result {
        let name = match self {
            Counted::Neither => "neither counted",
            Counted::First => "the first counted",
            Counted::Second => "the second counted",
            Counted::Both => "both counted",
        };
        write!(f, "{name}")
    }
}
