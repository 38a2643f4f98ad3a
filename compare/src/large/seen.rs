//! What came up in a listing of this mode, read from its paths and from its rows. Each sight is a bit.

use super::cut::{segment, RULE};
use super::model::Large;
use crate::boxed::index::A_GROUP;
use crate::crossing::faults::two_to;
use crate::inputs::values::COORDINATE_LIMIT;
use crate::listings::model::{Listed, Path, MOST_VERTICES};

#[derive(Clone, Copy, Debug, PartialEq)]
pub enum Sight {
    /// A row of these halves.
    Row([u64; 2]),
    /// A row of this class, of which a segment is a half.
    Class(u64),
    /// Both halves of one arc of one path: they make a row, or meet at the cut only.
    OneArcRow,
    OneArcNone,
    /// The first half of an arc and the next segment, which is no neighbour, make a row.
    FirstAndNext,
    /// The second half of an arc and the next segment, its neighbour: a row, or none.
    SecondAndNextRow,
    SecondAndNextNone,
    /// The same of the closing arc and segment 0.
    ClosingFirst,
    ClosingSecondRow,
    ClosingSecondNone,
    /// A pair of one trace: this side's segment is this half.
    Passed([usize; 2]),
    /// A segment with a bulge at a limit, by its place below and its sign.
    Bulge(usize, bool),
    /// The cut point is at the limit: which coordinate, and whether it is below 0.
    AtLimit(usize, bool),
    /// An open path whose last bulge is above 1.
    LastBulge,
    /// A closed path of two: which of its segments are cut.
    Two([bool; 2]),
    /// The closing segment is cut.
    ClosingCut,
    /// A bulge of 1 with a chord of 2^-40; a cut arc with a shorter chord; one of 2^-43 with a bulge of 16.
    ShortAtOne,
    ShortCut,
    ShortAtMost,
    /// As many vertices as can be, each arc cut: of this path.
    AllCut(usize),
    /// A group of 16 that begins with a second half.
    GroupWithin,
    /// A row whose boxes are apart.
    RowApart,
    /// The boxes of old segments would be fewer groups.
    MoreGroups,
    /// Neither path is cut, and there are rows.
    NoneCut,
    /// A first path with cuts and a second without, and the other way round.
    OnlyCut(usize),
}

/// The bulges at limits, in the order of their places.
pub const LIMITS: [(&str, fn() -> f64); 5] = [
    ("the float below 1", || 1f64.next_down()),
    ("1", || 1.0),
    ("the float above 1", || 1f64.next_up()),
    ("the float below 16", || 16f64.next_down()),
    ("16", || 16.0),
];

impl Sight {
    fn bit(self) -> u128 {
        let sign = usize::from;
        let at = match self {
            Sight::Row([a, b]) => 3 * a as usize + b as usize,
            Sight::Class(class) => 9 + class as usize,
            Sight::OneArcRow => 15,
            Sight::OneArcNone => 16,
            Sight::FirstAndNext => 17,
            Sight::SecondAndNextRow => 18,
            Sight::SecondAndNextNone => 19,
            Sight::ClosingFirst => 20,
            Sight::ClosingSecondRow => 21,
            Sight::ClosingSecondNone => 22,
            Sight::Passed([side, half]) => 23 + 2 * side + half - 1,
            Sight::Bulge(place, negative) => 27 + 2 * place + sign(negative),
            Sight::AtLimit(axis, negative) => 37 + 2 * axis + sign(negative),
            Sight::LastBulge => 41,
            Sight::Two([a, b]) => 42 + sign(a) + 2 * sign(b),
            Sight::ClosingCut => 46,
            Sight::ShortAtOne => 47,
            Sight::ShortCut => 48,
            Sight::ShortAtMost => 49,
            Sight::AllCut(path) => 50 + path,
            Sight::GroupWithin => 52,
            Sight::RowApart => 53,
            Sight::MoreGroups => 54,
            Sight::NoneCut => 55,
            Sight::OnlyCut(path) => 56 + path,
        };
        1 << at
    }

    /// Those that a listing of two paths must meet, or of one.
    pub fn of(own: bool) -> Vec<Sight> {
        let mut all = Vec::new();
        for a in 0..3 {
            all.extend([0, 1, 2].map(|b| Sight::Row([a, b])));
        }
        all.extend([1, 2, 3, 5].map(Sight::Class));
        for side in 0..2 {
            all.extend([1, 2].map(|half| Sight::Passed([side, half])));
        }
        for place in 0..LIMITS.len() {
            all.extend([false, true].map(|negative| Sight::Bulge(place, negative)));
        }
        for axis in 0..2 {
            all.extend([false, true].map(|negative| Sight::AtLimit(axis, negative)));
        }
        for a in [false, true] {
            all.extend([false, true].map(|b| Sight::Two([a, b])));
        }
        all.extend([
            Sight::LastBulge,
            Sight::ClosingCut,
            Sight::ShortAtOne,
            Sight::ShortCut,
            Sight::ShortAtMost,
            Sight::GroupWithin,
            Sight::RowApart,
            Sight::MoreGroups,
            Sight::NoneCut,
        ]);
        if !own {
            all.extend([Sight::AllCut(1), Sight::OnlyCut(0), Sight::OnlyCut(1)]);
        }
        all.push(Sight::AllCut(0));
        if own {
            all.extend([
                Sight::OneArcRow,
                Sight::OneArcNone,
                Sight::FirstAndNext,
                Sight::SecondAndNextRow,
                Sight::SecondAndNextNone,
                Sight::ClosingFirst,
                Sight::ClosingSecondRow,
                Sight::ClosingSecondNone,
            ]);
        }
        all
    }
}

#[derive(Clone, Copy, Default)]
pub struct Seen(u128);

impl Seen {
    pub fn has(self, sight: Sight) -> bool {
        self.0 & sight.bit() != 0
    }

    fn see(&mut self, sight: Sight) {
        self.0 |= sight.bit();
    }

    /// Of a listing without a fault.
    pub fn of(listed: Listed, large: &Large) -> Seen {
        let mut seen = Seen::default();
        let paths = listed.paths();
        for (at, path) in paths.iter().enumerate() {
            seen.path(*path, large.cuts[at].names.len(), at);
        }
        for cut in &large.cuts[..paths.len()] {
            let starts = cut.names.iter().step_by(A_GROUP);
            if starts.clone().any(|(_, half)| *half == 2) {
                seen.see(Sight::GroupWithin);
            }
            let old = cut.names.last().map_or(0, |(i, _)| *i as usize + 1);
            if cut.names.len().div_ceil(A_GROUP) > old.div_ceil(A_GROUP) {
                seen.see(Sight::MoreGroups);
            }
        }
        seen.rows(large);
        match [0, 1].map(|at: usize| large.cuts[at].is_cut()) {
            [false, false] if large.rows() > 0 => seen.see(Sight::NoneCut),
            [true, false] => seen.see(Sight::OnlyCut(0)),
            [false, true] => seen.see(Sight::OnlyCut(1)),
            _ => {}
        }
        if let [path] = paths[..] {
            seen.joints(path, large);
        }
        seen.traces(large, paths.len() == 1);
        seen
    }

    fn rows(&mut self, large: &Large) {
        let mut boxed = large.boxed_rows.iter().peekable();
        for row in 0..large.rows() {
            let halves = large.names(row).map(|(_, half)| half);
            self.see(Sight::Row(halves));
            if halves != [0, 0] {
                self.see(Sight::Class(large.found.rows[row].class));
            }
            if boxed.next_if(|at| **at == row).is_none() {
                self.see(Sight::RowApart);
            }
        }
    }

    fn path(&mut self, path: Path, segments: usize, at: usize) {
        let vertices = path.vertices();
        for i in 0..path.segments() {
            let s = segment(path, i);
            let bulge = s[2];
            for (place, (_, limit)) in LIMITS.iter().enumerate() {
                if bulge.abs() == limit() {
                    self.see(Sight::Bulge(place, bulge < 0.0));
                }
            }
            let (dx, dy) = (s[3] - s[0], s[4] - s[1]);
            let chord = (dx * dx + dy * dy).sqrt();
            if bulge.abs() == 1.0 && chord == two_to(-40) {
                self.see(Sight::ShortAtOne);
            }
            if !(RULE.cuts)(bulge) {
                continue;
            }
            if chord < two_to(-40) {
                self.see(Sight::ShortCut);
            }
            if chord == two_to(-43) && bulge.abs() == 16.0 {
                self.see(Sight::ShortAtMost);
            }
            let point = (RULE.point)(s);
            for (axis, coordinate) in point.into_iter().enumerate() {
                if coordinate.abs() == COORDINATE_LIMIT {
                    self.see(Sight::AtLimit(axis, coordinate < 0.0));
                }
            }
            if path.closed && i + 1 == vertices {
                self.see(Sight::ClosingCut);
            }
        }
        if !path.closed && vertices > 1 && path.vertex(vertices - 1).bulge.abs() > 1.0 {
            self.see(Sight::LastBulge);
        }
        if path.closed && vertices == 2 {
            let cut = [0, 1].map(|i| (RULE.cuts)(path.vertex(i).bulge));
            self.see(Sight::Two(cut));
        }
        if vertices == MOST_VERTICES && segments == 2 * path.segments() {
            self.see(Sight::AllCut(at));
        }
    }

    /// Neighbours, and those that are none.
    fn joints(&mut self, path: Path, large: &Large) {
        let cut = &large.cuts[0];
        let count = cut.names.len();
        let row = |i: usize, j: usize| {
            let wanted = [i as u64, j as u64];
            let rows = &large.found.rows;
            rows.binary_search_by_key(&wanted, |row| row.indices)
                .is_ok()
        };
        for i in 0..count {
            let (_, half) = cut.names[i];
            let (next, behind) = (i + 1, i + 2);
            match half {
                1 => {
                    let of_one = row(i, next);
                    self.see(if of_one {
                        Sight::OneArcRow
                    } else {
                        Sight::OneArcNone
                    });
                    if behind < count && row(i, behind) {
                        self.see(Sight::FirstAndNext);
                    }
                }
                2 if next < count => self.see(if row(i, next) {
                    Sight::SecondAndNextRow
                } else {
                    Sight::SecondAndNextNone
                }),
                _ => {}
            }
        }
        if path.closed && count > 3 && cut.names[count - 1].1 == 2 {
            self.see(if row(0, count - 1) {
                Sight::ClosingSecondRow
            } else {
                Sight::ClosingSecondNone
            });
            if row(0, count - 2) {
                self.see(Sight::ClosingFirst);
            }
        }
    }

    /// Which halves are of one trace with another segment. Only few pairs are looked for.
    fn traces(&mut self, large: &Large, own: bool) {
        const LOOKED_AT: usize = 64;
        let [first, second] = [0, 1].map(|at: usize| large.cuts[at].path());
        for i in 0..first.segments().min(LOOKED_AT) {
            let from = if own { i + 1 } else { 0 };
            for j in from..second.segments().min(LOOKED_AT) {
                if first.trace(i) > 0.0 && first.trace(i) == second.trace(j) {
                    let halves = [large.cuts[0].names[i].1, large.cuts[1].names[j].1];
                    for (side, half) in halves.into_iter().enumerate() {
                        if half > 0 {
                            self.see(Sight::Passed([side, half as usize]));
                        }
                    }
                }
            }
        }
    }
}
