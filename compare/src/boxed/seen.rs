//! What came up among the pairs of a listing: boxes that all but touch, arcs whose chord decides, groups that are apart.

use super::index::{bounds, is_arc, meet, Bounds, Boxes, A_GROUP};
use crate::listings::model::{Listed, Path, Row};
use crate::pages::model::in_order;

/// Which least number is beside which greatest: the first box's x and y beside the second's, then the other way round.
pub const SIDES: [&str; 4] = [
    "the first's least x",
    "the first's least y",
    "the second's least x",
    "the second's least y",
];
/// How the least lies beside the other's greatest.
pub const GAPS: [&str; 3] = ["a last bit below", "equal to", "a last bit above"];
/// Which of two segments are arcs.
pub const SORTS: [&str; 4] = ["two lines", "arc and line", "line and arc", "two arcs"];

#[derive(Clone, Copy, Default)]
pub struct Seen {
    /// A bit for each side, gap and sort.
    edges: u64,
    /// A bit for each side and gap of two groups. If they meet, so do segments of theirs.
    group_edges: u16,
    /// A bit for each path whose arc meets by its chord only, and the same again for those with a row.
    by_chord: u8,
    /// Two groups that are apart, and two that meet though none of their pairs does.
    pub groups_apart: bool,
    pub groups_in_vain: bool,
    /// Boxes meet in one group of one path, or in two groups.
    pub in_one_group: bool,
    pub in_two_groups: bool,
    /// Rows stand otherwise than from group to group.
    pub rows_across_groups: bool,
    /// Pairs of one trace: whose boxes meet, whose are apart.
    pub of_one_trace: bool,
    pub of_one_trace_apart: bool,
    /// A segment, of each path, of which each pair is of one trace; and two groups that meet, of which each pair is.
    pub segment_of_one_trace: [bool; 2],
    pub groups_of_one_trace: bool,
}

impl Seen {
    pub fn of(listed: Listed, epsilon: f64, boxes: &[Boxes; 2], rows: &[Row]) -> Seen {
        let mut seen = Seen::default();
        let (first, second) = match listed {
            Listed::Mutual(first, second) => (first, second),
            Listed::Own(path) => (path, path),
        };
        let thin = [first, second].map(|path| without_chords(path, epsilon));
        let sort = [first, second].map(arcs);
        let mut groups = Groups::new(boxes, matches!(listed, Listed::Own(_)));
        let mut rows = rows.iter().map(|row| row.indices).peekable();
        in_order(listed, |pair| {
            let [i, j] = pair.map(|index| index as usize);
            let (a, b) = (&boxes[0].segments[i], &boxes[1].segments[j]);
            let row = rows.next_if_eq(&pair).is_some();
            let met = meet(a, b);
            let over = listed.passes_over([i, j]);
            groups.count(i, j, met, met && row, over);
            if over {
                // its boxes decide nothing
                seen.of_one_trace |= met;
                seen.of_one_trace_apart |= !met;
                return;
            }
            let sort = usize::from(sort[0][i]) + 2 * usize::from(sort[1][j]);
            all_but_touching(a, b, |side, gap| {
                seen.edges |= 1 << (4 * (3 * side + gap) + sort);
            });
            if met {
                let by = u8::from(!meet(&thin[0][i], b)) + 2 * u8::from(!meet(a, &thin[1][j]));
                seen.by_chord |= if row { by | by << 2 } else { by };
            }
        });
        groups.tell(&mut seen);
        seen
    }

    pub fn has_edge(&self, side: usize, gap: usize, sort: usize) -> bool {
        self.edges >> (4 * (3 * side + gap) + sort) & 1 != 0
    }

    pub fn has_group_edge(&self, side: usize, gap: usize) -> bool {
        self.group_edges >> (3 * side + gap) & 1 != 0
    }

    pub fn is_by_chord(&self, path: usize, row: bool) -> bool {
        self.by_chord >> (path + 2 * usize::from(row)) & 1 != 0
    }
}

/// Where two boxes all but touch, if they meet on the other sides.
pub fn all_but_touching(a: &Bounds, b: &Bounds, mut found: impl FnMut(usize, usize)) {
    let sides = [(a[0], b[2]), (a[1], b[3]), (b[0], a[2]), (b[1], a[3])];
    let apart = sides.iter().filter(|(least, most)| least > most).count();
    if apart > 1 {
        return;
    }
    for (side, (least, most)) in sides.into_iter().enumerate() {
        let gap = place(least) - place(most) + 1;
        let decides = if apart == 0 { 0..2 } else { 2..3 };
        if decides.contains(&gap) {
            found(side, gap as usize);
        }
    }
}

/// The number of a float among all of them, in order. Zero has one.
pub fn place(x: f64) -> i64 {
    let magnitude = x.abs().to_bits() as i64;
    if x < 0.0 {
        -magnitude
    } else {
        magnitude
    }
}

/// Boxes with the epsilon alone, for lines and for arcs.
fn without_chords(path: Path, epsilon: f64) -> Vec<Bounds> {
    let segments = (0..path.segments()).map(|i| path.segment(i));
    segments
        .map(|(from, to)| bounds(from, to, epsilon))
        .collect()
}

fn arcs(path: Path) -> Vec<bool> {
    let segments = (0..path.segments()).map(|i| path.segment(i));
    segments.map(|(from, _)| is_arc(from)).collect()
}

/// The pairs of two groups, how many of them meet, and how many are of one trace.
struct Groups<'a> {
    boxes: &'a [Boxes; 2],
    own: bool,
    /// Pairs, those whose boxes meet, and those of one trace.
    pairs: Vec<[u32; 3]>,
    /// Pairs of each segment, and those of one trace.
    of_segments: [Vec<[u32; 2]>; 2],
    last_row: [usize; 2],
    across: bool,
}

impl<'a> Groups<'a> {
    fn new(boxes: &'a [Boxes; 2], own: bool) -> Groups<'a> {
        let count = boxes[0].groups.len() * boxes[1].groups.len();
        Groups {
            boxes,
            own,
            pairs: vec![[0; 3]; count],
            of_segments: [0, 1].map(|at: usize| vec![[0; 2]; boxes[at].segments.len()]),
            last_row: [0; 2],
            across: false,
        }
    }

    fn count(&mut self, i: usize, j: usize, met: bool, row: bool, over: bool) {
        let (g, h) = (i / A_GROUP, j / A_GROUP);
        let pair = &mut self.pairs[g * self.boxes[1].groups.len() + h];
        pair[0] += 1;
        pair[1] += u32::from(met);
        pair[2] += u32::from(over);
        for (at, index) in [i, j].into_iter().enumerate() {
            // of one path each segment's pairs are those in which it is either
            let segments = &mut self.of_segments[if self.own { 0 } else { at }];
            segments[index][0] += 1;
            segments[index][1] += u32::from(over);
        }
        if row {
            self.across |= self.last_row[0] == g && self.last_row[1] > h;
            self.last_row = [g, h];
        }
    }

    fn tell(&self, seen: &mut Seen) {
        let [first, second] = self.boxes;
        for (at, [pairs, met, over]) in self.pairs.iter().enumerate() {
            if *pairs == 0 {
                continue;
            }
            let (g, h) = (at / second.groups.len(), at % second.groups.len());
            let (a, b) = (&first.groups[g], &second.groups[h]);
            let (meeting, same) = (meet(a, b), self.own && g == h);
            seen.groups_apart |= !meeting;
            seen.groups_in_vain |= meeting && *met == 0;
            seen.in_one_group |= same && *met > 0;
            seen.in_two_groups |= !same && *met > 0;
            seen.groups_of_one_trace |= meeting && over == pairs;
            if !meeting || *met > 0 {
                all_but_touching(a, b, |side, gap| seen.group_edges |= 1 << (3 * side + gap));
            }
        }
        seen.rows_across_groups = self.across;
        for (at, segments) in self.of_segments.iter().enumerate() {
            let all = |[pairs, over]: &[u32; 2]| *pairs > 0 && pairs == over;
            seen.segment_of_one_trace[at] = segments.iter().any(all);
        }
    }
}
