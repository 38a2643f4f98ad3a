//! A stand-in for the library, right or with a defect in the full listing, in pages or in the boxed listing. Which vertices two
//! segments share it finds from the ends of each.

use std::cell::Cell;

use cavalier_contours::polyline::{pline_seg_intr, PlineSegIntr, PlineVertex};

use super::Ours;
use crate::boxed::model::Boxed;
use crate::capi::{Rows, Span};
use crate::listings::model::{no_row_left, row_room, Listed, Path, Row};
use crate::listings::stand_in::passes_over;

pub const STAND_IN: Ours = Ours { full, page, boxed };

/// Which of the calls has the defect.
#[derive(Clone, Copy, Debug, PartialEq)]
pub enum Of {
    Full,
    Page,
    Boxed,
}

thread_local! {
    static DEFECT: Cell<(&'static str, Of)> = const { Cell::new(("", Of::Full)) };
    /// The call that is made.
    static NOW: Cell<Of> = const { Cell::new(Of::Full) };
}

/// Gives a call a defect, or none if the name is empty.
pub fn set(defect: &'static str, of: Of) {
    DEFECT.set((defect, of));
}

fn is(defect: &str) -> bool {
    DEFECT.get() == (defect, NOW.get())
}

/// The vertices that both segments have as an end, by index.
fn common(path: Path, i: usize, j: usize) -> Vec<usize> {
    let n = path.vertices();
    let ends = |at: usize| [at, (at + 1) % n];
    let mut common = ends(i).to_vec();
    common.retain(|end| ends(j).contains(end));
    let at = |vertex: usize| {
        let PlineVertex { x, y, .. } = path.vertex(vertex);
        (x, y)
    };
    let (last, around) = (
        path.segments() - 1,
        path.closed && j > i + 1 && common == [0],
    );
    let no_length = |k: usize| at(k) == at((k + 1) % n);
    match () {
        _ if is("the closing joint forgotten") && around => vec![],
        _ if is("vertex 0 only at two segments") && common.len() == 2 => vec![0],
        _ if is("vertex 1 only at two segments") && common.len() == 2 => vec![1],
        _ if is("the closing joint at the last vertex") && around => vec![n - 1],
        _ if is("the vertex before") && j == i + 1 => vec![i],
        _ if is("the vertex behind") && j == i + 1 => vec![(j + 1) % n],
        _ if is("any end of the two") && !common.is_empty() => [ends(i), ends(j)].concat(),
        _ if is("an open path's ends are neighbours") => {
            if !path.closed && i == 0 && j == last && at(0) == at(n - 1) {
                common.push(0);
            }
            common
        }
        _ if is("neighbours by their places") => {
            let same = |end: &usize| ends(j).iter().any(|other| at(*other) == at(*end));
            ends(i).into_iter().filter(same).collect()
        }
        _ if is("over a segment without length") && j == i + 2 && no_length(i + 1) => vec![j],
        _ => common,
    }
}

fn near(p: [f64; 2], v: PlineVertex, epsilon: f64) -> bool {
    let epsilon = match () {
        _ if is("the default epsilon") => 1e-8,
        _ if is("twice epsilon") => 2.0 * epsilon,
        _ if is("half of epsilon") => epsilon / 2.0,
        _ if is("at least the default epsilon") => epsilon.max(1e-8),
        _ => epsilon,
    };
    let [x, y] = [(p[0] - v.x).abs(), (p[1] - v.y).abs()];
    match () {
        _ if is("distance for coordinates") => x * x + y * y < epsilon * epsilon,
        _ if is("the root of the distance for coordinates") => (x * x + y * y).sqrt() < epsilon,
        _ if is("the sum of both") => x + y < epsilon,
        _ if is("x only") => x < epsilon,
        _ if is("y only") => y < epsilon,
        _ if is("at most for less") => x <= epsilon && y <= epsilon,
        _ if is("at most for less, in x") => x <= epsilon && y < epsilon,
        _ if is("at most for less, in y") => x < epsilon && y <= epsilon,
        _ if is("without the magnitude, in x") => p[0] - v.x < epsilon && y < epsilon,
        _ if is("without the magnitude, in y") => x < epsilon && p[1] - v.y < epsilon,
        _ if is("the other's magnitude") => v.x - p[0] < epsilon && v.y - p[1] < epsilon,
        _ if is("only the same place") => x == 0.0 && y == 0.0,
        _ => x < epsilon && y < epsilon,
    }
}

/// Whether a pair that meets makes no row.
fn silent(path: Path, row: &Row, epsilon: f64) -> bool {
    let [i, j] = row.indices.map(|index| index as usize);
    let common = common(path, i, j);
    if common.is_empty() {
        return false;
    }
    let mut points: Vec<[f64; 2]> = row.points().collect();
    let some = |p: &[f64; 2]| common.iter().any(|k| near(*p, path.vertex(*k), epsilon));
    let overlap = row.class >= 4;
    match () {
        _ if is("neighbours never make a row") => return true,
        _ if is("neighbours always make a row") => return false,
        _ if is("overlaps silent") && overlap => return true,
        _ if is("lines on each other silent") && row.class == 4 => return true,
        _ if is("arcs on each other silent") && row.class == 5 => return true,
        _ if is("overlaps tested like the others") => return points.iter().all(some),
        _ if overlap => return false,
        _ if is("tangent joints make rows") && row.class == 1 => return false,
        _ if is("joints of one point make rows") && row.class == 2 => return false,
        _ if is("joints of two points make rows") && row.class == 3 => return false,
        _ if is("only the first of two points") => points.truncate(1),
        _ if is("only the last of two points") => points = points.split_off(points.len() - 1),
        _ if is("one near point is enough") => return points.iter().any(some),
        _ if is("all points near to the same vertex") => {
            let all = |k: &usize| points.iter().all(|p| near(*p, path.vertex(*k), epsilon));
            return common.iter().any(all);
        }
        _ => {}
    }
    points.iter().all(some)
}

/// A pair, its row if it makes one, and whether it is of one trace.
type Found = ([u64; 2], Option<Row>, bool);

/// Each pair in order.
fn pairs(path: Path, epsilon: f64) -> Vec<Found> {
    let mut all = Vec::new();
    for j in 0..path.segments() {
        for i in 0..j {
            let ((v1, v2), (u1, u2)) = (path.segment(i), path.segment(j));
            let answer = pline_seg_intr(v1, v2, u1, u2, epsilon);
            let meets = !matches!(answer, PlineSegIntr::NoIntersect);
            let row = meets.then(|| Row::new([i, j], answer));
            let at_joint = row.as_ref().is_some_and(|row| silent(path, row, epsilon));
            let around = path.closed && i == 0 && j + 1 == path.segments();
            let passed = match () {
                _ if is("neighbours passed over") => j == i + 1 || around,
                _ if is("the next one passed over") => j == i + 1,
                _ if is("the closing one passed over") => around,
                _ if is("silent pairs are not counted") => at_joint,
                _ => false,
            };
            if !passed {
                let pair = [i as u64, j as u64];
                let over = passes_over(Listed::Own(path), pair, &is);
                let silent = match () {
                    _ if is("neighbours of one trace that fold make a row") => {
                        at_joint || over && !(j == i + 1 || around)
                    }
                    _ => at_joint || over,
                };
                all.push((pair, row.filter(|_| !silent), over));
            }
        }
    }
    all.sort_by_key(|(pair, ..)| *pair);
    if is("neighbours of one trace are counted") {
        for ([i, j], _, over) in &mut all {
            *over &= *j != *i + 1;
        }
    }
    all
}

/// Without the pairs of one trace.
fn looked_at(path: Path, epsilon: f64) -> Vec<Found> {
    let mut all = pairs(path, epsilon);
    all.retain(|(_, row, over)| !over || row.is_some());
    all
}

fn rows(pairs: &[Found]) -> Vec<&Row> {
    pairs
        .iter()
        .filter_map(|(_, row, _)| row.as_ref())
        .collect()
}

fn own(listed: Listed) -> Path {
    match listed {
        Listed::Own(path) => path,
        Listed::Mutual(..) => unreachable!("joints are of one path"),
    }
}

/// Writes the rows, or refuses.
fn write(rows: &[&Row], counts: &[u64], lent: Rows) -> u64 {
    if lent.counts.len() < counts.len() {
        return crate::crossing::NO_ROOM;
    }
    if rows.len() > row_room(lent.indices.len(), lent.points.len()) {
        return no_row_left().word();
    }
    for (k, row) in rows.iter().enumerate() {
        let indices = [row.indices[0], row.indices[1], row.class];
        lent.indices[3 * k..3 * k + 3].copy_from_slice(&indices);
        lent.points[4 * k..4 * k + 4].copy_from_slice(&row.points);
    }
    lent.counts[..counts.len()].copy_from_slice(counts);
    0
}

fn full(listed: Listed, epsilon: f64, lent: Rows) -> u64 {
    NOW.set(Of::Full);
    let pairs = looked_at(own(listed), epsilon);
    let rows = rows(&pairs);
    write(&rows, &[rows.len() as u64, pairs.len() as u64], lent)
}

fn page(listed: Listed, epsilon: f64, span: Span, lent: Rows) -> u64 {
    NOW.set(Of::Page);
    let mut pairs = pairs(own(listed), epsilon);
    if is("neighbours of one trace have no position") {
        pairs.retain(|([i, j], _, over)| !(*over && *j == *i + 1));
    }
    let room = row_room(lent.indices.len(), lent.points.len());
    let from = pairs.len().min(span.position as usize);
    let mut rows: Vec<&Row> = Vec::new();
    let mut passed = 0;
    for (_, row, _) in &pairs[from..] {
        let full = rows.len() == room && row.is_some();
        if full || passed == span.budget {
            break;
        }
        rows.extend(row);
        passed += 1;
    }
    let next = span.position + passed;
    let counts = [rows.len() as u64, passed, next, pairs.len() as u64];
    write(&rows, &counts, lent)
}

fn boxed(listed: Listed, epsilon: f64, boxes: &mut [f64], lent: Rows) -> u64 {
    NOW.set(Of::Boxed);
    let model = Boxed::new(listed, epsilon);
    if lent.counts.len() < 2 {
        return crate::crossing::NO_ROOM;
    }
    if boxes.len() < model.floats {
        return crate::boxed::model::no_index_fits().word();
    }
    let mut pairs = looked_at(own(listed), epsilon);
    pairs.retain(|(pair, ..)| model.boxes_meet(*pair));
    let rows = rows(&pairs);
    let word = write(&rows, &[rows.len() as u64, pairs.len() as u64], lent);
    if word == 0 {
        boxes[..model.floats].copy_from_slice(&model.index);
    }
    word
}
