//! Every path of lines of up to three vertices, and closed of up to four, on a grid of 6 by 6. Each is compared with the model,
//! and its neighbours are judged by whole numbers, without the model: they make a row exactly if they share more than one point.

use super::run::Run;
use crate::capi::Rows;
use crate::listings::layout::{Drawn, Layout};
use crate::listings::lent::is_row;
use crate::listings::model::Listed;
use crate::search::plane::{share_more, Spot};

const SIDE: u64 = 6;
const SPOTS: u64 = SIDE * SIDE;
const EPSILONS: [f64; 2] = [1.0 / 1024.0, 0.5];
/// Vertices of the longest path, open and closed.
const MOST: [u32; 2] = [3, 4];
/// Four segments have so many pairs.
const PAIRS: usize = 6;
/// One path in so many is asked in pages and boxed too; in a short run only one of the longest in so many is listed at all.
const ASKED: u64 = 211;
const SHORT: u64 = 61;
/// What a slice holds before the call.
const OLD: u64 = 0x7ff4_dead_beef_0001;

#[derive(Clone, Copy, Debug, Default, PartialEq)]
pub struct Count {
    pub paths: u64,
    pub neighbours: u64,
    pub rows: u64,
}

/// Every path, with each epsilon. Of a run that is not full, few of the longest.
pub fn every(run: &mut Run, full: bool) {
    for closed in [false, true] {
        for vertices in 0..=MOST[usize::from(closed)] {
            let longest = vertices == 4;
            let step = if longest && !full { SHORT } else { 1 };
            for number in (0..SPOTS.pow(vertices)).step_by(step as usize) {
                if !run.goes_on() {
                    return;
                }
                let spots = spots(number, vertices);
                for epsilon in EPSILONS {
                    list(run, &spots, closed, epsilon);
                    if number / step % ASKED == 0 || vertices < 2 {
                        run.once(&layout(&spots, closed, epsilon));
                    }
                }
            }
        }
    }
}

/// The vertices with this number: its digits.
fn spots(mut number: u64, vertices: u32) -> Vec<Spot> {
    let mut next = || {
        let digit = number % SPOTS;
        number /= SPOTS;
        Spot {
            x: (digit % SIDE) as i64,
            y: (digit / SIDE) as i64,
        }
    };
    (0..vertices).map(|_| next()).collect()
}

fn layout(spots: &[Spot], closed: bool, epsilon: f64) -> Layout {
    let vertices = spots.iter();
    let vertices = vertices.map(|spot| [spot.x as f64, spot.y as f64, 0.0]);
    Layout {
        first: Drawn::of(vertices, closed),
        second: Drawn::default(),
        epsilon,
    }
}

/// The full listing with room for each pair, and a place more.
fn list(run: &mut Run, spots: &[Spot], closed: bool, epsilon: f64) {
    let layout = layout(spots, closed, epsilon);
    let path = layout.first.path();
    let mut indices = [OLD; 3 * PAIRS + 1];
    let mut points = [f64::from_bits(OLD); 4 * PAIRS + 1];
    let mut counts = [OLD; 3];
    let lent = Rows {
        indices: &mut indices,
        points: &mut points,
        counts: &mut counts,
    };
    let answer = (run.ours.full)(Listed::Own(path), epsilon, lent);
    let expected = Listed::Own(path).rows(epsilon);
    let rows = expected.rows.len();
    let mut each = expected
        .rows
        .iter()
        .zip(indices.chunks(3).zip(points.chunks(4)));
    let right = answer == 0
        && counts == [rows as u64, expected.pairs, OLD]
        && each.all(|(row, (indices, points))| is_row(row, indices, points))
        && indices[3 * rows..].iter().all(|x| *x == OLD)
        && points[4 * rows..].iter().all(|x| x.to_bits() == OLD);
    if !right {
        run.differ(
            &layout,
            &format!("on the grid: {answer:#x}, {counts:?}, {indices:?}"),
        );
    }
    let found = (counts[0] as usize).min(PAIRS);
    let wrong = judge(spots, closed, &indices[..3 * found], &mut run.grid);
    if answer != 0 || wrong {
        run.differ(
            &layout,
            &format!("by whole numbers: {answer:#x}, {indices:?}"),
        );
    }
}

/// Whether some neighbours have a row and share no more than a point, or have none and share more. By whole numbers alone.
pub fn judge(spots: &[Spot], closed: bool, indices: &[u64], count: &mut Count) -> bool {
    let vertices = spots.len();
    let segments = match vertices {
        0 | 1 => 0,
        n if closed => n,
        n => n - 1,
    };
    let segment = |i: usize| [spots[i], spots[(i + 1) % vertices]];
    let mut wrong = false;
    for i in 0..segments {
        for j in i + 1..segments {
            let neighbours = j == i + 1 || closed && i == 0 && j == segments - 1;
            if !neighbours {
                continue;
            }
            let row = indices
                .chunks(3)
                .any(|row| row[..2] == [i as u64, j as u64]);
            wrong |= row != share_more(segment(i), segment(j));
            count.neighbours += 1;
            count.rows += u64::from(row);
        }
    }
    count.paths += 1;
    wrong
}
