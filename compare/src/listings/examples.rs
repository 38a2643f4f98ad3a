//! The model on what the scope states, and on listings that one can compute by hand.

use cavalier_contours::polyline::PlineVertex;

use super::layout::Drawn;
use super::model::{row_room, Listed, Listing, Rows};
use super::neighbours::is_near;
use super::shapes::{crossed, crossed_by_itself};
use crate::crossing::faults::{Fault, Item, Place};
use crate::vertex::{TRACE, VERTEX};

const EPSILON: f64 = 1e-5;
const NEXT_ABOVE_LIMIT: f64 = 1_048_576.0 + 1.0 / (1u64 << 32) as f64;

/// Vertices as x, y, bulge, with the trace 0.
fn path(vertices: &[[f64; 3]], closed: bool) -> Drawn {
    Drawn::of(vertices.iter().copied(), closed)
}

fn line(from: [f64; 2], to: [f64; 2]) -> Drawn {
    arc(from, to, 0.0)
}

fn arc(from: [f64; 2], to: [f64; 2], bulge: f64) -> Drawn {
    path(&[[from[0], from[1], bulge], [to[0], to[1], 0.0]], false)
}

/// The rows, or the refusal, with room for this many rows.
fn listing(listed: Listed, epsilon: f64, room: usize) -> Result<Rows, Fault> {
    let listing = Listing::new(listed, epsilon);
    match listing.fault(room) {
        Some(fault) => Err(fault),
        None => Ok(listing.rows),
    }
}

fn mutual(first: &Drawn, second: &Drawn, epsilon: f64, room: usize) -> Result<Rows, Fault> {
    listing(Listed::Mutual(first.path(), second.path()), epsilon, room)
}

fn own(drawn: &Drawn, room: usize) -> Result<Rows, Fault> {
    listing(Listed::Own(drawn.path()), EPSILON, room)
}

/// Indices, class and points of each row.
fn plain(rows: &Rows) -> Vec<([u64; 2], u64, Vec<f64>)> {
    let row = rows.rows.iter();
    row.map(|row| (row.indices, row.class, row.points[..row.given].to_vec()))
        .collect()
}

fn refusal(result: Result<Rows, Fault>) -> u64 {
    result.err().map_or(0, |fault| fault.number)
}

/// The one row of two single segments, or none.
fn pair(v: &Drawn, u: &Drawn, epsilon: f64) -> Option<(u64, Vec<f64>)> {
    let rows = mutual(v, u, epsilon, 1).expect("accepted");
    assert_eq!(rows.pairs, 1);
    let mut rows = plain(&rows);
    assert!(rows.iter().all(|(indices, ..)| *indices == [0, 0]));
    rows.pop().map(|(_, class, points)| (class, points))
}

#[test]
fn examples_d_to_l() {
    let half = arc([-1.0, 0.0], [1.0, 0.0], 1.0);
    let four = line([0.0, 0.0], [4.0, 0.0]);
    let two = line([0.0, 0.0], [2.0, 0.0]);
    let upright = line([2.0, 0.25], [2.0, 4.0]);
    let back = |bulge| arc([1.0, 0.0], [-1.0, 0.0], bulge);
    let found = |v: &Drawn, u: &Drawn| pair(v, u, EPSILON);

    let d = found(&four, &line([1.0, 0.0], [5.0, 0.0]));
    assert_eq!(d, Some((4, vec![1.0, 0.0, 4.0, 0.0])));
    let e = found(&two, &line([2.0, 0.0], [5.0, 0.0]));
    assert_eq!(e, Some((2, vec![2.0, 0.0])));
    assert_eq!(pair(&two, &line([3.0, 0.0], [5.0, 0.0]), 0.5), None);
    assert_eq!(pair(&four, &upright, 0.5), Some((2, vec![2.0, 0.0])));
    assert_eq!(pair(&four, &upright, 0.125), None);
    let h = found(&half, &back(1.0));
    assert_eq!(h, Some((3, vec![1.0, 0.0, -1.0, 0.0])));
    let i = found(&half, &back(-1.0));
    assert_eq!(i, Some((5, vec![1.0, 0.0, -1.0, 0.0])));
    let j = found(&line([0.0, -2.0], [0.0, 2.0]), &half);
    assert_eq!(j, Some((2, vec![0.0, -1.0])));
    let k = found(&line([-2.0, -1.0], [2.0, -1.0]), &half);
    assert_eq!(k, Some((1, vec![0.0, -1.0])));
    let l = found(&line([1.0, 0.0], [1.0, 0.0]), &two);
    assert_eq!(l, Some((2, vec![1.0, 0.0])));
}

/// The example of the program that lists.
#[test]
fn one_pair_one_row() {
    let first = line([0.0, 0.0], [4.0, 0.0]);
    let second = line([2.0, -2.0], [2.0, 2.0]);
    let rows = mutual(&first, &second, 1.0 / 1024.0, 1).expect("accepted");
    assert_eq!(rows.pairs, 1);
    assert_eq!(plain(&rows), [([0, 0], 2, vec![2.0, 0.0])]);
}

/// A square and a bar across it: rows are ordered by the first path's index, then by the second's.
#[test]
fn order_of_rows() {
    let square = [
        [0.0, 0.0, 0.0],
        [4.0, 0.0, 0.0],
        [4.0, 4.0, 0.0],
        [0.0, 4.0, 0.0],
    ];
    // right across at height 1, up on the outside, and back at height 3
    let bar = [
        [-1.0, 1.0, 0.0],
        [5.0, 1.0, 0.0],
        [5.0, 3.0, 0.0],
        [-1.0, 3.0, 0.0],
    ];
    let (square, bar) = (path(&square, true), path(&bar, false));
    let rows = mutual(&square, &bar, EPSILON, 4).expect("accepted");
    assert_eq!(rows.pairs, 12);
    let expected = [
        ([1, 0], 2, vec![4.0, 1.0]),
        ([1, 2], 2, vec![4.0, 3.0]),
        ([3, 0], 2, vec![0.0, 1.0]),
        ([3, 2], 2, vec![0.0, 3.0]),
    ];
    assert_eq!(plain(&rows), expected);
    let rows = mutual(&bar, &square, EPSILON, 4).expect("accepted");
    let indices: Vec<[u64; 2]> = rows.rows.iter().map(|row| row.indices).collect();
    assert_eq!(indices, [[0, 1], [0, 3], [2, 1], [2, 3]]);
}

/// The last segment of a closed path runs back to vertex 0 with the last bulge.
#[test]
fn closing_segment() {
    let ends = [[1.0, 0.0, 0.0], [-1.0, 0.0, 1.0]];
    let upright = line([0.0, -2.0], [0.0, 2.0]);
    let open = mutual(&path(&ends, false), &upright, EPSILON, 2).expect("accepted");
    assert_eq!(plain(&open), [([0, 0], 2, vec![0.0, 0.0])]);
    let closed = mutual(&path(&ends, true), &upright, EPSILON, 2).expect("accepted");
    let expected = [([0, 0], 2, vec![0.0, 0.0]), ([1, 0], 2, vec![0.0, -1.0])];
    assert_eq!((closed.pairs, plain(&closed)), (2, expected.to_vec()));
}

/// n segments have n (n - 1) / 2 pairs.
#[test]
fn pairs_looked_at() {
    let corners = [
        [0.0, 0.0, 0.0],
        [10.0, 0.0, 0.0],
        [20.0, 5.0, 0.0],
        [10.0, 10.0, 0.0],
        [0.0, 10.0, 0.0],
        [-10.0, 5.0, 0.0],
    ];
    let open = [0, 0, 0, 1, 3, 6, 10];
    let closed = [0, 0, 1, 3, 6, 10, 15];
    let segments = [0, 0, 1, 2, 3, 4, 5];
    let closed_segments = [0, 0, 2, 3, 4, 5, 6];
    let across = line([0.0, 50.0], [1.0, 50.0]);
    for n in 0..=corners.len() {
        let drawn = [path(&corners[..n], false), path(&corners[..n], true)];
        // to and fro, a closed path of two lines has a row
        let rows = [0, usize::from(n == 2)];
        let pairs = |at: usize| own(&drawn[at], rows[at]).expect("so many rows").pairs;
        assert_eq!([0, 1].map(pairs), [open[n], closed[n]]);
        let pairs = |drawn: &Drawn| mutual(drawn, &across, EPSILON, 0).expect("no rows").pairs;
        assert_eq!(
            drawn.each_ref().map(pairs),
            [segments[n], closed_segments[n]]
        );
    }
}

/// A loop that crosses itself: its first line and its last.
#[test]
fn own_crossing() {
    let path = path(
        &[
            [0.0, 0.0, 0.0],
            [2.0, 0.0, 0.0],
            [2.0, 2.0, 0.0],
            [1.0, 2.0, 0.0],
            [1.0, -1.0, 0.0],
        ],
        false,
    );
    let rows = own(&path, 1).expect("accepted");
    assert_eq!(rows.pairs, 6);
    assert_eq!(plain(&rows), [([0, 3], 2, vec![1.0, 0.0])]);
    assert_eq!(refusal(own(&path, 0)), 8);
}

/// The second segment runs back over the first: an overlap makes a row, also of neighbours.
#[test]
fn a_fold_at_a_joint() {
    let fold = [[0.0, 0.0, 0.0], [10.0, 0.0, 0.0], [5.0, 0.0, 0.0]];
    let open = own(&path(&fold, false), 1).expect("accepted");
    let row = ([0, 1], 4, vec![10.0, 0.0, 5.0, 0.0]);
    assert_eq!((open.pairs, plain(&open)), (1, vec![row.clone()]));
    // the last two run straight on
    let closed = own(&path(&fold, true), 2).expect("accepted");
    let back = ([0, 2], 4, vec![5.0, 0.0, 0.0, 0.0]);
    assert_eq!((closed.pairs, plain(&closed)), (3, vec![row, back]));
}

/// A circle of two half arcs: closed, they share both vertices, and open only the one between.
#[test]
fn shared_vertices() {
    let halves = [[-1.0, 0.0, 1.0], [1.0, 0.0, 1.0], [-1.0, 0.0, 0.0]];
    let closed = own(&path(&halves[..2], true), 0).expect("accepted");
    assert_eq!((closed.pairs, closed.rows.len()), (1, 0));
    let open = own(&path(&halves, false), 1).expect("accepted");
    assert_eq!(plain(&open), [([0, 1], 3, vec![1.0, 0.0, -1.0, 0.0])]);
    // of a square the first and the last side; by the same places they share none
    let square = [
        [0.0, 0.0, 0.0],
        [4.0, 0.0, 0.0],
        [4.0, 4.0, 0.0],
        [0.0, 4.0, 0.0],
        [0.0, 0.0, 0.0],
    ];
    let closed = own(&path(&square[..4], true), 0).expect("accepted");
    assert_eq!((closed.pairs, closed.rows.len()), (6, 0));
    let open = own(&path(&square, false), 1).expect("accepted");
    assert_eq!(
        (open.pairs, plain(&open)),
        (6, vec![([0, 3], 2, vec![0.0, 0.0])])
    );
    // closed, with a last side that is a point: the first shares vertex 0 with that
    let closed = own(&path(&square, true), 1).expect("accepted");
    assert_eq!(
        (closed.pairs, plain(&closed)),
        (10, vec![([0, 3], 2, vec![0.0, 0.0])])
    );
}

/// Strictly closer than epsilon, in x and in y.
#[test]
fn near_to_a_vertex() {
    let vertex = PlineVertex::new(1.0, -2.0, 0.5);
    let near = |x: f64, y: f64| is_near([x, y], vertex, 0.25);
    assert!(near(1.0, -2.0) && near(1.2, -2.2) && near(0.8, -1.8));
    assert!(!near(1.25, -2.0) && !near(0.75, -2.0));
    assert!(!near(1.0, -1.75) && !near(1.0, -2.25));
    assert!(!near(f64::NAN, -2.0) && !near(1.0, f64::INFINITY));
}

#[test]
fn one_path_lent_twice() {
    let bent = path(&[[0.0, 0.0, 0.0], [1.0, 0.0, 0.0], [1.0, 1.0, 0.0]], false);
    let rows = mutual(&bent, &bent, EPSILON, 4).expect("accepted");
    assert_eq!(rows.pairs, 4);
    let classes: Vec<_> = rows
        .rows
        .iter()
        .map(|row| (row.indices, row.class))
        .collect();
    assert_eq!(
        classes,
        [([0, 0], 4), ([0, 1], 2), ([1, 0], 2), ([1, 1], 4)]
    );
}

#[test]
fn limits() {
    let at = |x: f64, bulge: f64| path(&[[0.0, 0.0, bulge], [x, 0.0, 0.0]], false);
    let alone = |drawn: &Drawn| refusal(own(drawn, 0));
    assert_eq!(alone(&at(1_048_576.0, 0.0)), 0);
    assert_eq!(alone(&at(NEXT_ABOVE_LIMIT, 0.0)), 2);
    assert_eq!(alone(&at(1.0, 1.0)), 0);
    assert_eq!(alone(&at(1.0, 1.0 + f64::EPSILON)), 3);
    assert_eq!(alone(&at(0.0, 0.5)), 5);
    assert_eq!(alone(&at(0.0, 0.0)), 0);
    let short = 1.0 / (1u64 << 40) as f64;
    assert_eq!(alone(&at(short, 0.5)), 0);
    assert_eq!(alone(&at(short * (1.0 - f64::EPSILON), 0.5)), 5);
    for epsilon in [short, 0.5] {
        assert_eq!(refusal(mutual(&at(1.0, 0.0), &at(1.0, 0.0), epsilon, 9)), 0);
    }
    for epsilon in [f64::NAN, f64::INFINITY, 0.0, -0.25, short / 2.0, 0.5625] {
        assert_eq!(refusal(mutual(&at(1.0, 0.0), &at(1.0, 0.0), epsilon, 9)), 4);
    }
    let many = |vertices: usize| path(&vec![[0.0, 0.0, 0.0]; vertices], false);
    let few = many(1);
    assert_eq!(refusal(mutual(&many(4096), &few, EPSILON, 0)), 0);
    assert_eq!(refusal(mutual(&many(4097), &few, EPSILON, 0)), 7);
}

/// A single vertex has no segments, but its numbers are checked; so is the last bulge of an open path.
#[test]
fn numbers_of_no_segment() {
    assert_eq!(refusal(own(&path(&[[0.0, 0.0, 2.0]], false), 0)), 3);
    assert_eq!(refusal(own(&path(&[[0.0, f64::NAN, 0.0]], true), 0)), 11);
    let last = path(&[[0.0, 0.0, 0.0], [1.0, 0.0, f64::INFINITY]], false);
    assert_eq!(refusal(own(&last, 0)), 12);
    // a closing arc from a point to itself, and the same one open
    let ends = [[1.0, 1.0, 0.0], [1.0, 1.0, 1.0]];
    assert_eq!(refusal(own(&path(&ends, true), 0)), 5);
    assert_eq!(refusal(own(&path(&ends, false), 0)), 0);
}

/// Faults are removed one after the other, and each time the next in the scope's order shows.
#[test]
fn order_of_refusals() {
    let bad = [
        [f64::NAN, NEXT_ABOVE_LIMIT, 1.5],
        [0.0, 0.0, 1.0],
        [0.0, 0.0, 0.0],
    ];
    let mut first = path(&bad, false);
    first.numbers[TRACE] = 255.5;
    let mut second = first.clone();
    first.numbers.push(0.0);
    second.numbers.resize(VERTEX * 4097, 0.0);
    let mut epsilon = 1.0;
    let mut shown = Vec::new();
    let mut show = |first: &Drawn, second: &Drawn, epsilon: f64| {
        shown.push(mutual(first, second, epsilon, 0).err());
    };
    show(&first, &second, epsilon);
    epsilon = EPSILON;
    show(&first, &second, epsilon);
    first.numbers.pop();
    show(&first, &second, epsilon);
    second.numbers.truncate(3 * VERTEX);
    for at in 0..VERTEX {
        show(&first, &second, epsilon);
        first.numbers[at] = 0.0;
    }
    show(&first, &second, epsilon);
    first.numbers[2 * VERTEX] = 2.0;
    for at in 0..VERTEX {
        show(&first, &second, epsilon);
        second.numbers[at] = 0.0;
    }
    show(&first, &second, epsilon);
    second.numbers[2 * VERTEX] = 2.0;
    show(&first, &second, epsilon);

    let fault = |number, item, owner, index| Fault::new(number, Place::new(item, owner, index));
    let expected = [
        fault(4, Item::Epsilon, 0, 0),
        fault(6, Item::Length, 0, 0),
        fault(7, Item::Length, 1, 0),
        fault(11, Item::X, 0, 0),
        fault(2, Item::Y, 0, 0),
        fault(3, Item::Bulge, 0, 0),
        fault(15, Item::Trace, 0, 0),
        fault(5, Item::Chord, 0, 1),
        fault(11, Item::X, 1, 0),
        fault(2, Item::Y, 1, 0),
        fault(3, Item::Bulge, 1, 0),
        fault(15, Item::Trace, 1, 0),
        fault(5, Item::Chord, 1, 1),
        fault(8, Item::Rows, 0, 0),
    ];
    assert_eq!(shown, expected.map(Some));
}

/// Places by hand: the closing segment of a path, a path that is lent twice, a path by itself.
#[test]
fn places() {
    let told = |result: Result<Rows, Fault>| result.err().map_or(0, Fault::word);
    let line = line([0.0, 0.0], [4.0, 0.0]);
    let mut bad = path(&vec![[1.0, 2.0, 0.0]; 18], false);
    bad.numbers[VERTEX * 17 + 1] = f64::NAN;
    assert_eq!(told(mutual(&bad, &line, EPSILON, 0)), 0x11_0002_010b);
    assert_eq!(told(mutual(&line, &bad, EPSILON, 0)), 0x11_0102_010b);
    assert_eq!(told(mutual(&bad, &bad, EPSILON, 0)), 0x11_0002_010b);
    assert_eq!(told(own(&bad, 0)), 0x11_0002_010b);
    let closing = [[1.0, 1.0, 0.0], [3.0, 1.0, 0.0], [1.0, 1.0, -1.0]];
    let (open, closed) = (path(&closing, false), path(&closing, true));
    assert_eq!(told(mutual(&open, &closed, EPSILON, 9)), 0x2_0107_0105);
    assert_eq!(told(own(&closed, 9)), 0x2_0007_0105);
    assert_eq!(told(mutual(&line, &line, EPSILON, 0)), 0x9_0108);
}

/// A line across two others, by the traces of the three: rows, and pairs looked at.
#[test]
fn traces() {
    let across = |traces: [f64; 3], last: f64| {
        let mut one = line([0.0, 0.0], [10.0, 0.0]);
        one.numbers[TRACE] = traces[0];
        let upright = [[2.0, -1.0, 0.0], [2.0, 1.0, 0.0], [8.0, -1.0, 0.0]];
        let mut other = path(&upright, false);
        let of_other = [traces[1], traces[2], last];
        other
            .traces()
            .zip(of_other)
            .for_each(|(trace, of)| *trace = of);
        let rows = mutual(&one, &other, EPSILON, 2).expect("accepted");
        let indices: Vec<u64> = rows.rows.iter().map(|row| row.indices[1]).collect();
        (indices, rows.pairs)
    };
    // trace 0 is never passed over, with either sign, and an open path's last trace plays no part
    for zeros in [[0.0; 3], [-0.0; 3], [0.0, -0.0, 0.0], [-0.0, 0.0, -0.0]] {
        assert_eq!(across(zeros, 1.0), (vec![0, 1], 2));
    }
    assert_eq!(across([1.0, 0.0, -0.0], 1.0), (vec![0, 1], 2));
    assert_eq!(across([0.0, 1.0, 1.0], 0.0), (vec![0, 1], 2));
    assert_eq!(across([1.0, 2.0, 255.0], 1.0), (vec![0, 1], 2));
    assert_eq!(across([255.0, 255.0, 1.0], 255.0), (vec![1], 1));
    assert_eq!(across([255.0, 254.0, 255.0], 0.0), (vec![0], 1));
    assert_eq!(across([3.0; 3], 0.0), (vec![], 0));
}

/// A closing segment has the last vertex's trace: a triangle's closing side, and a line across it.
#[test]
fn traces_of_closing_segments() {
    let found = |traces: [f64; 3], of_line: f64| {
        let corners = [[0.0, 0.0, 0.0], [-5.0, 9.0, 0.0], [10.0, 0.0, 0.0]];
        let mut triangle = path(&corners, true);
        triangle
            .traces()
            .zip(traces)
            .for_each(|(trace, of)| *trace = of);
        let mut across = line([5.0, -1.0], [5.0, 1.0]);
        across.numbers[TRACE] = of_line;
        let rows = mutual(&triangle, &across, EPSILON, 1).expect("accepted");
        (plain(&rows).len(), rows.pairs)
    };
    assert_eq!(found([0.0, 0.0, 6.0], 6.0), (0, 2));
    assert_eq!(found([6.0, 0.0, 0.0], 6.0), (1, 2));
    assert_eq!(found([6.0, 6.0, 5.0], 6.0), (1, 1));
    assert_eq!(found([1.0, 2.0, 3.0], 4.0), (1, 3));
}

/// The numbers of a trace: told after the bulge, at its own place.
#[test]
fn traces_that_are_none() {
    let told = |trace: f64, closed: bool| {
        let mut last = path(&[[0.0, 0.0, 0.0], [1.0, 0.0, 0.0]], closed);
        last.numbers[VERTEX + TRACE] = trace;
        own(&last, 1).err().map_or(0, Fault::word)
    };
    for closed in [false, true] {
        for whole in 0..256 {
            assert_eq!(told(f64::from(whole), closed), 0);
        }
        assert_eq!(told(-0.0, closed), 0);
        for no_trace in [
            256.0,
            -1.0,
            0.5,
            254.5,
            f64::from_bits(1),
            -f64::from_bits(1),
        ] {
            assert_eq!(told(no_trace, closed), 0x1_000d_010f);
        }
        assert_eq!(told(f64::NAN, closed), 0x1_000d_010b);
        assert_eq!(told(f64::NEG_INFINITY, closed), 0x1_000d_010c);
    }
}

/// The smaller of the whole rows in the two slices.
#[test]
fn rooms() {
    assert_eq!(row_room(0, 0), 0);
    assert_eq!(row_room(2, 400), 0);
    assert_eq!(row_room(300, 3), 0);
    assert_eq!(row_room(11, 12), 3);
    assert_eq!(row_room(12, 11), 2);
    let first = line([0.0, 0.0], [4.0, 0.0]);
    let second = line([2.0, -2.0], [2.0, 2.0]);
    assert_eq!(refusal(mutual(&first, &second, EPSILON, 0)), 8);
    assert_eq!(refusal(mutual(&first, &first, EPSILON, 1)), 0);
    // no rows need no room
    let away = line([2.0, 1.0], [2.0, 2.0]);
    assert_eq!(refusal(mutual(&first, &away, EPSILON, 0)), 0);
}

/// Layouts that are made to have this many rows have them.
#[test]
fn chosen_numbers_of_rows() {
    for (rows, across) in [
        (1, 1),
        (5, 1),
        (4, 7),
        (21, 7),
        (25, 7),
        (2047, 46),
        (2049, 46),
    ] {
        let (first, second) = crossed(rows, across);
        let (first, second) = (Drawn::new(&first, false), Drawn::new(&second, false));
        let found = mutual(&first, &second, EPSILON, rows).expect("exactly so many");
        assert!(found.rows.len() == rows && found.rows.iter().all(|row| row.class == 2));
        let fingers = rows / across + 1;
        assert_eq!(found.pairs, ((2 * fingers - 1) * (2 * across - 1)) as u64);
        let path = Drawn::new(&crossed_by_itself(rows, across), false);
        let found = own(&path, rows).expect("exactly so many");
        assert!(found.rows.len() == rows && found.rows.iter().all(|row| row.class == 2));
    }
}
