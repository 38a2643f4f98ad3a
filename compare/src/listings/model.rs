//! Whole-path listings as in the scope's prose: which pairs are looked at, which make a row, what is refused and in which order.
//! `neighbours.rs` says which neighbours of one path make none. How a pair meets is the Rust's own answer; why a number is
//! refused comes from the table, as for the pair call. A fault's owner is the path; its index is the vertex, or the segment if
//! the chord is at fault.

use cavalier_contours::polyline::{pline_seg_intr, PlineSegIntr, PlineVertex};

use crate::crossing::faults::{chord, Fault, Item, Place};
use crate::crossing::of_segments;
use crate::vertex::{TRACE, VERTEX};

/// A path as it is lent: x, y, bulge and trace of one vertex after the other.
#[derive(Clone, Copy)]
pub struct Path<'a> {
    pub numbers: &'a [f64],
    pub closed: bool,
}

impl Path<'_> {
    pub fn vertices(self) -> usize {
        self.numbers.len() / VERTEX
    }

    /// One fewer than vertices if the path is open, as many if it is closed; a single vertex has none.
    pub fn segments(self) -> usize {
        match self.vertices() {
            0 | 1 => 0,
            n if self.closed => n,
            n => n - 1,
        }
    }

    pub fn vertex(self, i: usize) -> PlineVertex {
        let n = &self.numbers[VERTEX * i..];
        PlineVertex::new(n[0], n[1], n[2])
    }

    /// The trace of segment i: its first vertex's. The closing segment's is the last vertex's, and an open path's last is no
    /// one's.
    pub fn trace(self, i: usize) -> f64 {
        self.numbers[VERTEX * i + TRACE]
    }

    /// Where segment i starts and ends: the last one of a closed path ends at vertex 0.
    pub fn segment(self, i: usize) -> (PlineVertex, PlineVertex) {
        let next = if i + 1 == self.vertices() { 0 } else { i + 1 };
        (self.vertex(i), self.vertex(next))
    }
}

/// What is listed: the crossings of two paths, or of one path with itself.
#[derive(Clone, Copy)]
pub enum Listed<'a> {
    Mutual(Path<'a>, Path<'a>),
    Own(Path<'a>),
}

/// A pair that meets: its indices, its class, and the coordinates of its points, two or four numbers, followed by +0.
#[derive(Clone)]
pub struct Row {
    pub indices: [u64; 2],
    pub class: u64,
    pub points: [f64; 4],
    pub given: usize,
}

/// The rows of a listing, in order, and how many pairs were looked at.
#[derive(Default)]
pub struct Rows {
    pub rows: Vec<Row>,
    pub pairs: u64,
}

/// A listing for any room: the first two faults, or the rows if there are none.
pub struct Listing {
    pub faults: Vec<Fault>,
    pub rows: Rows,
}

pub const MOST_VERTICES: usize = 4096;

impl<'a> Listed<'a> {
    pub fn paths(self) -> Vec<Path<'a>> {
        match self {
            Listed::Mutual(first, second) => vec![first, second],
            Listed::Own(path) => vec![path],
        }
    }

    /// The faults in the scope's order; the first is the answer. Too little room for rows is left out: it comes last, after
    /// these.
    pub fn faults(self, epsilon: f64) -> impl Iterator<Item = Fault> + 'a {
        let each = move || self.paths().into_iter().enumerate();
        let shapes = each().filter_map(|(at, path)| shape(path, at));
        let insides = each().flat_map(|(at, path)| numbers(path, at).chain(chords(path, at)));
        Fault::of(Place::EPSILON, epsilon)
            .into_iter()
            .chain(shapes)
            .chain(insides)
    }

    /// Whether a pair is passed over: both segments have the same trace, and it is above 0.
    pub fn passes_over(self, [i, j]: [usize; 2]) -> bool {
        let (first, second) = match self {
            Listed::Mutual(first, second) => (first, second),
            Listed::Own(path) => (path, path),
        };
        first.trace(i) > 0.0 && first.trace(i) == second.trace(j)
    }

    /// The rows of accepted paths. In one path each two segments are a pair, and neighbours that meet only at a vertex that they
    /// share make no row. A pair that is passed over makes none and is not counted.
    pub fn rows(self, epsilon: f64) -> Rows {
        let mut found = Rows::default();
        match self {
            Listed::Mutual(first, second) => {
                for i in 0..first.segments() {
                    for j in 0..second.segments() {
                        if !self.passes_over([i, j]) {
                            let row = found.look((first, i), (second, j), epsilon);
                            found.rows.extend(row);
                        }
                    }
                }
            }
            Listed::Own(path) => {
                for i in 0..path.segments() {
                    for j in i + 1..path.segments() {
                        if self.passes_over([i, j]) {
                            continue;
                        }
                        let row = found.look((path, i), (path, j), epsilon);
                        let at_joint = |row: &Row| row.is_at_joint(path.shared(i, j), epsilon);
                        found.rows.extend(row.filter(|row| !at_joint(row)));
                    }
                }
            }
        }
        found
    }
}

impl Row {
    pub fn new([i, j]: [usize; 2], answer: PlineSegIntr<f64>) -> Row {
        let (class, values) = of_segments(answer);
        let mut points = [0.0; 4];
        points[..values.len()].copy_from_slice(&values);
        Row {
            indices: [i as u64, j as u64],
            class,
            points,
            given: values.len(),
        }
    }
}

impl Rows {
    /// Looks at a pair. Answers its row if it meets.
    fn look(&mut self, (v, i): (Path, usize), (u, j): (Path, usize), epsilon: f64) -> Option<Row> {
        let ((v1, v2), (u1, u2)) = (v.segment(i), u.segment(j));
        let answer = pline_seg_intr(v1, v2, u1, u2, epsilon);
        self.pairs += 1;
        match answer {
            PlineSegIntr::NoIntersect => None,
            answer => Some(Row::new([i, j], answer)),
        }
    }
}

impl Listing {
    pub fn new(listed: Listed, epsilon: f64) -> Listing {
        let faults: Vec<Fault> = listed.faults(epsilon).take(2).collect();
        let rows = if faults.is_empty() {
            listed.rows(epsilon)
        } else {
            Rows::default()
        };
        Listing { faults, rows }
    }

    /// The fault that is answered if there is room for this many rows. Too many rows are the last in order.
    pub fn fault(&self, room: usize) -> Option<Fault> {
        let too_many = self.rows.rows.len() > room;
        let first = self.faults.first().copied();
        first.or(too_many.then_some(no_row_left()))
    }
}

/// How many whole rows both slices have room for.
pub fn row_room(indices: usize, points: usize) -> usize {
    (indices / 3).min(points / 4)
}

/// Rows have no owner: too little room is the call's.
pub fn no_row_left() -> Fault {
    Fault::new(8, Place::alone(Item::Rows))
}

/// A length that is no multiple of 4, or else too many vertices.
pub fn shape(path: Path, at: usize) -> Option<Fault> {
    let number = if path.numbers.len() % VERTEX != 0 {
        6
    } else if path.vertices() > MOST_VERTICES {
        7
    } else {
        return None;
    };
    Some(Fault::new(number, Place::new(Item::Length, at, 0)))
}

/// Every vertex in order, each x, y, bulge, trace: also the last bulge and trace of an open path, though they belong to no
/// segment.
fn numbers(path: Path<'_>, at: usize) -> impl Iterator<Item = Fault> + '_ {
    const ITEMS: [Item; VERTEX] = [Item::X, Item::Y, Item::Bulge, Item::Trace];
    path.numbers
        .iter()
        .enumerate()
        .filter_map(move |(i, x)| Fault::of(Place::new(ITEMS[i % VERTEX], at, i / VERTEX), *x))
}

/// Every segment in order.
fn chords(path: Path<'_>, at: usize) -> impl Iterator<Item = Fault> + '_ {
    (0..path.segments()).filter_map(move |segment| {
        let (v1, v2) = path.segment(segment);
        chord(&[v1.x, v1.y, v1.bulge, v2.x, v2.y], at, segment)
    })
}
