//! Rows: which segments of a listing meet, and how.

use std::fmt::Debug;
use std::marker::PhantomData;

use crate::ffi::Lent;
use crate::shapes::PlineSegIntr;

/// A row: two segments that meet.
#[derive(Debug, Copy, Clone, PartialEq)]
pub struct Row {
    /// The segment's index in the first path.
    pub first: usize,
    /// The segment's index in the second path; of one path with itself, in the same one.
    pub second: usize,
    /// How they meet: never `NoIntersect`.
    pub met: PlineSegIntr,
}

/// A segment of a path with large arcs, or a half of one.
#[derive(Debug, Copy, Clone, PartialEq, Eq, Hash)]
pub struct Part {
    /// The segment's index in the path as it was given, before the cut.
    pub segment: usize,
    /// 0 if it is not cut, else 1 or 2.
    pub half: u8,
}

/// A row of a listing with large arcs.
#[derive(Debug, Copy, Clone, PartialEq)]
pub struct LargeRow {
    /// The part of the first path.
    pub first: Part,
    /// The part of the second path; of one path with itself, of the same one.
    pub second: Part,
    /// How they meet: never `NoIntersect`.
    pub met: PlineSegIntr,
}

mod shape {
    /// How a row stands in a call's memory.
    pub trait Shape: Sized {
        /// Whole numbers a row.
        const WORDS: usize;
        /// Whether the calls are those with large arcs.
        const LARGE: bool;

        /// The row of its whole numbers and its four floats.
        fn read(words: &[u64], numbers: [f64; 4]) -> Self;
    }
}
pub(crate) use shape::Shape;

/// What a listing gives: [`Row`], or [`LargeRow`] from the calls with large arcs.
pub trait AnyRow: Shape + Copy + Debug + Send + Sync + 'static {}

impl AnyRow for Row {}
impl AnyRow for LargeRow {}

impl Shape for Row {
    const WORDS: usize = 3;
    const LARGE: bool = false;

    fn read(words: &[u64], numbers: [f64; 4]) -> Self {
        Row {
            first: words[0] as usize,
            second: words[1] as usize,
            met: PlineSegIntr::of_class(words[2], numbers),
        }
    }
}

impl Shape for LargeRow {
    const WORDS: usize = 5;
    const LARGE: bool = true;

    fn read(words: &[u64], numbers: [f64; 4]) -> Self {
        let part = |at: usize| Part { segment: words[at] as usize, half: words[at + 1] as u8 };
        LargeRow { first: part(0), second: part(2), met: PlineSegIntr::of_class(words[4], numbers) }
    }
}

/// Rows in their order: by the segment of the first path, then by that of the second.
///
/// ```
/// use vonjekona::{Path, Vertex, mutual};
/// let across = Path::open(vec![Vertex::new(0.0, 0.0, 0.0), Vertex::new(4.0, 0.0, 0.0)]);
/// let up = Path::open(vec![Vertex::new(1.0, -1.0, 0.0), Vertex::new(1.0, 1.0, 0.0)]);
/// let listing = mutual(&across, &up, 1e-5)?;
/// for row in listing.rows() {
///     println!("segments {} and {}: {:?}", row.first, row.second, row.met);
/// }
/// assert_eq!(listing.rows().indices(), [0, 0, 2]);
/// assert_eq!(listing.rows().points(), [1.0, 0.0, 0.0, 0.0]);
/// # Ok::<(), vonjekona::Refusal>(())
/// ```
#[derive(Debug, Clone, PartialEq)]
pub struct Rows<R: AnyRow = Row> {
    indices: Vec<u64>,
    points: Vec<f64>,
    rows: PhantomData<R>,
}

impl<R: AnyRow> Rows<R> {
    pub(crate) fn none() -> Self {
        Rows { indices: Vec::new(), points: Vec::new(), rows: PhantomData }
    }

    /// Room for so many rows behind those that are there, to be lent. Its numbers are zeros.
    pub(crate) fn lend(&mut self, room: usize) -> Lent<'_> {
        let kept = self.len();
        if kept == 0 {
            // fresh memory: what no row is written into takes no place
            self.indices = vec![0; R::WORDS * room];
            self.points = vec![0.0; 4 * room];
        } else {
            self.indices.resize(R::WORDS * (kept + room), 0);
            self.points.resize(4 * (kept + room), 0.0);
        }
        Lent { indices: &mut self.indices[R::WORDS * kept..], points: &mut self.points[4 * kept..] }
    }

    /// Keeps the first rows and gives up the others.
    pub(crate) fn keep(&mut self, rows: usize) {
        self.indices.truncate(R::WORDS * rows);
        self.points.truncate(4 * rows);
    }

    /// Puts other rows behind these.
    pub(crate) fn append(&mut self, mut other: Self) {
        self.indices.append(&mut other.indices);
        self.points.append(&mut other.points);
    }

    /// How many rows there are.
    ///
    /// ```
    /// # use vonjekona::{Path, mutual};
    /// # let nothing = Path::open(&[]);
    /// assert_eq!(mutual(&nothing, &nothing, 1e-5)?.rows().len(), 0);
    /// # Ok::<(), vonjekona::Refusal>(())
    /// ```
    pub fn len(&self) -> usize {
        self.points.len() / 4
    }

    /// Whether there is no row.
    ///
    /// ```
    /// # use vonjekona::{Path, mutual};
    /// # let nothing = Path::open(&[]);
    /// assert!(mutual(&nothing, &nothing, 1e-5)?.rows().is_empty());
    /// # Ok::<(), vonjekona::Refusal>(())
    /// ```
    pub fn is_empty(&self) -> bool {
        self.points.is_empty()
    }

    /// A row by its number, counted from 0.
    ///
    /// ```
    /// # use vonjekona::{Path, mutual};
    /// # let nothing = Path::open(&[]);
    /// assert!(mutual(&nothing, &nothing, 1e-5)?.rows().get(0).is_none());
    /// # Ok::<(), vonjekona::Refusal>(())
    /// ```
    pub fn get(&self, row: usize) -> Option<R> {
        let words = self.indices.chunks_exact(R::WORDS).nth(row)?;
        let numbers = self.points.chunks_exact(4).nth(row)?;
        Some(R::read(words, [numbers[0], numbers[1], numbers[2], numbers[3]]))
    }

    /// The rows in order.
    ///
    /// ```
    /// # use vonjekona::{Path, mutual};
    /// # let nothing = Path::open(&[]);
    /// assert_eq!(mutual(&nothing, &nothing, 1e-5)?.rows().iter().count(), 0);
    /// # Ok::<(), vonjekona::Refusal>(())
    /// ```
    pub fn iter(&self) -> Iter<'_, R> {
        Iter { rows: self, next: 0, end: self.len() }
    }

    /// The whole numbers as the call wrote them: three a row, five with large arcs.
    ///
    /// ```
    /// # use vonjekona::{Path, mutual};
    /// # let nothing = Path::open(&[]);
    /// assert!(mutual(&nothing, &nothing, 1e-5)?.rows().indices().is_empty());
    /// # Ok::<(), vonjekona::Refusal>(())
    /// ```
    pub fn indices(&self) -> &[u64] {
        &self.indices
    }

    /// The floats as the call wrote them, four a row.
    ///
    /// ```
    /// # use vonjekona::{Path, mutual};
    /// # let nothing = Path::open(&[]);
    /// assert!(mutual(&nothing, &nothing, 1e-5)?.rows().points().is_empty());
    /// # Ok::<(), vonjekona::Refusal>(())
    /// ```
    pub fn points(&self) -> &[f64] {
        &self.points
    }
}

/// The iterator over lent rows.
#[derive(Debug, Clone)]
pub struct Iter<'a, R: AnyRow = Row> {
    rows: &'a Rows<R>,
    next: usize,
    end: usize,
}

/// The iterator over owned rows.
#[derive(Debug, Clone)]
pub struct IntoIter<R: AnyRow = Row> {
    rows: Rows<R>,
    next: usize,
    end: usize,
}

macro_rules! iterates {
    ($($life:lifetime,)? $name:ident) => {
        impl<$($life,)? R: AnyRow> Iterator for $name<$($life,)? R> {
            type Item = R;

            fn next(&mut self) -> Option<R> {
                if self.next == self.end {
                    return None;
                }
                self.next += 1;
                self.rows.get(self.next - 1)
            }

            fn size_hint(&self) -> (usize, Option<usize>) {
                (self.end - self.next, Some(self.end - self.next))
            }
        }

        impl<$($life,)? R: AnyRow> DoubleEndedIterator for $name<$($life,)? R> {
            fn next_back(&mut self) -> Option<R> {
                if self.next == self.end {
                    return None;
                }
                self.end -= 1;
                self.rows.get(self.end)
            }
        }

        impl<$($life,)? R: AnyRow> ExactSizeIterator for $name<$($life,)? R> {}
        impl<$($life,)? R: AnyRow> std::iter::FusedIterator for $name<$($life,)? R> {}
    };
}

iterates!('a, Iter);
iterates!(IntoIter);

impl<R: AnyRow> IntoIterator for Rows<R> {
    type Item = R;
    type IntoIter = IntoIter<R>;

    fn into_iter(self) -> IntoIter<R> {
        IntoIter { next: 0, end: self.len(), rows: self }
    }
}

impl<'a, R: AnyRow> IntoIterator for &'a Rows<R> {
    type Item = R;
    type IntoIter = Iter<'a, R>;

    fn into_iter(self) -> Iter<'a, R> {
        self.iter()
    }
}
