//! Paths: vertices in order, and whether the path is closed.

use std::borrow::Cow;

use crate::ffi;
use crate::shapes::PlineVertex;

/// A vertex of a path: a point, with the bulge and the trace of the segment that starts there.
///
/// ```
/// use vonjekona::Vertex;
/// let v = Vertex::new(1.0, 2.0, 0.0).with_trace(7.0);
/// assert_eq!(v.trace, 7.0);
/// ```
#[derive(Debug, Copy, Clone, Default, PartialEq)]
#[repr(C)]
pub struct Vertex {
    /// The x coordinate.
    pub x: f64,
    /// The y coordinate.
    pub y: f64,
    /// How far the segment bends: 0 is straight, 1 and -1 are half circles.
    pub bulge: f64,
    /// The number of the segment's track, a whole number from 0 to 255; 0 is none. A listing skips
    /// two segments of the same trace above 0.
    pub trace: f64,
}

impl Vertex {
    /// A vertex of trace 0.
    ///
    /// ```
    /// assert_eq!(vonjekona::Vertex::new(1.0, 2.0, 0.5).trace, 0.0);
    /// ```
    pub const fn new(x: f64, y: f64, bulge: f64) -> Self {
        Vertex { x, y, bulge, trace: 0.0 }
    }

    /// The same vertex with another trace.
    ///
    /// ```
    /// assert_eq!(vonjekona::Vertex::new(1.0, 2.0, 0.5).with_trace(3.0).trace, 3.0);
    /// ```
    pub const fn with_trace(self, trace: f64) -> Self {
        Vertex { trace, ..self }
    }
}

impl From<PlineVertex> for Vertex {
    fn from(v: PlineVertex) -> Self {
        Vertex::new(v.x, v.y, v.bulge)
    }
}

/// A path, borrowed or owned. Its numbers go to the calls as they are: which of them are fine only
/// the calls decide.
///
/// ```
/// use vonjekona::{Path, Vertex};
/// let corner = [Vertex::new(0.0, 0.0, 0.0), Vertex::new(4.0, 0.0, 0.0), Vertex::new(4.0, 4.0, 0.0)];
/// let path = Path::open(&corner); // or a `Vec`, which the path then owns
/// assert_eq!(path.numbers().len(), 12);
/// assert_eq!(path.segments(), 2);
/// assert_eq!(Path::closed(&corner).segments(), 3);
/// ```
#[derive(Debug, Clone, PartialEq)]
pub struct Path<'a> {
    numbers: Cow<'a, [f64]>,
    closed: bool,
}

impl<'a> Path<'a> {
    /// A path of vertices, with the flag that says whether it is closed.
    ///
    /// ```
    /// use vonjekona::{Path, Vertex};
    /// let owned = Path::new(vec![Vertex::new(0.0, 0.0, 0.0); 2], true);
    /// assert!(owned.is_closed());
    /// ```
    pub fn new(vertices: impl Into<Cow<'a, [Vertex]>>, closed: bool) -> Self {
        let numbers = match vertices.into() {
            Cow::Borrowed(vertices) => Cow::Borrowed(ffi::numbers(vertices)),
            Cow::Owned(vertices) => Cow::Owned(ffi::numbers(&vertices).to_vec()),
        };
        Path { numbers, closed }
    }

    /// An open path of vertices.
    ///
    /// ```
    /// use vonjekona::{Path, Vertex};
    /// assert!(!Path::open(&[Vertex::new(0.0, 0.0, 0.0)]).is_closed());
    /// ```
    pub fn open(vertices: impl Into<Cow<'a, [Vertex]>>) -> Self {
        Path::new(vertices, false)
    }

    /// A closed path of vertices: its last segment runs back to the first vertex.
    ///
    /// ```
    /// use vonjekona::{Path, Vertex};
    /// assert!(Path::closed(&[Vertex::new(0.0, 0.0, 0.0)]).is_closed());
    /// ```
    pub fn closed(vertices: impl Into<Cow<'a, [Vertex]>>) -> Self {
        Path::new(vertices, true)
    }

    /// A path of a polyline's vertices, all of trace 0.
    ///
    /// ```
    /// use vonjekona::{Path, PlineVertex};
    /// let path = Path::of_pline(&[PlineVertex::new(1.0, 2.0, 0.5)], false);
    /// assert_eq!(path.numbers(), [1.0, 2.0, 0.5, 0.0]);
    /// ```
    pub fn of_pline(vertices: &[PlineVertex], closed: bool) -> Path<'static> {
        Path::new(vertices.iter().map(|&v| v.into()).collect::<Vec<Vertex>>(), closed)
    }

    /// A path of flat numbers, x, y, bulge and trace of each vertex, as many as there are. If they
    /// are no multiple of 4 the calls refuse them with 6.
    ///
    /// ```
    /// use vonjekona::{Path, self_listing};
    /// let refusal = self_listing(&Path::of_numbers(&[0.0; 7], false), 1e-5).unwrap_err();
    /// assert_eq!(refusal.to_string(), "refused 6: the length of the path is no multiple of 4");
    /// ```
    pub fn of_numbers(numbers: impl Into<Cow<'a, [f64]>>, closed: bool) -> Self {
        Path { numbers: numbers.into(), closed }
    }

    /// The flat numbers, as the calls get them.
    ///
    /// ```
    /// use vonjekona::{Path, Vertex};
    /// let path = Path::open(vec![Vertex::new(1.0, 2.0, 0.5).with_trace(9.0)]);
    /// assert_eq!(path.numbers(), [1.0, 2.0, 0.5, 9.0]);
    /// ```
    pub fn numbers(&self) -> &[f64] {
        &self.numbers
    }

    /// Whether the path is closed.
    ///
    /// ```
    /// assert!(vonjekona::Path::of_numbers(&[], true).is_closed());
    /// ```
    pub fn is_closed(&self) -> bool {
        self.closed
    }

    /// The vertices. Numbers left over, fewer than four, are no vertex.
    ///
    /// ```
    /// use vonjekona::{Path, Vertex};
    /// let path = Path::of_numbers(&[1.0, 2.0, 0.5, 0.0, 7.0], false);
    /// assert_eq!(path.vertices().collect::<Vec<_>>(), [Vertex::new(1.0, 2.0, 0.5)]);
    /// ```
    pub fn vertices(&self) -> impl ExactSizeIterator<Item = Vertex> + '_ {
        self.numbers.chunks_exact(4).map(|n| Vertex { x: n[0], y: n[1], bulge: n[2], trace: n[3] })
    }

    /// How many segments the path has: as many as vertices if it is closed, else one fewer, and
    /// none if the vertices are below 2.
    ///
    /// ```
    /// use vonjekona::{Path, Vertex};
    /// assert_eq!(Path::closed(vec![Vertex::default(); 2]).segments(), 2);
    /// assert_eq!(Path::closed(vec![Vertex::default(); 1]).segments(), 0);
    /// ```
    pub fn segments(&self) -> usize {
        match self.numbers.len() / 4 {
            0 | 1 => 0,
            n if self.closed => n,
            n => n - 1,
        }
    }

    /// A path that owns its numbers.
    ///
    /// ```
    /// use vonjekona::{Path, Vertex};
    /// fn made() -> Path<'static> {
    ///     let here = [Vertex::new(0.0, 0.0, 0.0)];
    ///     Path::open(&here).into_owned()
    /// }
    /// assert_eq!(made().vertices().len(), 1);
    /// ```
    pub fn into_owned(self) -> Path<'static> {
        Path { numbers: Cow::Owned(self.numbers.into_owned()), closed: self.closed }
    }
}
