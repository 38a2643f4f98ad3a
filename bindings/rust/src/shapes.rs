//! The shapes that callers of cavalier_contours know: points, vertices, and how a pair meets.

/// A point, or the way from one point to another.
///
/// ```
/// use vonjekona::Vector2;
/// assert_eq!(Vector2::new(3.0, 4.0), Vector2 { x: 3.0, y: 4.0 });
/// ```
#[derive(Debug, Copy, Clone, Default, PartialEq)]
pub struct Vector2<T = f64> {
    /// The x coordinate.
    pub x: T,
    /// The y coordinate.
    pub y: T,
}

impl<T> Vector2<T> {
    /// A point by its coordinates.
    ///
    /// ```
    /// let p = vonjekona::Vector2::new(1.0, 2.0);
    /// assert_eq!((p.x, p.y), (1.0, 2.0));
    /// ```
    pub const fn new(x: T, y: T) -> Self {
        Vector2 { x, y }
    }
}

/// The short form of [`Vector2::new`].
///
/// ```
/// use vonjekona::{Vector2, vec2};
/// assert_eq!(vec2(1.0, 2.0), Vector2::new(1.0, 2.0));
/// ```
pub const fn vec2<T>(x: T, y: T) -> Vector2<T> {
    Vector2::new(x, y)
}

/// A vertex of a polyline, with the bulge of the segment that starts there. It has no trace: for
/// a path of a listing see [`Vertex`](crate::Vertex).
///
/// ```
/// use vonjekona::PlineVertex;
/// let half_circle = PlineVertex::new(0.0, 0.0, 1.0);
/// assert_eq!(half_circle.bulge, 1.0);
/// ```
#[derive(Debug, Copy, Clone, Default, PartialEq)]
pub struct PlineVertex<T = f64> {
    /// The x coordinate.
    pub x: T,
    /// The y coordinate.
    pub y: T,
    /// How far the segment bends: 0 is straight, 1 and -1 are half circles.
    pub bulge: T,
}

impl<T: Copy> PlineVertex<T> {
    /// A vertex by its numbers.
    ///
    /// ```
    /// let v = vonjekona::PlineVertex::new(1.0, 2.0, 0.5);
    /// assert_eq!((v.x, v.y, v.bulge), (1.0, 2.0, 0.5));
    /// ```
    pub const fn new(x: T, y: T, bulge: T) -> Self {
        PlineVertex { x, y, bulge }
    }

    /// A vertex by its point.
    ///
    /// ```
    /// use vonjekona::{PlineVertex, Vector2};
    /// let v = PlineVertex::from_vector2(Vector2::new(1.0, 2.0), 0.5);
    /// assert_eq!(v, PlineVertex::new(1.0, 2.0, 0.5));
    /// ```
    pub const fn from_vector2(point: Vector2<T>, bulge: T) -> Self {
        PlineVertex { x: point.x, y: point.y, bulge }
    }

    /// The vertex's point.
    ///
    /// ```
    /// use vonjekona::{PlineVertex, Vector2};
    /// assert_eq!(PlineVertex::new(1.0, 2.0, 0.5).pos(), Vector2::new(1.0, 2.0));
    /// ```
    pub const fn pos(self) -> Vector2<T> {
        Vector2 { x: self.x, y: self.y }
    }

    /// The same point with another bulge.
    ///
    /// ```
    /// let v = vonjekona::PlineVertex::new(1.0, 2.0, 0.5).with_bulge(0.0);
    /// assert_eq!(v.bulge, 0.0);
    /// ```
    pub fn with_bulge(self, bulge: T) -> Self {
        PlineVertex { bulge, ..self }
    }
}

/// How two segments meet. Points go by the direction of the second segment.
///
/// ```
/// use vonjekona::{PlineSegIntr, PlineVertex, pline_seg_intr};
/// let at = |x, y| PlineVertex::new(x, y, 0.0);
/// let met = pline_seg_intr(at(0.0, 0.0), at(4.0, 0.0), at(1.0, 0.0), at(9.0, 0.0), 1e-5)?;
/// assert!(matches!(met, PlineSegIntr::OverlappingLines { point2, .. } if point2.x == 4.0));
/// # Ok::<(), vonjekona::Refusal>(())
/// ```
#[derive(Debug, Copy, Clone, PartialEq)]
pub enum PlineSegIntr<T = f64> {
    /// Class 0: apart.
    NoIntersect,
    /// Class 1: they meet in one point and do not cross there.
    TangentIntersect {
        /// That point.
        point: Vector2<T>,
    },
    /// Class 2: they meet in one point.
    OneIntersect {
        /// That point.
        point: Vector2<T>,
    },
    /// Class 3: they meet in two points.
    TwoIntersects {
        /// The first point.
        point1: Vector2<T>,
        /// The second point.
        point2: Vector2<T>,
    },
    /// Class 4: two lines that overlap.
    OverlappingLines {
        /// Where the overlap starts.
        point1: Vector2<T>,
        /// Where it ends.
        point2: Vector2<T>,
    },
    /// Class 5: two arcs that overlap.
    OverlappingArcs {
        /// Where the overlap starts.
        point1: Vector2<T>,
        /// Where it ends.
        point2: Vector2<T>,
    },
}

impl PlineSegIntr {
    /// The number of the class, 0 to 5, as the C calls tell it.
    ///
    /// ```
    /// assert_eq!(vonjekona::PlineSegIntr::<f64>::NoIntersect.class(), 0);
    /// ```
    pub const fn class(&self) -> u8 {
        match self {
            PlineSegIntr::NoIntersect => 0,
            PlineSegIntr::TangentIntersect { .. } => 1,
            PlineSegIntr::OneIntersect { .. } => 2,
            PlineSegIntr::TwoIntersects { .. } => 3,
            PlineSegIntr::OverlappingLines { .. } => 4,
            PlineSegIntr::OverlappingArcs { .. } => 5,
        }
    }

    /// The points of the class in order: none, one or two.
    ///
    /// ```
    /// use vonjekona::{PlineSegIntr, Vector2};
    /// let point = Vector2::new(1.0, 2.0);
    /// assert_eq!(PlineSegIntr::OneIntersect { point }.points().collect::<Vec<_>>(), [point]);
    /// ```
    pub fn points(&self) -> impl Iterator<Item = Vector2> + use<> {
        let (first, second) = match *self {
            PlineSegIntr::NoIntersect => (None, None),
            PlineSegIntr::TangentIntersect { point } | PlineSegIntr::OneIntersect { point } => {
                (Some(point), None)
            }
            PlineSegIntr::TwoIntersects { point1, point2 }
            | PlineSegIntr::OverlappingLines { point1, point2 }
            | PlineSegIntr::OverlappingArcs { point1, point2 } => (Some(point1), Some(point2)),
        };
        first.into_iter().chain(second)
    }

    /// From a class and the four numbers that a call writes for it.
    pub(crate) fn of_class(class: u64, numbers: [f64; 4]) -> Self {
        let point = Vector2::new(numbers[0], numbers[1]);
        let (point1, point2) = (point, Vector2::new(numbers[2], numbers[3]));
        match class {
            0 => PlineSegIntr::NoIntersect,
            1 => PlineSegIntr::TangentIntersect { point },
            2 => PlineSegIntr::OneIntersect { point },
            3 => PlineSegIntr::TwoIntersects { point1, point2 },
            4 => PlineSegIntr::OverlappingLines { point1, point2 },
            5 => PlineSegIntr::OverlappingArcs { point1, point2 },
            _ => unreachable!("the library has no class {class}"),
        }
    }
}
