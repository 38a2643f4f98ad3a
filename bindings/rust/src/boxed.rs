//! Boxed listings: the pairs whose boxes meet.

use crate::ffi::{self, Asked, Of};
use crate::listing::{Listing, fill};
use crate::path::Path;
use crate::refusal::Refusal;
use crate::rows::{AnyRow, Row};

/// Segments a group.
const GROUP: usize = 16;

/// A box, of a segment or of a group of 16 segments.
#[derive(Debug, Copy, Clone, PartialEq)]
pub struct PathBox {
    /// The least x.
    pub least_x: f64,
    /// The least y.
    pub least_y: f64,
    /// The greatest x.
    pub greatest_x: f64,
    /// The greatest y.
    pub greatest_y: f64,
}

/// The index of a path's boxes.
#[derive(Debug, Clone, PartialEq)]
pub struct PathBoxes {
    /// The box of each segment; with large arcs, of each segment of the cut path.
    pub segments: Vec<PathBox>,
    /// The box of each group: 16 segments one after the other, the last one perhaps fewer.
    pub groups: Vec<PathBox>,
}

/// A boxed listing: its rows, how many pairs were looked at, and the boxes.
#[derive(Debug, Clone, PartialEq)]
pub struct Boxed<R: AnyRow = Row> {
    /// The rows of the pairs whose boxes meet, and how many such pairs were looked at.
    pub listing: Listing<R>,
    /// The boxes of the first path.
    pub first: PathBoxes,
    /// The boxes of the second path; a listing of one path has none.
    pub second: Option<PathBoxes>,
}

impl PathBoxes {
    /// How many boxes a path has, segments and groups.
    fn count(segments: usize) -> usize {
        segments + segments.div_ceil(GROUP)
    }

    /// Of the numbers that a call wrote, those of the segments first.
    fn read(numbers: &[f64], segments: usize) -> Self {
        let mut boxes = numbers.chunks_exact(4).map(|n| PathBox {
            least_x: n[0],
            least_y: n[1],
            greatest_x: n[2],
            greatest_y: n[3],
        });
        PathBoxes { segments: boxes.by_ref().take(segments).collect(), groups: boxes.collect() }
    }
}

/// The segments that have a box. An arc with a bulge above 1 in magnitude is cut, and has two.
fn boxed_segments(path: &Path, large: bool) -> usize {
    let segments = path.segments();
    let cut = |bulge: f64| large && bulge.abs() > 1.0;
    segments + path.vertices().take(segments).filter(|v| cut(v.bulge)).count()
}

pub(crate) fn list<R: AnyRow>(of: Of, epsilon: f64) -> Result<Boxed<R>, Refusal> {
    let asked = Asked { of, large: R::LARGE, epsilon };
    let (first, second) = match of {
        Of::Two(first, second) => (first, Some(second)),
        Of::One(path) => (path, None),
    };
    let of_first = boxed_segments(first, R::LARGE);
    let of_second = second.map(|path| boxed_segments(path, R::LARGE));
    let split = 4 * PathBoxes::count(of_first);
    let room = split + of_second.map_or(0, |n| 4 * PathBoxes::count(n));
    let mut boxes = vec![0.0; room];
    let listing = fill(of, |lent, counts| ffi::boxed(asked, &mut boxes, lent, counts))?;
    Ok(Boxed {
        listing,
        first: PathBoxes::read(&boxes[..split], of_first),
        second: of_second.map(|n| PathBoxes::read(&boxes[split..], n)),
    })
}

/// The pairs of [`mutual`](crate::mutual) whose boxes meet: for large paths, where most segments
/// are far apart. `docs/LIMITS.md` of the repository says which rows of the full listing it may
/// lack.
///
/// There is room for all rows and boxes. The call needs some 643 KiB of stack.
///
/// # Errors
/// Those of [`mutual`](crate::mutual).
///
/// ```
/// use vonjekona::{Path, Vertex, mutual_boxed};
/// let zigzag: Vec<Vertex> = (0..40).map(|i| Vertex::new(i as f64, (i % 2) as f64, 0.0)).collect();
/// let up = [Vertex::new(20.25, -1.0, 0.0), Vertex::new(20.25, 2.0, 0.0)];
/// let boxed = mutual_boxed(&Path::open(&zigzag), &Path::open(&up), 1.0 / 1024.0)?;
/// assert_eq!((boxed.listing.len(), boxed.listing.looked_at()), (1, 1));
/// assert_eq!((boxed.first.segments.len(), boxed.first.groups.len()), (39, 3));
/// assert_eq!(boxed.second.unwrap().segments[0].greatest_y, 2.0 + 1.0 / 1024.0);
/// # Ok::<(), vonjekona::Refusal>(())
/// ```
pub fn mutual_boxed(first: &Path, second: &Path, epsilon: f64) -> Result<Boxed, Refusal> {
    list(Of::Two(first, second), epsilon)
}

/// The pairs of [`self_listing`](crate::self_listing) whose boxes meet.
///
/// There is room for all rows and boxes. The call needs some 643 KiB of stack.
///
/// # Errors
/// Those of [`mutual`](crate::mutual).
///
/// ```
/// use vonjekona::{Path, Vertex, self_boxed};
/// let zigzag: Vec<Vertex> = (0..40).map(|i| Vertex::new(i as f64, (i % 2) as f64, 0.0)).collect();
/// let boxed = self_boxed(&Path::open(&zigzag), 1.0 / 1024.0)?;
/// assert!(boxed.listing.is_empty());
/// assert!(boxed.listing.looked_at() < 39 * 38 / 2);
/// assert!(boxed.second.is_none());
/// # Ok::<(), vonjekona::Refusal>(())
/// ```
pub fn self_boxed(path: &Path, epsilon: f64) -> Result<Boxed, Refusal> {
    list(Of::One(path), epsilon)
}
