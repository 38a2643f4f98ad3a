//! Large arcs: the same calls with bulges up to 16 in magnitude.
//!
//! An arc whose bulge is above 1 in magnitude is cut into two halves. Rows tell the segment of the
//! path as it was given, and its half. Pairs, positions and boxes are those of the cut paths. Each
//! function is the one of the same name without `large`, with the same refusals, but 3 is given
//! for a bulge above 16, and 2 also for a cut point. They need more stack: a boxed listing up to
//! 1,860 KiB.

use crate::boxed::{self, Boxed};
use crate::counted::{self, Report};
use crate::dxf;
use crate::ffi::{self, Of};
use crate::listing::{self, Listing};
use crate::pages::{Budget, Pages};
use crate::pair;
use crate::path::Path;
use crate::refusal::{Places, Refusal};
use crate::rows::LargeRow;
use crate::shapes::{PlineSegIntr, PlineVertex};
use crate::shared::{self, Joined};

/// How a part of v and a part of u meet.
#[derive(Debug, Copy, Clone, PartialEq)]
pub struct PartsIntr {
    /// The half of v: 0 if it is not cut, else 1 or 2.
    pub v_half: u8,
    /// The half of u, the same.
    pub u_half: u8,
    /// How they meet.
    pub met: PlineSegIntr,
}

/// [`pline_seg_intr`](crate::pline_seg_intr) for bulges up to 16: one, two or four results, with
/// the halves of v outermost.
///
/// # Errors
/// Those of [`pline_seg_intr`](crate::pline_seg_intr).
///
/// ```
/// use vonjekona::{PlineVertex, large};
/// // a loop, and a line through it
/// let (v1, v2) = (PlineVertex::new(4.0, 0.0, 2.0), PlineVertex::new(5.0, 0.0, 0.0));
/// let (u1, u2) = (PlineVertex::new(3.0, -0.375, 0.0), PlineVertex::new(6.0, -0.375, 0.0));
/// let met = large::pline_seg_intr(v1, v2, u1, u2, 1.0 / 1024.0)?;
/// assert_eq!(met.iter().map(|m| (m.v_half, m.u_half)).collect::<Vec<_>>(), [(1, 0), (2, 0)]);
/// assert_eq!(met.iter().map(|m| m.met.class()).collect::<Vec<_>>(), [2, 2]);
/// # Ok::<(), vonjekona::Refusal>(())
/// ```
pub fn pline_seg_intr(
    v1: PlineVertex,
    v2: PlineVertex,
    u1: PlineVertex,
    u2: PlineVertex,
    epsilon: f64,
) -> Result<Vec<PartsIntr>, Refusal> {
    let (mut words, mut out) = ([0; 12], [0.0; 16]);
    let numbers = pair::numbers(v1, v2, u1, u2);
    let word = ffi::pair_large(numbers, epsilon, &mut words, &mut out);
    let results = Refusal::check(Places::Pair, true, word)?;
    let parts = words.chunks_exact(3).zip(out.chunks_exact(4)).take(results as usize);
    Ok(parts
        .map(|(w, n)| PartsIntr {
            v_half: w[0] as u8,
            u_half: w[1] as u8,
            met: PlineSegIntr::of_class(w[2], [n[0], n[1], n[2], n[3]]),
        })
        .collect())
}

/// [`mutual`](crate::mutual) for bulges up to 16.
///
/// # Errors
/// Those of [`mutual`](crate::mutual).
///
/// ```
/// use vonjekona::{Part, Path, Vertex, large};
/// let tuning = [Vertex::new(4.0, 0.0, 2.0), Vertex::new(5.0, 0.0, 0.0)];
/// let line = [Vertex::new(3.0, -0.375, 0.0), Vertex::new(6.0, -0.375, 0.0)];
/// let listing = large::mutual(&Path::open(&tuning), &Path::open(&line), 1.0 / 1024.0)?;
/// let parts: Vec<Part> = listing.iter().map(|row| row.first).collect();
/// assert_eq!(parts, [Part { segment: 0, half: 1 }, Part { segment: 0, half: 2 }]);
/// # Ok::<(), vonjekona::Refusal>(())
/// ```
pub fn mutual(first: &Path, second: &Path, epsilon: f64) -> Result<Listing<LargeRow>, Refusal> {
    listing::list(Of::Two(first, second), epsilon)
}

/// [`self_listing`](crate::self_listing) for bulges up to 16.
///
/// # Errors
/// Those of [`mutual`](crate::mutual).
///
/// ```
/// use vonjekona::{Path, Vertex, large};
/// // its ends are nearer to each other than epsilon, so the loop meets itself
/// let narrow = Path::open(vec![Vertex::new(0.0, 0.0, 8.0), Vertex::new(0.125, 0.0, 0.0)]);
/// let row = large::self_listing(&narrow, 0.25)?.iter().next().unwrap();
/// assert_eq!((row.first.half, row.second.half, row.met.class()), (1, 2, 3));
/// # Ok::<(), vonjekona::Refusal>(())
/// ```
pub fn self_listing(path: &Path, epsilon: f64) -> Result<Listing<LargeRow>, Refusal> {
    listing::list(Of::One(path), epsilon)
}

/// [`mutual_boxed`](crate::mutual_boxed) for bulges up to 16. Each half has its own box.
///
/// # Errors
/// Those of [`mutual`](crate::mutual).
///
/// ```
/// use vonjekona::{Path, Vertex, large};
/// let tuning = [Vertex::new(4.0, 0.0, 2.0), Vertex::new(5.0, 0.0, 0.0)];
/// let line = [Vertex::new(3.0, -0.375, 0.0), Vertex::new(6.0, -0.375, 0.0)];
/// let boxed = large::mutual_boxed(&Path::open(&tuning), &Path::open(&line), 1.0 / 1024.0)?;
/// assert_eq!(boxed.first.segments.len(), 2);
/// assert_eq!(boxed.second.unwrap().segments.len(), 1);
/// # Ok::<(), vonjekona::Refusal>(())
/// ```
pub fn mutual_boxed(first: &Path, second: &Path, epsilon: f64) -> Result<Boxed<LargeRow>, Refusal> {
    boxed::list(Of::Two(first, second), epsilon)
}

/// [`self_boxed`](crate::self_boxed) for bulges up to 16.
///
/// # Errors
/// Those of [`mutual`](crate::mutual).
///
/// ```
/// use vonjekona::{Path, Vertex, large};
/// let tuning = Path::open(vec![Vertex::new(4.0, 0.0, 2.0), Vertex::new(5.0, 0.0, 0.0)]);
/// let boxed = large::self_boxed(&tuning, 1.0 / 1024.0)?;
/// assert_eq!((boxed.listing.len(), boxed.listing.looked_at()), (0, 1));
/// # Ok::<(), vonjekona::Refusal>(())
/// ```
pub fn self_boxed(path: &Path, epsilon: f64) -> Result<Boxed<LargeRow>, Refusal> {
    boxed::list(Of::One(path), epsilon)
}

/// [`mutual_counted`](crate::mutual_counted) for bulges up to 16. A report may have layouts of
/// both modes.
///
/// # Errors
/// Those of [`mutual_counted`](crate::mutual_counted).
///
/// ```
/// use vonjekona::{Path, Report, Vertex, large};
/// let tuning = [Vertex::new(4.0, 0.0, 2.0), Vertex::new(5.0, 0.0, 0.0)];
/// let line = [Vertex::new(3.0, -0.375, 0.0), Vertex::new(6.0, -0.375, 0.0)];
/// let mut report = Report::new();
/// large::mutual_counted(&Path::open(&tuning), &Path::open(&line), 1.0 / 1024.0, &mut report)?;
/// assert_eq!((report.layouts(), report.pairs(), report.class(2)), (1, 2, 2));
/// # Ok::<(), vonjekona::Refusal>(())
/// ```
pub fn mutual_counted(
    first: &Path,
    second: &Path,
    epsilon: f64,
    report: &mut Report,
) -> Result<Listing<LargeRow>, Refusal> {
    counted::list(first, second, epsilon, report)
}

/// [`mutual_pages`](crate::mutual_pages) for bulges up to 16. A position counts pairs of the cut
/// paths.
///
/// ```
/// use vonjekona::{Budget, Path, Vertex, large};
/// let tuning = Path::open(vec![Vertex::new(4.0, 0.0, 2.0), Vertex::new(5.0, 0.0, 0.0)]);
/// let mut pages = large::mutual_pages(&tuning, &tuning, 1.0 / 1024.0, Budget::Pairs(3));
/// assert_eq!(pages.next().unwrap()?.pairs, 4);
/// # Ok::<(), vonjekona::Refusal>(())
/// ```
pub fn mutual_pages<'a>(
    first: &'a Path<'a>,
    second: &'a Path<'a>,
    epsilon: f64,
    budget: Budget,
) -> Pages<'a, LargeRow> {
    Pages::new(Of::Two(first, second), epsilon, budget)
}

/// [`self_pages`](crate::self_pages) for bulges up to 16.
///
/// ```
/// use vonjekona::{Budget, Path, Vertex, large};
/// let tuning = Path::open(vec![Vertex::new(4.0, 0.0, 2.0), Vertex::new(5.0, 0.0, 0.0)]);
/// let mut pages = large::self_pages(&tuning, 1.0 / 1024.0, Budget::Pairs(3));
/// assert_eq!(pages.next().unwrap()?.pairs, 1);
/// # Ok::<(), vonjekona::Refusal>(())
/// ```
pub fn self_pages<'a>(path: &'a Path<'a>, epsilon: f64, budget: Budget) -> Pages<'a, LargeRow> {
    Pages::new(Of::One(path), epsilon, budget)
}

/// [`mutual_shared`](crate::mutual_shared) for bulges up to 16.
///
/// # Errors
/// Those of [`mutual`](crate::mutual).
///
/// ```
/// use vonjekona::{Path, Vertex, large};
/// let tuning = Path::open(vec![Vertex::new(4.0, 0.0, 2.0), Vertex::new(5.0, 0.0, 0.0)]);
/// let joined = large::mutual_shared(&tuning, &tuning, 1.0 / 1024.0, 2)?;
/// assert_eq!(&joined.rows, large::mutual(&tuning, &tuning, 1.0 / 1024.0)?.rows());
/// # Ok::<(), vonjekona::Refusal>(())
/// ```
pub fn mutual_shared(
    first: &Path,
    second: &Path,
    epsilon: f64,
    threads: usize,
) -> Result<Joined<LargeRow>, Refusal> {
    shared::list(Of::Two(first, second), epsilon, threads)
}

/// [`self_shared`](crate::self_shared) for bulges up to 16.
///
/// # Errors
/// Those of [`mutual`](crate::mutual).
///
/// ```
/// use vonjekona::{Path, Vertex, large};
/// let narrow = Path::open(vec![Vertex::new(0.0, 0.0, 8.0), Vertex::new(0.125, 0.0, 0.0)]);
/// assert_eq!(large::self_shared(&narrow, 0.25, 2)?.rows.len(), 1);
/// # Ok::<(), vonjekona::Refusal>(())
/// ```
pub fn self_shared(path: &Path, epsilon: f64, threads: usize) -> Result<Joined<LargeRow>, Refusal> {
    shared::list(Of::One(path), epsilon, threads)
}

/// [`dxf_import`](crate::dxf_import) for bulges up to 16. The path is the body's, uncut.
///
/// # Errors
/// Those of [`dxf_import`](crate::dxf_import).
///
/// ```
/// use vonjekona::large;
/// let path = large::dxf_import("90\n2\n70\n0\n10\n4\n20\n0\n42\n2\n10\n5\n20\n0\n")?;
/// assert_eq!(path.vertices().next().unwrap().bulge, 2.0);
/// # Ok::<(), vonjekona::Refusal>(())
/// ```
pub fn dxf_import(body: impl AsRef<[u8]>) -> Result<Path<'static>, Refusal> {
    dxf::import(true, body.as_ref())
}

/// [`dxf_export`](crate::dxf_export) for bulges up to 16. The path is written uncut.
///
/// # Errors
/// Those of [`dxf_export`](crate::dxf_export).
///
/// ```
/// use vonjekona::{Path, Vertex, large};
/// let tuning = Path::open(vec![Vertex::new(4.0, 0.0, -16.0), Vertex::new(5.0, 0.0, 0.0)]);
/// assert_eq!(large::dxf_import(large::dxf_export(&tuning)?)?, tuning);
/// # Ok::<(), vonjekona::Refusal>(())
/// ```
pub fn dxf_export(path: &Path) -> Result<String, Refusal> {
    dxf::export(true, path)
}
