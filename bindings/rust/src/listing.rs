//! Full listings: every pair of segments that meets.

use crate::ffi::{self, Asked, Lent, Of};
use crate::path::Path;
use crate::refusal::{Places, Refusal};
use crate::rows::{AnyRow, IntoIter, Iter, Row, Rows};

/// Room for so many rows is lent at first.
const FIRST_ROOM: usize = 1024;
/// After each refusal 8 there is so many times as much.
const GROWTH: usize = 4;

/// A listing's rows, and how many pairs were looked at.
///
/// ```
/// use vonjekona::{Path, Vertex, mutual};
/// let across = Path::open(vec![Vertex::new(0.0, 0.0, 0.0), Vertex::new(4.0, 0.0, 0.0)]);
/// let up = Path::open(vec![Vertex::new(1.0, -1.0, 0.0), Vertex::new(1.0, 1.0, 0.0)]);
/// let listing = mutual(&across, &up, 1e-5)?;
/// assert_eq!((listing.len(), listing.looked_at()), (1, 1));
/// for row in listing {
///     assert_eq!((row.first, row.second, row.met.class()), (0, 0, 2));
/// }
/// # Ok::<(), vonjekona::Refusal>(())
/// ```
#[derive(Debug, Clone, PartialEq)]
pub struct Listing<R: AnyRow = Row> {
    rows: Rows<R>,
    looked_at: u64,
}

impl<R: AnyRow> Listing<R> {
    /// The rows in order.
    ///
    /// ```
    /// # use vonjekona::{Path, self_listing};
    /// assert!(self_listing(&Path::open(&[]), 1e-5)?.rows().is_empty());
    /// # Ok::<(), vonjekona::Refusal>(())
    /// ```
    pub fn rows(&self) -> &Rows<R> {
        &self.rows
    }

    /// The rows alone.
    ///
    /// ```
    /// # use vonjekona::{Path, self_listing};
    /// assert!(self_listing(&Path::open(&[]), 1e-5)?.into_rows().is_empty());
    /// # Ok::<(), vonjekona::Refusal>(())
    /// ```
    pub fn into_rows(self) -> Rows<R> {
        self.rows
    }

    /// How many rows there are.
    ///
    /// ```
    /// # use vonjekona::{Path, self_listing};
    /// assert_eq!(self_listing(&Path::open(&[]), 1e-5)?.len(), 0);
    /// # Ok::<(), vonjekona::Refusal>(())
    /// ```
    pub fn len(&self) -> usize {
        self.rows.len()
    }

    /// Whether no pair makes a row: "no crossing". `docs/LIMITS.md` of the repository says what
    /// may be concluded from it.
    ///
    /// ```
    /// # use vonjekona::{Path, self_listing};
    /// assert!(self_listing(&Path::open(&[]), 1e-5)?.is_empty());
    /// # Ok::<(), vonjekona::Refusal>(())
    /// ```
    pub fn is_empty(&self) -> bool {
        self.rows.is_empty()
    }

    /// How many pairs were looked at, without those that were skipped.
    ///
    /// ```
    /// # use vonjekona::{Path, self_listing};
    /// assert_eq!(self_listing(&Path::open(&[]), 1e-5)?.looked_at(), 0);
    /// # Ok::<(), vonjekona::Refusal>(())
    /// ```
    pub fn looked_at(&self) -> u64 {
        self.looked_at
    }

    /// The rows one by one.
    ///
    /// ```
    /// # use vonjekona::{Path, self_listing};
    /// assert_eq!(self_listing(&Path::open(&[]), 1e-5)?.iter().next(), None);
    /// # Ok::<(), vonjekona::Refusal>(())
    /// ```
    pub fn iter(&self) -> Iter<'_, R> {
        self.rows.iter()
    }
}

impl<R: AnyRow> IntoIterator for Listing<R> {
    type Item = R;
    type IntoIter = IntoIter<R>;

    fn into_iter(self) -> IntoIter<R> {
        self.rows.into_iter()
    }
}

impl<'a, R: AnyRow> IntoIterator for &'a Listing<R> {
    type Item = R;
    type IntoIter = Iter<'a, R>;

    fn into_iter(self) -> Iter<'a, R> {
        self.rows.iter()
    }
}

impl Of<'_> {
    pub(crate) fn places(self) -> Places {
        match self {
            Of::Two(..) => Places::TwoPaths,
            Of::One(_) => Places::OnePath,
        }
    }

    /// As many pairs as there can be: no listing has more rows. A cut path has at most twice the
    /// segments.
    pub(crate) fn most_pairs(self, large: bool) -> usize {
        let segments = |path: &Path| path.segments().saturating_mul(if large { 2 } else { 1 });
        match self {
            Of::Two(first, second) => segments(first).saturating_mul(segments(second)),
            Of::One(path) => segments(path).saturating_mul(segments(path)) / 2,
        }
    }
}

/// Lends more and more room until a call does not answer 8. Any other refusal is the answer.
pub(crate) fn fill<R: AnyRow>(
    of: Of,
    mut call: impl FnMut(Lent, &mut [u64; 2]) -> u64,
) -> Result<Listing<R>, Refusal> {
    let most = of.most_pairs(R::LARGE);
    let mut room = FIRST_ROOM.min(most);
    loop {
        let mut rows = Rows::none();
        let mut counts = [0; 2];
        let word = call(rows.lend(room), &mut counts);
        match Refusal::check(of.places(), R::LARGE, word) {
            Ok(_) => {
                rows.keep(counts[0] as usize);
                return Ok(Listing { rows, looked_at: counts[1] });
            }
            Err(refusal) if refusal.number == 8 && room < most => {
                room = room.saturating_mul(GROWTH).min(most);
            }
            Err(refusal) => return Err(refusal),
        }
    }
}

pub(crate) fn list<R: AnyRow>(of: Of, epsilon: f64) -> Result<Listing<R>, Refusal> {
    let asked = Asked { of, large: R::LARGE, epsilon };
    fill(of, |lent, counts| ffi::listing(asked, lent, counts))
}

/// Every segment of the first path with every segment of the second.
///
/// There is room for all rows, however many they are. The call needs some 506 KiB of stack.
///
/// # Errors
/// A refusal, if a path or epsilon is at fault: 4, 6, 7, 11, 12, 2, 3, 15 or 5.
///
/// ```
/// use vonjekona::{Path, PlineSegIntr, Vector2, Vertex, mutual};
/// let coil = [(0.0, 0.0), (8.0, 0.0), (8.0, 6.0), (1.0, 6.0), (1.0, 1.0)];
/// let coil: Vec<Vertex> = coil.iter().map(|&(x, y)| Vertex::new(x, y, 0.0)).collect();
/// let slot = [Vertex::new(4.0, -1.0, 0.0), Vertex::new(4.0, 7.0, 0.0)];
/// let listing = mutual(&Path::open(&coil), &Path::open(&slot), 1.0 / 1024.0)?;
/// let met: Vec<usize> = listing.iter().map(|row| row.first).collect();
/// assert_eq!(met, [0, 2]);
/// assert_eq!(listing.looked_at(), 4);
/// let point = Vector2::new(4.0, 6.0);
/// assert_eq!(listing.rows().get(1).unwrap().met, PlineSegIntr::OneIntersect { point });
/// # Ok::<(), vonjekona::Refusal>(())
/// ```
pub fn mutual(first: &Path, second: &Path, epsilon: f64) -> Result<Listing, Refusal> {
    list(Of::Two(first, second), epsilon)
}

/// Every segment of a path with every later one, neighbours too: a corner makes no row, a path
/// that runs back over itself does.
///
/// There is room for all rows, however many they are. The call needs some 506 KiB of stack.
///
/// # Errors
/// Those of [`mutual`].
///
/// ```
/// use vonjekona::{Path, Vertex, self_listing};
/// let at = |x, y| Vertex::new(x, y, 0.0);
/// let fold = self_listing(&Path::open(&[at(0.0, 0.0), at(10.0, 0.0), at(5.0, 0.0)]), 1e-3)?;
/// assert_eq!(fold.iter().map(|row| row.met.class()).collect::<Vec<_>>(), [4]);
/// let corner = self_listing(&Path::open(&[at(0.0, 0.0), at(10.0, 0.0), at(10.0, 5.0)]), 1e-3)?;
/// assert!(corner.is_empty());
/// # Ok::<(), vonjekona::Refusal>(())
/// ```
pub fn self_listing(path: &Path, epsilon: f64) -> Result<Listing, Refusal> {
    list(Of::One(path), epsilon)
}

#[cfg(test)]
mod tests {
    use super::*;
    use crate::path::Vertex;

    /// Calls that answer 8 below a room and then a word; the rooms that they were lent.
    fn rooms(segments: usize, enough: usize, then: u64) -> (Vec<usize>, Result<Listing, Refusal>) {
        let path = Path::open(vec![Vertex::default(); segments + 1]);
        let mut rooms = Vec::new();
        let listing = fill(Of::Two(&path, &path), |lent, counts| {
            assert_eq!(lent.indices.len() / 3, lent.points.len() / 4);
            rooms.push(lent.points.len() / 4);
            *counts = [0, 7];
            if lent.points.len() / 4 < enough { 256 + 8 } else { then }
        });
        (rooms, listing)
    }

    #[test]
    fn eight_is_asked_again_and_nothing_else() {
        let (lent, listing) = rooms(100, 5000, 0);
        assert_eq!((lent, listing.unwrap().looked_at()), (vec![1024, 4096, 10_000], 7));
        for number in (1..=24).filter(|&n| n != 8) {
            let (lent, listing) = rooms(100, 0, 256 + number);
            assert_eq!((lent.len(), u64::from(listing.unwrap_err().number)), (1, number));
        }
    }

    #[test]
    fn no_more_room_than_pairs() {
        let (lent, listing) = rooms(3, usize::MAX, 0);
        assert_eq!((lent, listing.unwrap_err().number), (vec![9], 8));
        let (lent, _) = rooms(0, 0, 0);
        assert_eq!(lent, [0]);
    }
}
