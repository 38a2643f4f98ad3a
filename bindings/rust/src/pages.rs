//! Pages: a listing handed out in parts, by a budget of pairs or of time.

use std::iter::FusedIterator;
use std::time::{Duration, Instant};

use crate::ffi::{self, Asked, Of};
use crate::path::Path;
use crate::refusal::Refusal;
use crate::rows::{AnyRow, Row, Rows};

/// At most so many rows a page, if nothing else is asked for; and at most so many for one call of
/// a page by time.
const ROWS: usize = 4096;
/// How many pairs a page by time tries first, when nothing is known of its pace.
const FIRST_PAIRS: u64 = 1024;
/// A page by time asks for no fewer pairs at once: each call checks both paths anew.
const LEAST_PAIRS: u64 = 64;

/// How long a page may be.
#[derive(Debug, Copy, Clone, PartialEq, Eq)]
pub enum Budget {
    /// So many pairs; 0 is refused with 14.
    Pairs(u64),
    /// About so long. A page asks for as many pairs as it expects to fit, by the pace so far, and
    /// for at least a few, so one of no time at all makes headway too.
    Time(Duration),
}

/// A part of a listing.
#[derive(Debug, Clone, PartialEq)]
pub struct Page<R: AnyRow = Row> {
    /// The rows of the pairs that the page passed.
    pub rows: Rows<R>,
    /// The page's first position.
    pub position: u64,
    /// The position after it, where the next page starts.
    pub next: u64,
    /// How many pairs there are in all: the last page's next position.
    pub pairs: u64,
}

impl<R: AnyRow> Page<R> {
    /// How many pairs the page passed, with those that were skipped for their trace.
    ///
    /// ```
    /// use vonjekona::{Budget, Path, Vertex, mutual_pages};
    /// let path = Path::open(vec![Vertex::default(); 5]);
    /// let page = mutual_pages(&path, &path, 1e-3, Budget::Pairs(3)).next().unwrap()?;
    /// assert_eq!((page.passed(), page.next, page.pairs), (3, 3, 16));
    /// # Ok::<(), vonjekona::Refusal>(())
    /// ```
    pub fn passed(&self) -> u64 {
        self.next - self.position
    }

    /// Whether the listing ends with this page.
    ///
    /// ```
    /// use vonjekona::{Budget, Path, self_pages};
    /// let nothing = Path::open(&[]);
    /// assert!(self_pages(&nothing, 1e-3, Budget::Pairs(1)).next().unwrap()?.is_last());
    /// # Ok::<(), vonjekona::Refusal>(())
    /// ```
    pub fn is_last(&self) -> bool {
        self.next == self.pairs
    }
}

/// The pages of a listing, from a position to the end. The rows of all of them, one after the
/// other, are those of the listing. There is at least one page, even if there are no pairs; a
/// refusal is the last item.
#[derive(Debug, Clone)]
pub struct Pages<'a, R: AnyRow = Row> {
    walk: Walk<'a>,
    budget: Budget,
    rows: usize,
    position: u64,
    /// Pairs a second, by the last call of a page by time.
    pace: Option<f64>,
    done: bool,
    of: std::marker::PhantomData<R>,
}

/// Calls for pages, one after the other.
#[derive(Debug, Clone, Copy)]
pub(crate) struct Walk<'a> {
    pub(crate) asked: Asked<'a>,
}

impl<'a> Walk<'a> {
    pub(crate) fn new<R: AnyRow>(of: Of<'a>, epsilon: f64) -> Self {
        Walk { asked: Asked { of, large: R::LARGE, epsilon } }
    }

    /// One call. Its rows go behind those that are there; answers the next position and all pairs.
    pub(crate) fn step<R: AnyRow>(
        &self,
        position: u64,
        budget: u64,
        room: usize,
        rows: &mut Rows<R>,
    ) -> Result<(u64, u64), Refusal> {
        let kept = rows.len();
        let mut counts = [0; 4];
        let word = ffi::page(self.asked, position, budget, rows.lend(room), &mut counts);
        // a refused call has counted no row
        rows.keep(kept + counts[0] as usize);
        Refusal::check(self.asked.of.places(), self.asked.large, word)?;
        Ok((counts[2], counts[3]))
    }
}

impl<'a, R: AnyRow> Pages<'a, R> {
    pub(crate) fn new(of: Of<'a>, epsilon: f64, budget: Budget) -> Self {
        Pages {
            walk: Walk::new::<R>(of, epsilon),
            budget,
            rows: ROWS,
            position: 0,
            pace: None,
            done: false,
            of: std::marker::PhantomData,
        }
    }

    /// The same pages from a position on, such as the `next` of a page before. One beyond the end
    /// is refused with 13.
    ///
    /// ```
    /// use vonjekona::{Budget, Path, Vertex, mutual_pages};
    /// let path = Path::open(vec![Vertex::default(); 5]);
    /// let pages = mutual_pages(&path, &path, 1e-3, Budget::Pairs(3));
    /// assert_eq!(pages.clone().starting_at(15).next().unwrap()?.passed(), 1);
    /// assert_eq!(pages.starting_at(17).next().unwrap().unwrap_err().number, 13);
    /// # Ok::<(), vonjekona::Refusal>(())
    /// ```
    pub fn starting_at(mut self, position: u64) -> Self {
        self.position = position;
        self
    }

    /// The same pages with at most so many rows each; a page that is full ends there. 0 is refused
    /// with 8. Without this it is 4,096.
    ///
    /// ```
    /// use vonjekona::{Budget, Path, Vertex, mutual_pages};
    /// let path = Path::open(vec![Vertex::default(); 5]);
    /// let mut pages = mutual_pages(&path, &path, 1e-3, Budget::Pairs(100)).rows_at_most(2);
    /// let page = pages.next().unwrap()?;
    /// assert_eq!((page.rows.len(), page.passed()), (2, 2));
    /// # Ok::<(), vonjekona::Refusal>(())
    /// ```
    pub fn rows_at_most(mut self, rows: usize) -> Self {
        self.rows = rows;
        self
    }

    /// Where the next page starts.
    ///
    /// ```
    /// use vonjekona::{Budget, Path, Vertex, mutual_pages};
    /// let path = Path::open(vec![Vertex::default(); 5]);
    /// let mut pages = mutual_pages(&path, &path, 1e-3, Budget::Pairs(3));
    /// pages.next();
    /// assert_eq!(pages.position(), 3);
    /// ```
    pub fn position(&self) -> u64 {
        self.position
    }

    fn page(&mut self) -> Result<Page<R>, Refusal> {
        let position = self.position;
        let mut rows = Rows::none();
        let (next, pairs) = match self.budget {
            Budget::Pairs(budget) => {
                // no more rows than pairs, but 0 is the call's to refuse
                let room = self.rows.min(usize::try_from(budget.max(1)).unwrap_or(self.rows));
                self.walk.step(position, budget, room, &mut rows)?
            }
            Budget::Time(time) => self.timed(time, &mut rows)?,
        };
        self.position = next;
        Ok(Page { rows, position, next, pairs })
    }

    /// Calls until the time is over, the page is full or the listing ends. A call gets half of the
    /// pairs that the time left allows, since its pairs may take longer than those before.
    fn timed(&mut self, time: Duration, rows: &mut Rows<R>) -> Result<(u64, u64), Refusal> {
        let start = Instant::now();
        let mut position = self.position;
        loop {
            let left = time.saturating_sub(start.elapsed());
            let budget = match self.pace {
                // a float above all of u64 becomes its largest number
                Some(pace) => ((pace * left.as_secs_f64() / 2.0) as u64).max(LEAST_PAIRS),
                None => FIRST_PAIRS,
            };
            // no more rows than pairs
            let pairs_at_most = usize::try_from(budget).unwrap_or(usize::MAX);
            let room = (self.rows - rows.len()).min(ROWS).min(pairs_at_most);
            let asked = Instant::now();
            let (next, pairs) = self.walk.step(position, budget, room, rows)?;
            let took = asked.elapsed().as_secs_f64().max(1e-9);
            self.pace = Some((next - position).max(1) as f64 / took);
            position = next;
            let over = time.saturating_sub(start.elapsed()) <= time / 16;
            if over || rows.len() == self.rows || position == pairs {
                return Ok((position, pairs));
            }
        }
    }
}

impl<R: AnyRow> Iterator for Pages<'_, R> {
    type Item = Result<Page<R>, Refusal>;

    fn next(&mut self) -> Option<Self::Item> {
        if self.done {
            return None;
        }
        let page = self.page();
        self.done = page.as_ref().map_or(true, Page::is_last);
        Some(page)
    }
}

impl<R: AnyRow> FusedIterator for Pages<'_, R> {}

/// The pages of [`mutual`](crate::mutual)'s listing. A call needs some 136 KiB of stack.
///
/// Each item is a page, or the refusal that ends the walk: those of [`mutual`](crate::mutual), 13
/// and 14.
///
/// ```
/// use std::time::Duration;
/// use vonjekona::{Budget, Path, Vertex, mutual, mutual_pages};
/// let zigzag: Vec<Vertex> = (0..40).map(|i| Vertex::new(i as f64, (i % 2) as f64, 0.0)).collect();
/// let (path, epsilon) = (Path::open(&zigzag), 1.0 / 1024.0);
/// let mut rows = Vec::new();
/// for page in mutual_pages(&path, &path, epsilon, Budget::Pairs(100)) {
///     rows.extend(page?.rows);
/// }
/// assert_eq!(rows, mutual(&path, &path, epsilon)?.into_iter().collect::<Vec<_>>());
///
/// let millisecond = Budget::Time(Duration::from_millis(1));
/// let mut last = None;
/// for page in mutual_pages(&path, &path, epsilon, millisecond) {
///     last = Some(page?.next);
/// }
/// assert_eq!(last, Some(39 * 39));
/// # Ok::<(), vonjekona::Refusal>(())
/// ```
pub fn mutual_pages<'a>(
    first: &'a Path<'a>,
    second: &'a Path<'a>,
    epsilon: f64,
    budget: Budget,
) -> Pages<'a> {
    Pages::new(Of::Two(first, second), epsilon, budget)
}

/// The pages of [`self_listing`](crate::self_listing)'s listing.
///
/// ```
/// use vonjekona::{Budget, Path, Vertex, self_pages};
/// let at = |x, y| Vertex::new(x, y, 0.0);
/// let fold = Path::open(vec![at(0.0, 0.0), at(10.0, 0.0), at(5.0, 0.0)]);
/// let page = self_pages(&fold, 1e-3, Budget::Pairs(100)).next().unwrap()?;
/// assert_eq!((page.rows.len(), page.passed()), (1, 1));
/// # Ok::<(), vonjekona::Refusal>(())
/// ```
pub fn self_pages<'a>(path: &'a Path<'a>, epsilon: f64, budget: Budget) -> Pages<'a> {
    Pages::new(Of::One(path), epsilon, budget)
}
