//! Counted listings, and the report that they add to.

use crate::ffi::{self, Of};
use crate::listing::{Listing, fill};
use crate::path::Path;
use crate::refusal::{Places, Refusal};
use crate::rows::AnyRow;

/// A report: how many layouts there were, how their pairs met, and for what some were refused.
///
/// ```
/// use vonjekona::{Path, Report, Vertex, mutual_counted};
/// let at = |x, y| Vertex::new(x, y, 0.0);
/// let (across, up) = ([at(0.0, 0.0), at(4.0, 0.0)], [at(1.0, -1.0), at(1.0, 1.0)]);
/// let mut report = Report::new();
/// mutual_counted(&Path::open(&across), &Path::open(&up), 1e-3, &mut report)?;
/// mutual_counted(&Path::open(&across), &Path::open(&[at(0.0, 9.0), at(4.0, 9.0)]), 1e-3, &mut report)?;
/// assert_eq!((report.layouts(), report.pairs()), (2, 2));
/// assert_eq!((report.class(2), report.class(0)), (1, 1));
/// # Ok::<(), vonjekona::Refusal>(())
/// ```
#[derive(Debug, Clone, PartialEq, Eq)]
pub struct Report {
    words: [u64; Report::WORDS],
}

impl Default for Report {
    fn default() -> Self {
        Report::new()
    }
}

impl Report {
    /// How many words a report has.
    pub const WORDS: usize = 40;

    /// A fresh report: all zeros.
    ///
    /// ```
    /// assert_eq!(vonjekona::Report::new().layouts(), 0);
    /// ```
    pub const fn new() -> Self {
        Report { words: [0; Report::WORDS] }
    }

    /// A report that was kept elsewhere.
    ///
    /// ```
    /// let mut words = [0; 40];
    /// words[0] = 12;
    /// assert_eq!(vonjekona::Report::of_words(words).layouts(), 12);
    /// ```
    pub const fn of_words(words: [u64; Report::WORDS]) -> Self {
        Report { words }
    }

    /// The words, as a caller in C has them.
    ///
    /// ```
    /// assert_eq!(vonjekona::Report::new().words(), &[0; 40]);
    /// ```
    pub const fn words(&self) -> &[u64; Report::WORDS] {
        &self.words
    }

    /// How many layouts were counted, refused ones too.
    ///
    /// ```
    /// assert_eq!(vonjekona::Report::new().layouts(), 0);
    /// ```
    pub const fn layouts(&self) -> u64 {
        self.words[0]
    }

    /// How many pairs were looked at.
    ///
    /// ```
    /// assert_eq!(vonjekona::Report::new().pairs(), 0);
    /// ```
    pub const fn pairs(&self) -> u64 {
        self.words[1]
    }

    /// How many pairs had a class, 0 to 5.
    ///
    /// # Panics
    /// If there is no such class.
    ///
    /// ```
    /// assert_eq!(vonjekona::Report::new().class(4), 0);
    /// ```
    pub const fn class(&self, class: usize) -> u64 {
        assert!(class <= 5, "a class is 0 to 5");
        self.words[2 + class]
    }

    /// How many layouts were refused with a number, 0 to 31.
    ///
    /// # Panics
    /// If the number is above 31.
    ///
    /// ```
    /// assert_eq!(vonjekona::Report::new().refused(11), 0);
    /// ```
    pub const fn refused(&self, number: usize) -> u64 {
        assert!(number <= 31, "a report has the numbers 0 to 31");
        self.words[8 + number]
    }

    /// Adds another report to this one.
    ///
    /// # Errors
    /// Refusal 19, if they have more than 10,000 layouts together or a sum does not fit: this
    /// report is then as it was.
    ///
    /// ```
    /// use vonjekona::Report;
    /// let mut words = [0; 40];
    /// words[0] = 6_000;
    /// let (mut week, other) = (Report::of_words(words), Report::of_words(words));
    /// let refusal = week.join(&other).unwrap_err();
    /// assert_eq!(refusal.number, 19);
    /// assert_eq!(week.layouts(), 6_000);
    /// ```
    pub fn join(&mut self, other: &Report) -> Result<(), Refusal> {
        let word = ffi::join(&mut self.words, &other.words);
        Refusal::check(Places::Reports, false, word).map(|_| ())
    }
}

/// A call that answers 8 counts the layout as refused. Here it is asked again with more room, so
/// each call gets the report as it was before: a layout is counted once, as its last call did.
pub(crate) fn list<R: AnyRow>(
    first: &Path,
    second: &Path,
    epsilon: f64,
    report: &mut Report,
) -> Result<Listing<R>, Refusal> {
    let before = report.words;
    fill(Of::Two(first, second), |lent, counts| {
        report.words = before;
        ffi::counted((first, second), R::LARGE, epsilon, lent, counts, &mut report.words)
    })
}

/// [`mutual`](crate::mutual), counted in a report. A refused layout is counted with its number.
/// No layout is counted as refused with 8, since there is room for all rows.
///
/// # Errors
/// Those of [`mutual`](crate::mutual), and 19 before all others if the report is full: it is then
/// as it was.
///
/// ```
/// use vonjekona::{Path, Report, Vertex, mutual_counted};
/// let mut report = Report::new();
/// let lost = [Vertex::new(f64::INFINITY, 0.0, 0.0)];
/// assert!(mutual_counted(&Path::open(&lost), &Path::open(&[]), 1e-3, &mut report).is_err());
/// assert_eq!((report.layouts(), report.refused(12)), (1, 1));
/// ```
pub fn mutual_counted(
    first: &Path,
    second: &Path,
    epsilon: f64,
    report: &mut Report,
) -> Result<Listing, Refusal> {
    list(first, second, epsilon, report)
}
