//! Refusals: the first fault of a call, its number and its place.

mod words;

use std::error::Error;

/// What a refusal's word has in bits 8 to 15; below them is the number.
const REFUSED: u64 = 256;
/// The answer of a call that is lent too little memory for any answer.
const NO_ROOM: u64 = 512;

/// Which words name the owners and indices of a call's places.
#[derive(Debug, Copy, Clone, PartialEq, Eq, Hash)]
#[non_exhaustive]
pub enum Places {
    /// `line_line_intr`: owners v1, v2, u1, u2.
    Lines,
    /// `line_circle_intr`: owners p0, p1, the circle.
    LineAndCircle,
    /// `circle_circle_intr`: owners the first circle, the second.
    Circles,
    /// The pair calls: owners v, u; the index is that of the segment's vertex.
    Pair,
    /// Listings of two paths: owners the first path, the second; the index is that of the vertex,
    /// of a chord or a cut point that of the segment.
    TwoPaths,
    /// Listings of one path with itself: the one owner is the path, indices as above.
    OnePath,
    /// DXF: the owner is the path, indices as above; the index of a line is its number, from 1.
    Drawing,
    /// A join of reports: there is one item, and no owner.
    Reports,
}

/// What is at fault.
#[derive(Debug, Copy, Clone, PartialEq, Eq, Hash)]
#[non_exhaustive]
pub enum Item {
    /// The tolerance of the call.
    Epsilon,
    /// x of a point or a vertex.
    X,
    /// y of a point or a vertex.
    Y,
    /// The bulge of a vertex.
    Bulge,
    /// The radius of a circle.
    Radius,
    /// x of a circle's centre.
    CentreX,
    /// y of a circle's centre.
    CentreY,
    /// The chord of a segment: refusal 5.
    Chord,
    /// The length of a path: refusals 6 and 7.
    Length,
    /// The rows: refusal 8. The listings here make room for all rows, and do not give it.
    Rows,
    /// The position of a page: refusal 13.
    Position,
    /// The budget of a page: refusal 14.
    Budget,
    /// The index of boxes: refusal 17. The boxed listings here make room for it.
    Boxes,
    /// The trace of a vertex.
    Trace,
    /// A report: refusal 19.
    Report,
    /// A line of a drawing's text: refusals 20, 21 and 22.
    Line,
    /// The room for a path or a drawing's text: refusal 24. The calls here make enough.
    Room,
    /// x of a large arc's cut point: refusal 2.
    CutX,
    /// y of a large arc's cut point: refusal 2.
    CutY,
    /// A number that these bindings do not know.
    Other(u8),
}

impl Item {
    const KNOWN: [Item; 19] = [
        Item::Epsilon,
        Item::X,
        Item::Y,
        Item::Bulge,
        Item::Radius,
        Item::CentreX,
        Item::CentreY,
        Item::Chord,
        Item::Length,
        Item::Rows,
        Item::Position,
        Item::Budget,
        Item::Boxes,
        Item::Trace,
        Item::Report,
        Item::Line,
        Item::Room,
        Item::CutX,
        Item::CutY,
    ];

    /// The item of a number, `VJ_ITEM_..` of the header.
    ///
    /// ```
    /// use vonjekona::Item;
    /// assert_eq!(Item::of_number(13), Item::Trace);
    /// assert_eq!(Item::of_number(99), Item::Other(99));
    /// ```
    pub fn of_number(number: u8) -> Self {
        Item::KNOWN.get(usize::from(number)).copied().unwrap_or(Item::Other(number))
    }
}

/// A call's refusal. It prints its place in words.
///
/// ```
/// use vonjekona::{Item, Path, Vertex, mutual};
/// let mut coil = vec![Vertex::new(0.0, 0.0, 0.0); 20];
/// coil[3].x = f64::NAN;
/// let refusal = mutual(&Path::open(&coil), &Path::open(&[]), 1e-5).unwrap_err();
/// assert_eq!((refusal.number, refusal.owner, refusal.index), (11, 0, 3));
/// assert_eq!(refusal.item, Item::X);
/// assert_eq!(refusal.to_string(), "refused 11: x of vertex 3 of the first path is NaN");
/// ```
#[derive(Debug, Copy, Clone, PartialEq, Eq, Hash)]
pub struct Refusal {
    /// The refusal's number.
    pub number: u8,
    /// Whose item it is, counted from 0.
    pub owner: u8,
    /// Which of the owner's, counted from 0.
    pub index: u32,
    /// What is at fault.
    pub item: Item,
    /// The words of the call's places.
    pub places: Places,
    /// Whether the call takes large arcs: 3 is then given for a bulge above 16, not 1.
    pub large: bool,
}

impl Refusal {
    /// A refusal by the word that a call in C returned, or none if the word is no refusal's.
    ///
    /// ```
    /// use vonjekona::{Places, Refusal};
    /// let refusal = Refusal::of_word(Places::OnePath, false, 0x0000_0007_0002_010c).unwrap();
    /// assert_eq!(refusal.to_string(), "refused 12: y of vertex 7 of the path is infinite");
    /// assert_eq!(Refusal::of_word(Places::OnePath, false, 0), None);
    /// ```
    pub fn of_word(places: Places, large: bool, word: u64) -> Option<Self> {
        let [number, refused, item, owner, ..] = word.to_le_bytes();
        (u64::from(refused) << 8 == REFUSED).then(|| Refusal {
            number,
            owner,
            index: (word >> 32) as u32,
            item: Item::of_number(item),
            places,
            large,
        })
    }

    /// A call's answer, if its word is no refusal's. Whoever calls lends enough for an answer.
    pub(crate) fn check(places: Places, large: bool, word: u64) -> Result<u64, Self> {
        assert_ne!(word, NO_ROOM, "the bindings lend room for every answer");
        Refusal::of_word(places, large, word).map_or(Ok(word), Err)
    }
}

impl Error for Refusal {}
