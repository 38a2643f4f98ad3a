//! A refusal in words: the place, then what is wrong there.

use std::fmt::{self, Display, Formatter};

use super::{Item, Places, Refusal};

impl Display for Refusal {
    fn fmt(&self, f: &mut Formatter<'_>) -> fmt::Result {
        write!(f, "refused {}: ", self.number)?;
        match self.number {
            // no call gives these: their programs read whole inputs, and have no such place
            1 => f.write_str("a number is NaN or infinite; it is not given any more"),
            10 => f.write_str("a layout's text breaks its form"),
            16 => f.write_str("the input does not begin as a packed file's does"),
            18 => f.write_str("a packed file breaks its form"),
            20 => write!(f, "line {} of the text has a bad code or number", self.index),
            21 => write!(
                f,
                "line {} of the text has a group out of place, or a group or its value is missing \
                 there",
                self.index
            ),
            22 => write!(
                f,
                "the vertices are more or fewer than line {} of the text says",
                self.index
            ),
            _ => {
                self.write_place(f)?;
                self.write_reason(f)
            }
        }
    }
}

impl Refusal {
    fn write_place(&self, f: &mut Formatter<'_>) -> fmt::Result {
        match self.item {
            Item::Epsilon => f.write_str("epsilon"),
            Item::Rows => f.write_str("the rows"),
            Item::Position => f.write_str("the position"),
            Item::Budget => f.write_str("the budget"),
            Item::Boxes => f.write_str("the boxes"),
            Item::Report => f.write_str("the report"),
            Item::Room => f.write_str("the room for the path or its text"),
            Item::Line => write!(f, "line {} of the text", self.index),
            Item::Length => self.of_owner(f, "the length"),
            Item::Radius => self.of_owner(f, "the radius"),
            Item::CentreX => self.of_owner(f, "x of the centre"),
            Item::CentreY => self.of_owner(f, "y of the centre"),
            Item::X => self.of_vertex(f, "x"),
            Item::Y => self.of_vertex(f, "y"),
            Item::Bulge => self.of_vertex(f, "the bulge"),
            Item::Trace => self.of_vertex(f, "the trace"),
            Item::Chord => self.of_segment(f, "the chord"),
            Item::CutX => self.of_segment(f, "x of the cut point"),
            Item::CutY => self.of_segment(f, "y of the cut point"),
            Item::Other(item) => self.of_owner(f, &format!("item {item}, number {},", self.index)),
        }
    }

    fn of_owner(&self, f: &mut Formatter<'_>, what: &str) -> fmt::Result {
        let owners: &[&str] = match self.places {
            Places::Lines => &["v1", "v2", "u1", "u2"],
            Places::LineAndCircle => &["p0", "p1", "the circle"],
            Places::Circles => &["the first circle", "the second circle"],
            Places::Pair => &["v", "u"],
            Places::TwoPaths => &["the first path", "the second path"],
            Places::OnePath | Places::Drawing => &["the path"],
            Places::Reports => &[],
        };
        match owners.get(usize::from(self.owner)) {
            Some(owner) => write!(f, "{what} of {owner}"),
            None => write!(f, "{what} of owner {}", self.owner),
        }
    }

    /// An item of a vertex, or of a kernel's point, which is an owner itself.
    fn of_vertex(&self, f: &mut Formatter<'_>, what: &str) -> fmt::Result {
        match (self.places, self.index) {
            (Places::Lines | Places::LineAndCircle | Places::Circles, _) => self.of_owner(f, what),
            (Places::Pair, 0) => self.of_owner(f, &format!("{what} of the first vertex")),
            (Places::Pair, 1) => self.of_owner(f, &format!("{what} of the second vertex")),
            (_, index) => self.of_owner(f, &format!("{what} of vertex {index}")),
        }
    }

    /// An item of a segment. In a pair the owner is the segment.
    fn of_segment(&self, f: &mut Formatter<'_>, what: &str) -> fmt::Result {
        match self.places {
            Places::Pair => self.of_owner(f, what),
            _ => self.of_owner(f, &format!("{what} of segment {}", self.index)),
        }
    }

    fn write_reason(&self, f: &mut Formatter<'_>) -> fmt::Result {
        let reason = match self.number {
            2 => "is above 1,048,576 in magnitude",
            3 if self.large => "is above 16 in magnitude",
            3 => "is above 1 in magnitude",
            4 => "is NaN, infinite, or not in 2^-40 to 1/2",
            5 if self.large => "is that of an arc, and it or that of a half is shorter than 2^-40",
            5 => "is that of an arc, and shorter than 2^-40",
            6 => "is no multiple of 4",
            7 => "is more than 4,096 vertices",
            8 | 17 => "are more than there is room for",
            9 if self.item == Item::Radius => "is not in 2^-42 to 2^47",
            9 => "is above 2^48 in magnitude",
            11 => "is NaN",
            12 => "is infinite",
            13 => "is beyond the end",
            14 => "is 0",
            15 => "is no whole number from 0 to 255",
            19 if self.places == Places::Reports => "does not take the sum with the other one",
            19 => "is full",
            23 => "is no number that six digits spell",
            24 => "is too small",
            _ => "is at fault, by a number that these bindings do not know",
        };
        write!(f, " {reason}")
    }
}
