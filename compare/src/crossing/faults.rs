//! What is at fault in a call, by which refusal, and at which place: from the scope's table and order, from the request's list of
//! places, and from nothing else.

/// What is at fault. Its number here is the one that a returned word has.
#[derive(Clone, Copy, Debug, PartialEq, Eq, PartialOrd, Ord)]
pub enum Item {
    Epsilon = 0,
    /// Of a point or a vertex.
    X = 1,
    Y = 2,
    Bulge = 3,
    /// Of a kernel's circle.
    Radius = 4,
    CenterX = 5,
    CenterY = 6,
    /// Of a segment.
    Chord = 7,
    /// Of a path: how many numbers it has.
    Length = 8,
    Rows = 9,
    /// Of a page.
    Position = 10,
    Budget = 11,
    /// Of a boxed listing: the index.
    Boxes = 12,
    /// Of a path's vertex.
    Trace = 13,
    /// Of a counted listing or a join.
    Report = 14,
    /// Of a large arc's cut point.
    CutX = 17,
    CutY = 18,
}

/// Whose item it is: a path, a segment, a point or a circle of the call, and there which vertex, segment or end. All count from
/// 0, and what a place has none of is 0.
#[derive(Clone, Copy, Debug, PartialEq, Eq, PartialOrd, Ord)]
pub struct Place {
    pub item: Item,
    pub owner: usize,
    pub index: usize,
}

/// A refusal's number, and the place that it tells.
#[derive(Clone, Copy, Debug, PartialEq, Eq, PartialOrd, Ord)]
pub struct Fault {
    pub number: u64,
    pub place: Place,
}

/// The numbers of a call by their indices, in the order of their checks, and the place of each.
pub type Order = &'static [(usize, Place)];

/// What a returned word has in its lowest 16 bits if the call is refused: this plus the refusal's number.
const REFUSED: u64 = 256;

pub const NOT_A_NUMBER: u64 = 11;
pub const INFINITE: u64 = 12;
/// A trace is finite and no whole number from 0 to 255.
pub const NO_TRACE: u64 = 15;

impl Place {
    pub const EPSILON: Place = Place::alone(Item::Epsilon);

    pub const fn new(item: Item, owner: usize, index: usize) -> Place {
        Place { item, owner, index }
    }

    /// Of the call as a whole.
    pub const fn alone(item: Item) -> Place {
        Place::new(item, 0, 0)
    }
}

impl Fault {
    pub fn new(number: u64, place: Place) -> Fault {
        Fault { number, place }
    }

    /// The fault of a number at a place that has one, if it is refused.
    pub fn of(place: Place, x: f64) -> Option<Fault> {
        let number = refusal(place.item, x)?;
        Some(Fault { number, place })
    }

    /// The returned word: 256 and the number in bits 0 to 15, the item in 16 to 23, the owner in 24 to 31, the index in 32 to 63.
    pub fn word(self) -> u64 {
        let Place { item, owner, index } = self.place;
        let parts = [item as u64, owner as u64, index as u64];
        assert!(
            parts[1] < 1 << 8 && parts[2] < 1 << 32,
            "{self:?} has no word"
        );
        REFUSED + self.number + (parts[0] << 16) + (parts[1] << 24) + (parts[2] << 32)
    }
}

pub fn two_to(power: i32) -> f64 {
    f64::from_bits(((1023 + power) as u64) << 52)
}

/// The refusal of a number: epsilon has one for everything; else a NaN and an infinity have their own.
fn refusal(item: Item, x: f64) -> Option<u64> {
    let (beyond, within) = match item {
        Item::Epsilon => (4, x >= two_to(-40) && x <= 0.5),
        Item::X | Item::Y => (2, x.abs() <= 1_048_576.0),
        Item::Bulge => (3, x.abs() <= 1.0),
        Item::Radius => (9, x >= two_to(-42) && x <= two_to(47)),
        Item::CenterX | Item::CenterY => (9, x.abs() <= two_to(48)),
        // by value: -0 is 0
        Item::Trace => (NO_TRACE, (0.0..=255.0).contains(&x) && x.trunc() == x),
        _ => unreachable!("{item:?} is no number of a caller's"),
    };
    match item {
        Item::Epsilon if !x.is_finite() => Some(4),
        _ if x.is_nan() => Some(NOT_A_NUMBER),
        _ if x.is_infinite() => Some(INFINITE),
        _ => (!within).then_some(beyond),
    }
}

/// The fault of a segment's chord, its two vertices one after the other: an arc's must not be shorter than 2^-40.
pub fn chord(segment: &[f64], owner: usize, index: usize) -> Option<Fault> {
    let is_arc = segment[2].abs() >= 1e-8;
    let (x, y) = (segment[3] - segment[0], segment[4] - segment[1]);
    let short = is_arc && (x * x + y * y).sqrt() < two_to(-40);
    short.then_some(Fault::new(5, Place::new(Item::Chord, owner, index)))
}

#[cfg(test)]
mod tests {
    use super::*;

    fn word(number: u64, item: Item, owner: usize, index: usize) -> u64 {
        Fault::new(number, Place::new(item, owner, index)).word()
    }

    #[test]
    fn words() {
        assert_eq!(word(4, Item::Epsilon, 0, 0), 0x0104);
        assert_eq!(word(11, Item::Y, 0, 17), 0x11_0002_010b);
        assert_eq!(word(5, Item::Chord, 1, 4095), 0xfff_0107_0105);
        assert_eq!(word(12, Item::CenterY, 1, 0), 0x0106_010c);
        assert_eq!(word(14, Item::Budget, 0, 0), 0x000b_010e);
        assert_eq!(word(17, Item::Boxes, 0, 0), 0x000c_0111);
        assert_eq!(word(15, Item::Trace, 1, 4095), 0xfff_010d_010f);
        assert_eq!(word(19, Item::Report, 0, 0), 0x000e_0113);
    }

    /// At each number NaN comes first, then infinite, then its limits; epsilon has one refusal for all.
    #[test]
    fn numbers() {
        let signalling = f64::from_bits(0x7ff0_0000_0000_0001);
        let numbers = [
            (Item::Epsilon, 4, 0.75),
            (Item::X, 2, 1_048_577.0),
            (Item::Y, 2, -1_048_577.0),
            (Item::Bulge, 3, 1.5),
            (Item::Radius, 9, 0.0),
            (Item::CenterX, 9, -1e15),
            (Item::CenterY, 9, 1e15),
            (Item::Trace, 15, 256.0),
        ];
        for (item, beyond, number) in numbers {
            let of_all = |number| if beyond == 4 { 4 } else { number };
            for nan in [f64::NAN, -f64::NAN, signalling, -signalling] {
                assert_eq!(refusal(item, nan), Some(of_all(11)));
            }
            for infinite in [f64::INFINITY, f64::NEG_INFINITY] {
                assert_eq!(refusal(item, infinite), Some(of_all(12)));
            }
            assert_eq!(refusal(item, number), Some(beyond));
            let accepted = if item == Item::Trace { 255.0 } else { 0.25 };
            assert_eq!(refusal(item, accepted), None);
        }
    }

    /// Each whole number from 0 to 255, and -0, is a trace; nothing beside them is.
    #[test]
    fn traces() {
        for whole in 0..=255 {
            assert_eq!(refusal(Item::Trace, f64::from(whole)), None);
            for beside in [f64::from(whole).next_down(), f64::from(whole).next_up()] {
                assert_eq!(refusal(Item::Trace, beside), Some(15), "{beside:e}");
            }
        }
        assert_eq!(refusal(Item::Trace, -0.0), None);
        for x in [256.0, -1.0, 0.5, -0.5, 254.5, f64::MAX, f64::MIN] {
            assert_eq!(refusal(Item::Trace, x), Some(15), "{x:e}");
        }
    }

    #[test]
    fn chords() {
        let fault = |x: f64, bulge: f64| chord(&[1.0, 1.0, bulge, 1.0 + x, 1.0, 0.0], 1, 7);
        assert_eq!(fault(0.0, 0.5).map(Fault::word), Some(0x7_0107_0105));
        assert_eq!(fault(0.0, 0.0), None);
        assert_eq!(fault(1.0, 0.5), None);
    }
}
