//! The packed form of a layout as in the request's words, and the moves between it and the text: plain, and slow where that is
//! shorter to say.

use crate::form::{self, Place, Sheet, BULGE, COORDINATE, MOST_VERTICES};
use crate::vertex::VERTEX;

pub const MOST_BYTES: usize = 8_192;
/// The bytes of the longest layout: two counts of two bytes, and 512 vertices of four, four and three.
pub const LONGEST: usize = 2 + 2 + 2 * 256 * (4 + 4 + 3);
/// The bytes of the longest text: two counts of three digits, and 512 vertices of eight, eight and six characters, and what
/// stands between and behind them.
pub const LONGEST_TEXT: usize = 8 + 2 * 256 * (8 + 1 + 8 + 1 + 6 + 1);
/// The numbers of a path with the most vertices.
pub const MOST_NUMBERS: usize = VERTEX * 256;

/// What a number is for, and so in which range it must be.
#[derive(Clone, Copy, Debug, PartialEq)]
pub enum Role {
    Count,
    X,
    Y,
    Bulge,
}

impl Role {
    pub fn limit(self) -> i64 {
        match self {
            Role::Count => MOST_VERTICES,
            Role::X | Role::Y => COORDINATE,
            Role::Bulge => BULGE,
        }
    }

    fn is_in_range(self, n: i128) -> bool {
        let least = match self {
            Role::Count => 0,
            _ => -self.limit(),
        };
        (i128::from(least)..=i128::from(self.limit())).contains(&n)
    }
}

/// Groups of seven bits, lowest first, the top bit set while more follow. No group more than needed, and at least one.
pub fn groups(mut n: u128) -> Vec<u8> {
    let mut bytes = Vec::new();
    while n > 127 {
        bytes.push(128 + (n % 128) as u8);
        n /= 128;
    }
    bytes.push(n as u8);
    bytes
}

/// A count as it is; a coordinate or bulge n as 2n, or -2n-1 if it is negative.
pub fn number(role: Role, n: i64) -> Vec<u8> {
    let n = i128::from(n);
    let unsigned = match role {
        Role::Count => n,
        _ if n < 0 => -2 * n - 1,
        _ => 2 * n,
    };
    groups(unsigned as u128)
}

/// What a stored number stands for.
fn meant(role: Role, stored: u128) -> i128 {
    let stored = stored as i128;
    match role {
        Role::Count => stored,
        _ if stored % 2 == 0 => stored / 2,
        _ => -(stored + 1) / 2,
    }
}

/// The packed form of a layout.
pub fn packed(sheet: &Sheet) -> Vec<u8> {
    let counts = sheet.paths.iter().map(|path| path.len() as i64);
    let mut bytes: Vec<u8> = counts.flat_map(|n| number(Role::Count, n)).collect();
    for place in sheet.paths.iter().flatten() {
        for (role, n) in [Role::X, Role::Y, Role::Bulge].into_iter().zip(place) {
            bytes.extend(number(role, *n));
        }
    }
    bytes
}

/// Why a file is no packed layout. The library tells the offset only; the rest is for counting what came up.
#[derive(Clone, Copy, Debug, PartialEq)]
pub struct Fault {
    pub offset: usize,
    pub what: What,
}

#[derive(Clone, Copy, Debug, PartialEq)]
pub enum What {
    /// The number that starts there.
    Number {
        role: Role,
        path: usize,
        wrong: Wrong,
        /// How many bytes it has.
        bytes: usize,
        /// What it stands for, unless it is cut or has more than 119 bits.
        n: Option<i128>,
    },
    /// Bytes that are left over, so many.
    Rest(usize),
}

#[derive(Clone, Copy, Debug, PartialEq)]
pub enum Wrong {
    /// It starts at the file's end.
    Missing,
    /// Its last byte says that more follow.
    Cut,
    /// Not the shortest form, of a number within its range.
    Padded,
    /// Not the shortest form, of a number beyond it.
    PaddedBeyond,
    Beyond,
}

/// What is still to be read.
struct Reader<'a> {
    bytes: &'a [u8],
    at: usize,
}

impl Reader<'_> {
    fn next(&mut self, role: Role, path: usize) -> Result<i64, Fault> {
        let rest = &self.bytes[self.at..];
        let end = rest.iter().position(|byte| *byte < 128);
        let stored = end.and_then(|last| value(&rest[..=last]));
        let n = stored.map(|stored| meant(role, stored));
        let bytes = end.map_or(rest.len(), |last| last + 1);
        let wrong = match (stored, n) {
            _ if rest.is_empty() => Wrong::Missing,
            _ if end.is_none() => Wrong::Cut,
            (Some(stored), Some(n)) if role.is_in_range(n) => {
                if groups(stored) == rest[..bytes] {
                    self.at += bytes;
                    return Ok(n as i64);
                }
                Wrong::Padded
            }
            _ if rest[bytes - 1] == 0 => Wrong::PaddedBeyond,
            _ => Wrong::Beyond,
        };
        let what = What::Number {
            role,
            path,
            wrong,
            bytes,
            n,
        };
        Err(Fault {
            offset: self.at,
            what,
        })
    }

    fn place(&mut self, path: usize) -> Result<Place, Fault> {
        let x = self.next(Role::X, path)?;
        let y = self.next(Role::Y, path)?;
        Ok([x, y, self.next(Role::Bulge, path)?])
    }

    fn path(&mut self, path: usize, vertices: i64) -> Result<Vec<Place>, Fault> {
        (0..vertices).map(|_| self.place(path)).collect()
    }
}

/// The value of groups, or none if it has more than 119 bits: it is beyond every range then.
fn value(groups: &[u8]) -> Option<u128> {
    let used = groups.iter().rposition(|group| group % 128 > 0);
    let groups = &groups[..used.map_or(0, |last| last + 1)];
    let worth = |sum: u128, group: &u8| 128 * sum + u128::from(group % 128);
    (groups.len() <= 17).then(|| groups.iter().rev().fold(0, worth))
}

/// The layout of a packed file, or its first fault. Its length is not asked for: that a file of more than 8,192 bytes has a fault
/// anyway is said in the request.
pub fn sheet(bytes: &[u8]) -> Result<Sheet, Fault> {
    let mut reader = Reader { bytes, at: 0 };
    let first = reader.next(Role::Count, 0)?;
    let second = reader.next(Role::Count, 1)?;
    let first = reader.path(0, first)?;
    let second = reader.path(1, second)?;
    match bytes.len() - reader.at {
        0 => Ok(Sheet::new(first, second)),
        left => Err(Fault {
            offset: reader.at,
            what: What::Rest(left),
        }),
    }
}

/// Text to packed; none if the text breaks its form.
pub fn pack(text: &[u8]) -> Option<Vec<u8>> {
    form::sheet(text).map(|sheet| packed(&sheet))
}

/// Packed to text, or the fault.
pub fn unpack(bytes: &[u8]) -> Result<Vec<u8>, Fault> {
    sheet(bytes).map(|sheet| sheet.text())
}

/// A path as the listings take it. A file has no traces: each is +0.
pub fn floats(path: &[Place]) -> Vec<f64> {
    let numbers = |[x, y, bulge]: &Place| -> [f64; VERTEX] {
        [*x as f64, *y as f64, *bulge as f64 / 65_536.0, 0.0]
    };
    path.iter().flat_map(numbers).collect()
}
