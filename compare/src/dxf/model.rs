//! Bodies of drawings, as the request has them in words: which texts are accepted, what each refusal tells, and what an export
//! writes, in both modes. A text is cut into text lines first. Numbers are read and spelt by Rust's own `std`, which rounds once: a number of
//! six digits within the limits is then the same as its millionths, divided once.

use crate::vertex::VERTEX;

pub const MOST_VERTICES: usize = 4096;
pub const COORDINATE: f64 = 1_048_576.0;
/// How many digits may stand behind the point.
pub const DIGITS: usize = 6;
/// The greatest index that a word has.
pub const MOST_INDEX: u64 = u32::MAX as u64;

const REFUSED: u64 = 256;
pub const NO_ROOM: u64 = 512;

/// Which arcs are taken: those up to a half circle, or large ones too. A large arc is cut where a path is listed, so the checks
/// look at its halves. It is read and written uncut.
#[derive(Clone, Copy, Debug, PartialEq, Eq)]
pub enum Mode {
    Half,
    Large,
}

impl Mode {
    /// The largest magnitude of a bulge.
    pub fn bulge(self) -> f64 {
        match self {
            Mode::Half => 1.0,
            Mode::Large => 16.0,
        }
    }

    /// The most bytes of an export.
    pub fn most_bytes(self, vertices: usize) -> usize {
        let of_a_vertex = match self {
            Mode::Half => 51,
            Mode::Large => 52,
        };
        13 + of_a_vertex * vertices
    }
}

/// What a refusal tells beside its number. The number here is the one that a returned word has.
#[derive(Clone, Copy, Debug, PartialEq, Eq)]
pub enum Item {
    X = 1,
    Y = 2,
    Bulge = 3,
    Chord = 7,
    Length = 8,
    Trace = 13,
    Line = 15,
    Room = 16,
    CutX = 17,
    CutY = 18,
}

#[derive(Clone, Copy, Debug, PartialEq, Eq)]
pub struct Fault {
    pub number: u64,
    pub item: Item,
    pub index: u64,
}

impl Fault {
    pub fn new(number: u64, item: Item, index: usize) -> Fault {
        let index = index as u64;
        Fault {
            number,
            item,
            index,
        }
    }

    /// The owner is 0: a drawing has one path.
    pub fn word(self) -> u64 {
        REFUSED + self.number + ((self.item as u64) << 16) + (self.index.min(MOST_INDEX) << 32)
    }
}

/// What a text gives: a vertex is x, y and bulge.
#[derive(Clone, Debug, Default, PartialEq)]
pub struct Body {
    pub vertices: Vec<[f64; 3]>,
    pub closed: bool,
}

impl Body {
    /// The numbers of the path. Every trace is 0.
    pub fn path(&self) -> Vec<f64> {
        let vertices = self.vertices.iter();
        vertices.flat_map(|[x, y, b]| [*x, *y, *b, 0.0]).collect()
    }
}

// ---- import

/// The path of a text, or its first fault but for the room.
pub fn import(text: &[u8], mode: Mode) -> Result<Body, Fault> {
    let (body, count) = groups(&lines(text))?;
    let met = trimmed(count.value) == body.vertices.len().to_string().as_bytes();
    if !met {
        return Err(Fault::new(22, Item::Line, count.line));
    }
    check(&body.path(), body.closed, mode)?;
    Ok(body)
}

/// What a text of the form gives, before anything is checked.
pub fn unchecked(text: &[u8]) -> Option<Body> {
    groups(&lines(text)).ok().map(|(body, _)| body)
}

/// A text line, and whether its newline is there.
struct Line<'a> {
    bytes: &'a [u8],
    ended: bool,
}

/// Only the last one may lack its newline, and then it has a byte at least.
fn lines(text: &[u8]) -> Vec<Line<'_>> {
    let pieces = text.split_inclusive(|byte| *byte == b'\n');
    let line = |piece| match <[u8]>::strip_suffix(piece, b"\n") {
        Some(bytes) => Line { bytes, ended: true },
        None => Line {
            bytes: piece,
            ended: false,
        },
    };
    pieces.map(line).collect()
}

/// The value of group 90, and its line.
struct Count<'a> {
    value: &'a [u8],
    line: usize,
}

/// The groups that may come next, by what came last.
const START: &[&str] = &["90"];
const COUNTED: &[&str] = &["70"];
const VERTEX_NEXT: &[&str] = &["10"];
const HALF: &[&str] = &["20"];
const PLACED: &[&str] = &["42", "10"];

/// Goes through the text lines by pairs, and stops at the first that is wrong. Lines count from 1.
fn groups<'a>(lines: &[Line<'a>]) -> Result<(Body, Count<'a>), Fault> {
    let wrong = |number: u64, line: usize| Fault::new(number, Item::Line, line);
    let mut body = Body::default();
    let mut count = None;
    let mut next = START;
    for (pair, of) in lines.chunks(2).enumerate() {
        let (first, second) = (2 * pair + 1, 2 * pair + 2);
        let code = whole(&of[0]).ok_or(wrong(20, first))?;
        let code = std::str::from_utf8(code).expect("digits");
        let known = ["90", "70", "10", "20", "42"].contains(&code);
        if known && !next.contains(&code) {
            return Err(wrong(21, first));
        }
        let value = of.get(1).ok_or(wrong(21, second))?;
        if !known {
            if !value.ended {
                return Err(wrong(21, second));
            }
            continue;
        }
        let bad = wrong(20, second);
        next = match code {
            "90" => {
                let value = whole(value).ok_or(bad)?;
                count = Some(Count {
                    value,
                    line: second,
                });
                COUNTED
            }
            "70" => {
                let flags = whole(value).ok_or(bad)?;
                body.closed = flags.last().is_some_and(|digit| digit % 2 == 1);
                VERTEX_NEXT
            }
            "10" => {
                body.vertices.push([number_of(value).ok_or(bad)?, 0.0, 0.0]);
                HALF
            }
            _ => {
                let number = number_of(value).ok_or(bad)?;
                let vertex = body.vertices.last_mut().expect("10 came before");
                let bulge = code == "42";
                vertex[if bulge { 2 } else { 1 }] = number;
                if bulge {
                    VERTEX_NEXT
                } else {
                    PLACED
                }
            }
        };
    }
    match count {
        Some(count) if next == VERTEX_NEXT || next == PLACED => Ok((body, count)),
        _ => Err(wrong(21, lines.len() + 1)),
    }
}

fn without_blanks(bytes: &[u8]) -> &[u8] {
    let blanks = bytes.iter().take_while(|byte| **byte == b' ').count();
    &bytes[blanks..]
}

/// The digits without zeros in front, but for one if there is no other.
fn trimmed(digits: &[u8]) -> &[u8] {
    let zeros = digits.iter().take_while(|byte| **byte == b'0').count();
    &digits[zeros.min(digits.len() - 1)..]
}

/// The digits of a whole number, without zeros in front.
fn whole<'a>(line: &Line<'a>) -> Option<&'a [u8]> {
    let digits = without_blanks(line.bytes);
    let is = line.ended && !digits.is_empty() && digits.iter().all(u8::is_ascii_digit);
    is.then(|| trimmed(digits))
}

fn number_of(line: &Line) -> Option<f64> {
    line.ended.then(|| number(line.bytes)).flatten()
}

/// What a text line without its newline says, if it is a number. None is infinite, however many digits it has.
pub fn number(line: &[u8]) -> Option<f64> {
    let signed = without_blanks(line);
    let digits = signed.strip_prefix(b"-").unwrap_or(signed);
    let mut parts = digits.splitn(2, |byte| *byte == b'.');
    let are_digits = |part: &&[u8]| !part.is_empty() && part.iter().all(u8::is_ascii_digit);
    let whole = parts.next().filter(are_digits)?;
    let fraction = match parts.next() {
        Some(part) => Some(part).filter(are_digits)?,
        None => b"",
    };
    let is_zero = [whole, fraction]
        .concat()
        .iter()
        .all(|digit| *digit == b'0');
    if fraction.len() > DIGITS || is_zero && signed.len() > digits.len() {
        return None;
    }
    let words = std::str::from_utf8(signed).expect("a minus, digits and a point");
    let number: f64 = words.parse().expect("a decimal number");
    Some(number.clamp(f64::MIN, f64::MAX))
}

// ---- what both check

/// More vertices than may be, numbers, then arcs.
fn check(path: &[f64], closed: bool, mode: Mode) -> Result<(), Fault> {
    if path.len() > VERTEX * MOST_VERTICES {
        return Err(Fault::new(7, Item::Length, 0));
    }
    for (index, vertex) in path.chunks(VERTEX).enumerate() {
        for (item, number) in ITEMS.into_iter().zip(vertex) {
            if let Some(refusal) = refusal(item, *number, mode) {
                return Err(Fault::new(refusal, item, index));
            }
        }
    }
    for (from, segment) in segments(path, closed).into_iter().enumerate() {
        let cut = cut_point(segment);
        for (item, at) in cut
            .into_iter()
            .flat_map(|[x, y]| [(Item::CutX, x), (Item::CutY, y)])
        {
            if at.abs() > COORDINATE {
                return Err(Fault::new(2, item, from));
            }
        }
        if short(segment).contains(&true) {
            return Err(Fault::new(5, Item::Chord, from));
        }
    }
    Ok(())
}

/// A segment: x, y and bulge of its first vertex, x and y of its second.
pub type Segment = [f64; 5];

pub fn segments(path: &[f64], closed: bool) -> Vec<Segment> {
    let vertices: Vec<&[f64]> = path.chunks_exact(VERTEX).collect();
    let n = vertices.len();
    let many = match n {
        0 | 1 => 0,
        _ if closed => n,
        _ => n - 1,
    };
    let segment = |from: usize| {
        let (v, u) = (vertices[from], vertices[(from + 1) % n]);
        [v[0], v[1], v[2], u[0], u[1]]
    };
    (0..many).map(segment).collect()
}

/// Where an arc is cut, if it is: one whose bulge is above 1 in magnitude.
pub fn cut_point([x1, y1, b, x2, y2]: Segment) -> Option<[f64; 2]> {
    let x = (x1 + x2) / 2.0 + (b * (y2 - y1)) / 2.0;
    let y = (y1 + y2) / 2.0 - (b * (x2 - x1)) / 2.0;
    (b.abs() > 1.0).then_some([x, y])
}

/// Whether the chord of an arc is too short, or that of each half if it is cut. A line has none.
pub fn short(segment: Segment) -> [bool; 2] {
    let [x1, y1, b, x2, y2] = segment;
    let near = |x1: f64, y1: f64, x2: f64, y2: f64| {
        let (x, y) = (x2 - x1, y2 - y1);
        (x * x + y * y).sqrt() < SHORTEST
    };
    match cut_point(segment) {
        Some([x, y]) => [near(x1, y1, x, y), near(x, y, x2, y2)],
        None => [b.abs() >= 1e-8 && near(x1, y1, x2, y2), false],
    }
}

/// 2^-40.
pub const SHORTEST: f64 = 1.0 / (1_u64 << 40) as f64;
/// The numbers of a vertex, in the order of their checks.
pub const ITEMS: [Item; VERTEX] = [Item::X, Item::Y, Item::Bulge, Item::Trace];

fn refusal(item: Item, number: f64, mode: Mode) -> Option<u64> {
    let beyond = |refusal: u64, is: bool| is.then_some(refusal);
    match item {
        _ if number.is_nan() => Some(11),
        _ if number.is_infinite() => Some(12),
        Item::X | Item::Y => beyond(2, number.abs() > COORDINATE),
        Item::Bulge => beyond(3, number.abs() > mode.bulge()),
        _ => beyond(15, !(0..=255).any(|trace| f64::from(trace) == number)),
    }
}

// ---- export

/// The text of a path, or its first fault but for the room.
pub fn export(path: &[f64], closed: bool, mode: Mode) -> Result<Vec<u8>, Fault> {
    if path.len() % VERTEX != 0 {
        return Err(Fault::new(6, Item::Length, 0));
    }
    check(path, closed, mode)?;
    let vertices = path.len() / VERTEX;
    let mut text = format!("90\n{vertices}\n70\n{}\n", u8::from(closed));
    for (index, vertex) in path.chunks(VERTEX).enumerate() {
        for (at, code) in ["10", "20", "42"].into_iter().enumerate() {
            let spelt = spelt(vertex[at]).ok_or(Fault::new(23, ITEMS[at], index))?;
            text += &format!("{code}\n{spelt}\n");
        }
    }
    Ok(text.into_bytes())
}

/// The decimal nearest to a number, if it is read back as that number, bit for bit.
pub fn spelt(number: f64) -> Option<String> {
    let spelt = format!("{number:.DIGITS$}");
    let back = self::number(spelt.as_bytes())?;
    (back.to_bits() == number.to_bits()).then_some(spelt)
}
