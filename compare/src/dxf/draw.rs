//! Random bodies as pairs of text lines, and random paths. Most bodies are of the form, and most numbers within their limits.

use super::model::{self, Mode, COORDINATE, DIGITS};
use crate::classes::{magnitude, CLASSES, SIGN};
use crate::rng::Rng;
use crate::vertex::VERTEX;

/// A number is so many of these.
pub const MILLION: i64 = 1_000_000;
pub const MOST_COORDINATE: i64 = COORDINATE as i64 * MILLION;

/// A code and its value, as they are spelt.
#[derive(Clone, Debug)]
pub struct Pair {
    pub code: Vec<u8>,
    pub value: Vec<u8>,
}

/// A body in pairs.
#[derive(Clone, Debug, Default)]
pub struct Parts(pub Vec<Pair>);

impl Parts {
    pub fn push(&mut self, code: impl AsRef<[u8]>, value: impl AsRef<[u8]>) {
        self.0.push(Pair {
            code: code.as_ref().to_vec(),
            value: value.as_ref().to_vec(),
        });
    }

    pub fn lines(&self) -> Vec<Vec<u8>> {
        let pairs = self.0.iter();
        pairs
            .flat_map(|pair| [pair.code.clone(), pair.value.clone()])
            .collect()
    }

    pub fn text(&self) -> Vec<u8> {
        joined(&self.lines())
    }

    /// The places of the pairs with this code, however it is spelt.
    pub fn of(&self, code: &str) -> Vec<usize> {
        let is = |pair: &Pair| digits(&pair.code) == code;
        let pairs = self.0.iter().enumerate();
        pairs
            .filter(|(_, pair)| is(pair))
            .map(|(at, _)| at)
            .collect()
    }
}

fn digits(code: &[u8]) -> &str {
    let code = std::str::from_utf8(code).unwrap_or("");
    code.trim_start_matches(' ').trim_start_matches('0')
}

/// Text lines, each with its newline.
pub fn joined(lines: &[Vec<u8>]) -> Vec<u8> {
    let mut text = Vec::new();
    for line in lines {
        text.extend_from_slice(line);
        text.push(b'\n');
    }
    text
}

/// A vertex in millionths, and whether its bulge is spelt.
#[derive(Clone, Copy, Debug)]
pub struct Vertex {
    pub numbers: [i64; 3],
    pub bulge: bool,
}

/// How a body is spelt.
#[derive(Clone, Copy, Debug, PartialEq)]
pub enum Spelling {
    /// As an export has it.
    Plain,
    /// Blanks, leading zeros, fewer digits, and other groups.
    Loose,
}

/// A body of these vertices.
pub fn body(vertices: &[Vertex], closed: bool, spelling: Spelling, rng: &mut Rng) -> Parts {
    let mut parts = Parts::default();
    let loose = spelling == Spelling::Loose;
    let mut put = |code: u32, value: String, rng: &mut Rng| {
        if loose {
            while rng.one_in(6) {
                let (code, value) = skipped(rng);
                parts.push(code, value);
            }
        }
        let code = code.to_string();
        let code = if loose { eased(&code, rng) } else { code };
        parts.push(code, value);
    };
    let count = vertices.len().to_string();
    let count = if loose { eased(&count, rng) } else { count };
    put(90, count, rng);
    let flags = match (loose, closed) {
        (false, _) => u8::from(closed).to_string(),
        (true, closed) => eased(&flags(closed, rng), rng),
    };
    put(70, flags, rng);
    for vertex in vertices {
        for (at, code) in [10, 20, 42].into_iter().enumerate() {
            if at < 2 || vertex.bulge || !loose {
                let m = vertex.numbers[at];
                let number = if loose { number(m, rng) } else { plain(m) };
                put(code, number, rng);
            }
        }
    }
    if loose {
        while rng.one_in(4) {
            let (code, value) = skipped(rng);
            parts.push(code, value);
        }
    }
    parts
}

/// Any flags with this last bit: the other bits mean other things.
fn flags(closed: bool, rng: &mut Rng) -> String {
    let odd = u64::from(closed);
    match rng.below(8) {
        0 => (rng.below(1 << 7) * 2 + odd).to_string(),
        1 => (128 + odd).to_string(),
        2 => (2 + odd).to_string(),
        3 => format!("{}{}", digits_of(30, rng), 2 * rng.below(5) + odd),
        _ => odd.to_string(),
    }
}

pub fn digits_of(many: usize, rng: &mut Rng) -> String {
    let digit = |_| char::from(b'0' + rng.below(10) as u8);
    (0..many).map(digit).collect()
}

/// Blanks and zeros in front, mostly none.
fn eased(digits: &str, rng: &mut Rng) -> String {
    let blanks = rng.pick(&[0, 0, 0, 1, 1, 2, 3, 40]);
    let zeros = rng.pick(&[0, 0, 0, 0, 0, 1, 2, 40]);
    format!("{}{}{digits}", " ".repeat(blanks), "0".repeat(zeros))
}

/// Six digits, no blanks.
pub fn plain(m: i64) -> String {
    let minus = if m < 0 { "-" } else { "" };
    let m = m.unsigned_abs();
    format!("{minus}{}.{:06}", m / 1_000_000, m % 1_000_000)
}

/// A number of so many millionths, in one of its spellings.
pub fn number(m: i64, rng: &mut Rng) -> String {
    let spelt = plain(m);
    let (sign, digits) = match spelt.strip_prefix('-') {
        Some(digits) => ("-", digits),
        None => ("", spelt.as_str()),
    };
    let shortest = digits.trim_end_matches('0').trim_end_matches('.');
    let digits = match rng.below(3) {
        0 => digits.to_string(),
        1 => shortest.to_string(),
        _ => {
            // some zeros more than it needs, up to six digits
            let point = shortest.find('.');
            let has = point.map_or(0, |at| shortest.len() - at - 1);
            let more = rng.below((DIGITS - has) as u64 + 1) as usize;
            let point = if has == 0 && more > 0 { "." } else { "" };
            format!("{shortest}{point}{}", "0".repeat(more))
        }
    };
    let blanks = rng.pick(&[0, 0, 0, 0, 1, 2, 3, 40]);
    let zeros = rng.pick(&[0, 0, 0, 0, 0, 1, 2, 40]);
    format!("{}{sign}{}{digits}", " ".repeat(blanks), "0".repeat(zeros))
}

/// Another group: a code that is none of the five, and any value.
pub fn skipped(rng: &mut Rng) -> (String, Vec<u8>) {
    let code = match rng.below(8) {
        0 => rng.pick(&[
            0, 1, 2, 4, 7, 9, 11, 12, 19, 21, 22, 30, 41, 43, 69, 71, 89, 91,
        ]),
        1 => rng.pick(&[
            100, 110, 120, 142, 170, 190, 1010, 1020, 1042, 1070, 1090, 9010,
        ]),
        // the five, if a number wraps round
        2 => {
            let round = rng.pick(&[1_u64 << 8, 1 << 16, 1 << 32]);
            round + rng.pick(&[10, 20, 42, 70, 90])
        }
        3 => rng.below(1 << 40) * 100 + 5,
        _ => rng.pick(&[
            0, 5, 6, 8, 38, 39, 40, 41, 43, 60, 62, 91, 100, 210, 330, 370,
        ]),
    };
    let code = match rng.below(24) {
        0 => format!("1{}", digits_of(30, rng)),
        1 => {
            let wraps = (1_u128 << 64) + rng.pick(&[10, 20, 42, 70, 90]);
            wraps.to_string()
        }
        _ => code.to_string(),
    };
    let value = match rng.below(8) {
        0 => Vec::new(),
        1 => b"AcDbPolyline".to_vec(),
        2 => rng
            .pick(&["10", "90", " 42", "0.0", "-0", "1e5", "+3"])
            .into(),
        3 => (0..rng.below(8)).map(|_| any_but_newline(rng)).collect(),
        4 => vec![b' '; rng.below(100) as usize],
        _ => digits_of(1 + rng.below(4) as usize, rng).into_bytes(),
    };
    (eased(&code, rng), value)
}

fn any_but_newline(rng: &mut Rng) -> u8 {
    match rng.below(256) as u8 {
        b'\n' => b'\r',
        byte => byte,
    }
}

/// Of up to 39 bits.
fn of_any_size(rng: &mut Rng) -> u64 {
    let end = 1 << rng.below(40);
    rng.below(end)
}

/// A coordinate in millionths, within its limit.
pub fn coordinate(rng: &mut Rng) -> i64 {
    let m = match rng.below(8) {
        0 => 0,
        1 => rng.pick(&[MOST_COORDINATE, MOST_COORDINATE - 1]),
        2 => rng.below(MOST_COORDINATE as u64 + 1) as i64,
        3 => of_any_size(rng) as i64,
        4 => MILLION / 64 * rng.below(1000) as i64,
        _ => MILLION * rng.below(1000) as i64,
    };
    if rng.one_in(3) {
        -m
    } else {
        m
    }
}

/// The largest bulge in millionths.
pub fn most_bulge(mode: Mode) -> i64 {
    mode.bulge() as i64 * MILLION
}

/// A bulge in millionths, within its limit.
pub fn bulge(mode: Mode, rng: &mut Rng) -> i64 {
    let most = match mode {
        // about 1, where arcs begin to be cut
        Mode::Large if rng.one_in(8) => MILLION + rng.below(3) as i64 - 1,
        Mode::Large if rng.one_in(3) => MILLION,
        _ => most_bulge(mode),
    };
    let m = match rng.below(6) {
        0 | 1 => 0,
        2 => rng.pick(&[most, most - 1, 1]),
        3 => most / 64 * rng.below(65) as i64,
        _ => rng.below(most as u64 + 1) as i64,
    };
    if rng.one_in(2) {
        -m
    } else {
        m
    }
}

/// So many vertices within the limits. No two that follow each other are at one place.
pub fn vertices(count: usize, mode: Mode, rng: &mut Rng) -> Vec<Vertex> {
    let mut all: Vec<Vertex> = Vec::new();
    while all.len() < count {
        let vertex = Vertex {
            numbers: [coordinate(rng), coordinate(rng), bulge(mode, rng)],
            bulge: rng.below(3) > 0,
        };
        let is_at = |other: &Vertex| other.numbers[..2] == vertex.numbers[..2];
        let last = all.last().is_some_and(is_at);
        let round = all.len() + 1 == count && all.first().is_some_and(is_at);
        if !last && !round {
            all.push(vertex);
        }
    }
    if mode == Mode::Large {
        flatten(&mut all);
    }
    all
}

/// No arc is cut beyond the limits: one that would be is no large one.
fn flatten(all: &mut [Vertex]) {
    for from in 0..all.len() {
        let [v, u] =
            [from, (from + 1) % all.len()].map(|at| all[at].numbers.map(|m| m as f64 / 1e6));
        let cut = model::cut_point([v[0], v[1], v[2], u[0], u[1]]);
        if cut.is_some_and(|at| at.iter().any(|x| x.abs() > COORDINATE)) {
            all[from].numbers[2] %= MILLION;
        }
    }
}

/// Mostly few.
pub fn how_many(rng: &mut Rng) -> usize {
    match rng.below(64) {
        0 => 10 + rng.below(60) as usize,
        1..=8 => rng.below(12) as usize,
        _ => rng.below(5) as usize,
    }
}

/// A body of the form, within all limits.
pub fn good(mode: Mode, rng: &mut Rng) -> Parts {
    let vertices = vertices(how_many(rng), mode, rng);
    let spelling = rng.pick(&[Spelling::Loose, Spelling::Loose, Spelling::Plain]);
    body(&vertices, rng.one_in(2), spelling, rng)
}

/// The same, with a few vertices: each line of it matters to a damage.
pub fn small(mode: Mode, rng: &mut Rng) -> Parts {
    let vertices = vertices(1 + rng.below(3) as usize, mode, rng);
    body(&vertices, rng.one_in(2), Spelling::Loose, rng)
}

/// Text lines of any sort, one after the other.
pub fn soup(rng: &mut Rng) -> Vec<u8> {
    const LINES: [&str; 28] = [
        "90",
        "70",
        "10",
        "20",
        "42",
        "0",
        "8",
        " 90",
        " 70",
        " 10",
        " 20",
        " 42",
        "1",
        "2",
        "3",
        "0.5",
        "-0.5",
        "1.000000",
        "-1",
        "-0",
        "",
        "+1",
        "x",
        "1e3",
        "0.0000001",
        "10 ",
        "2.",
        "LWPOLYLINE",
    ];
    let front: &[&str] = rng.pick(&[
        &[],
        &["90", "1"],
        &["90", "1", "70", "0"],
        &["90", "1", "70", "1", "10", "5", "20", "6"],
        &["90", "2", "70", "1", "10", "5", "20", "6", "42", "0.5"],
    ]);
    let mut lines: Vec<Vec<u8>> = front.iter().map(|line| line.as_bytes().to_vec()).collect();
    for _ in 0..rng.below(8) {
        // a likely pair, or any line
        match rng.below(4) {
            0 => lines.push(rng.pick(&LINES).into()),
            1 => {
                let (code, value) = skipped(rng);
                lines.extend([code.into_bytes(), value]);
            }
            _ => {
                let code = rng.pick(&["90", "70", "10", "10", "10", "20", "20", "20", "42", "42"]);
                let value = rng.pick(&["0", "1", "2", "0.25", "-1", "7"]);
                lines.extend([code, value].map(|line| line.as_bytes().to_vec()));
            }
        }
    }
    let mut text = joined(&lines);
    if rng.one_in(8) {
        text.pop();
    }
    text
}

// ---- paths to export

/// A float that may be a number of six digits, or beside one, or nothing like it.
pub fn float(limit: f64, rng: &mut Rng) -> f64 {
    let m = |rng: &mut Rng| {
        let most = (limit * 1e6) as u64;
        let m = match rng.below(4) {
            0 => most - rng.below(3),
            1 => of_any_size(rng) % (most + 1),
            _ => rng.below(most + 1),
        };
        m as f64 / 1e6
    };
    let x = match rng.below(16) {
        0 => m(rng).next_up(),
        1 => m(rng).next_down(),
        2 => rng.below(65_537) as f64 / 65_536.0,
        3 => rng.below(129) as f64 / 64.0,
        4 => rng.below(200) as f64,
        5 => f64::from_bits(magnitude(rng.pick(&CLASSES), rng)),
        6 => rng.pick(&[
            0.0,
            0.0,
            -0.0,
            limit,
            limit.next_up(),
            limit + 1e-6,
            f64::INFINITY,
            f64::NAN,
        ]),
        // halves of a millionth
        7 => (rng.below(1 << 30) as f64 + 0.5) / 1e6,
        8 => rng.below(1 << 53) as f64 / (1_u64 << 53) as f64,
        _ => m(rng),
    };
    if rng.one_in(3) {
        f64::from_bits(x.to_bits() ^ SIGN)
    } else {
        x
    }
}

/// A path whose numbers are all of six digits, with any traces.
pub fn path(count: usize, mode: Mode, rng: &mut Rng) -> Vec<f64> {
    let mut numbers = Vec::new();
    for vertex in vertices(count, mode, rng) {
        numbers.extend(vertex.numbers.map(|m| m as f64 / 1e6));
        numbers.push(match rng.below(4) {
            0 => rng.below(256) as f64,
            1 => -0.0,
            _ => 0.0,
        });
    }
    numbers
}

/// The same, with some numbers of any sort.
pub fn any_path(mode: Mode, rng: &mut Rng) -> Vec<f64> {
    let mut numbers = path(how_many(rng), mode, rng);
    let count = numbers.len();
    if count == 0 {
        return (0..rng.below(6))
            .map(|_| float(mode.bulge(), rng))
            .collect();
    }
    for _ in 0..rng.pick(&[0, 0, 1, 1, 1, 2, 2, 5]) {
        let at = rng.below(count as u64) as usize;
        numbers[at] = match at % VERTEX {
            0 | 1 => float(COORDINATE, rng),
            2 => float(mode.bulge(), rng),
            _ => trace(rng),
        };
    }
    // a vertex at the place of the one before it: an arc between them has no chord
    if rng.one_in(16) && count >= 2 * VERTEX {
        let at = VERTEX * (1 + rng.below((count / VERTEX) as u64 - 1) as usize);
        numbers[at] = numbers[at - VERTEX];
        numbers[at + 1] = numbers[at - VERTEX + 1];
    }
    if rng.one_in(32) {
        numbers.truncate(count - 1 - rng.below(3) as usize);
    }
    numbers
}

fn trace(rng: &mut Rng) -> f64 {
    match rng.below(3) {
        0 => rng.below(256) as f64,
        1 => rng.pick(&[
            256.0,
            255.5,
            -1.0,
            0.5,
            f64::NAN,
            f64::INFINITY,
            f64::NEG_INFINITY,
            1e300,
        ]),
        _ => float(255.0, rng),
    }
}
