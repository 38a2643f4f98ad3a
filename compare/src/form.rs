//! The text form of a layout as in the scope's prose: the text of each layout, and which texts are of the form.

pub mod damage;

pub const MOST_BYTES: usize = 16_384;
pub const MOST_VERTICES: i64 = 256;
pub const COORDINATE: i64 = 1_048_576;
/// In 65,536ths.
pub const BULGE: i64 = 65_536;

/// x, y, and the bulge in 65,536ths.
pub type Place = [i64; 3];

/// A layout in whole numbers.
#[derive(Clone, Debug, Default, PartialEq)]
pub struct Sheet {
    pub paths: [Vec<Place>; 2],
}

impl Sheet {
    pub fn new(first: Vec<Place>, second: Vec<Place>) -> Sheet {
        Sheet {
            paths: [first, second],
        }
    }

    pub fn text(&self) -> Vec<u8> {
        let [first, second] = &self.paths;
        let lines = first.iter().chain(second);
        let lines: String = lines.map(|[x, y, b]| format!("{x} {y} {b}\n")).collect();
        format!("{} {}\n{lines}", first.len(), second.len()).into_bytes()
    }

    #[cfg(feature = "rust-text")]
    pub fn map(self, each: impl FnMut(Vec<Place>) -> Vec<Place>) -> Sheet {
        Sheet {
            paths: self.paths.map(each),
        }
    }
}

/// The layout of a text, or none if the text breaks its form.
pub fn sheet(text: &[u8]) -> Option<Sheet> {
    if text.len() > MOST_BYTES {
        return None;
    }
    // every line has its newline, and nothing follows the last one
    let lines = text.strip_suffix(b"\n")?;
    let mut lines = lines.split(|byte| *byte == b'\n');
    let counts = numbers::<2>(lines.next()?)?;
    if counts.iter().any(|n| !(0..=MOST_VERTICES).contains(n)) {
        return None;
    }
    let vertices: Vec<Place> = lines.map(vertex).collect::<Option<_>>()?;
    let [first, second] = counts.map(|n| n as usize);
    if vertices.len() != first + second {
        return None;
    }
    let (first, second) = vertices.split_at(first);
    Some(Sheet::new(first.to_vec(), second.to_vec()))
}

fn vertex(line: &[u8]) -> Option<Place> {
    let vertex: Place = numbers(line)?;
    let [x, y, bulge] = vertex.map(i64::abs);
    (x <= COORDINATE && y <= COORDINATE && bulge <= BULGE).then_some(vertex)
}

/// This many whole numbers, with one space between.
fn numbers<const N: usize>(line: &[u8]) -> Option<[i64; N]> {
    let words = line.split(|byte| *byte == b' ');
    let numbers: Vec<i64> = words.map(number).collect::<Option<_>>()?;
    numbers.try_into().ok()
}

/// Digits, with or without a minus before them: no leading zero, and no minus zero. None if it is too long for every limit.
fn number(word: &[u8]) -> Option<i64> {
    const MOST_DIGITS: usize = 15;
    let (digits, sign) = match word.strip_prefix(b"-") {
        Some(digits) => (digits, -1),
        None => (word, 1),
    };
    let zero = digits == b"0" && sign == 1;
    let begins = digits.first().is_some_and(|byte| *byte != b'0');
    let is_number = digits.iter().all(u8::is_ascii_digit) && digits.len() <= MOST_DIGITS;
    if !is_number || !(zero || begins) {
        return None;
    }
    let worth = |sum: i64, byte: &u8| 10 * sum + i64::from(byte - b'0');
    Some(sign * digits.iter().fold(0, worth))
}
