//! Refusals in words: the number, the place and the reason.

const REFUSED: u64 = 0x100;
const CHORD: u64 = 7;
const LENGTH: u64 = 8;
const LINE: u64 = 15;
const ITEMS: [&str; 19] = [
    "epsilon", "x", "y", "bulge", "radius", "centre x", "centre y", "chord", "length", "rows",
    "position", "budget", "boxes", "trace", "report", "line", "room", "cut x", "cut y",
];

/// Why a number is refused.
pub fn reason(number: u64) -> &'static str {
    match number {
        2 => "above 1,048,576 in magnitude",
        3 => "above 1 in magnitude",
        4 => "NaN, infinite, or not in 2^-40 to 1/2",
        5 => "shorter than 2^-40, of an arc",
        6 => "no multiple of 4",
        7 => "more than 4,096 vertices",
        8 => "more than there is room for",
        10 => "the text breaks its form",
        11 => "NaN",
        12 => "infinite",
        15 => "no whole number from 0 to 255",
        18 => "the packed file breaks its form",
        20 => "a bad code or number",
        21 => "a group out of place or missing",
        22 => "not as many vertices as it says",
        24 => "more than there is room for",
        _ => "no reason that a listing has",
    }
}

/// A word's number, place and reason; of so many paths.
pub fn refusal(word: u64, paths: usize) -> String {
    let (number, item) = (word & 0xff, word >> 16 & 0xff);
    let (owner, index) = (word >> 24 & 0xff, word >> 32);
    let whose = match (paths, owner) {
        (1, _) => "",
        (_, 0) => "first path, ",
        _ => "second path, ",
    };
    let name = ITEMS.get(item as usize).copied().unwrap_or("no item");
    let place = match item {
        1..=3 | 13 => format!("{whose}vertex {index}, {name}"),
        CHORD => format!("{whose}segment {index}, {name}"),
        LENGTH => format!("{whose}{name}"),
        LINE => format!("{name} {index}"),
        _ => name.to_string(),
    };
    format!("{number}: {place}: {}", reason(number))
}

/// What a call returned, refused or not.
pub fn answer(word: u64, paths: usize) -> String {
    match word & 0xff00 {
        REFUSED => format!("refused {}", refusal(word, paths)),
        _ if word == 0 => "not refused".to_string(),
        _ => format!("the word {word:#x}"),
    }
}
