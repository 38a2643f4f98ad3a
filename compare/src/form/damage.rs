//! Damaged texts, each damaged in one way. Some still have the right form: the model says which.

use std::ops::Range;

use super::{BULGE, COORDINATE, MOST_VERTICES};
use crate::rng::Rng;

pub struct Damage {
    pub name: &'static str,
    pub make: fn(&[u8], &mut Rng) -> Vec<u8>,
}

const fn damage(name: &'static str, make: fn(&[u8], &mut Rng) -> Vec<u8>) -> Damage {
    Damage { name, make }
}

pub const DAMAGES: [Damage; 35] = [
    damage("a byte changed", |text, rng| {
        at_byte(text, rng, |_, rng| vec![any_byte(rng)])
    }),
    damage("a byte removed", |text, rng| {
        at_byte(text, rng, |_, _| vec![])
    }),
    damage("a byte doubled", |text, rng| {
        at_byte(text, rng, |b, _| vec![b, b])
    }),
    damage("two bytes swapped", |text, rng| {
        let at = place(text.len() - 1, rng);
        swapped(text, at)
    }),
    damage("a byte put in", |text, rng| {
        at_byte(text, rng, |b, rng| vec![any_byte(rng), b])
    }),
    damage("only a front part", |text, rng| {
        text[..place(text.len(), rng)].to_vec()
    }),
    damage("no last newline", |text, _| text[..text.len() - 1].to_vec()),
    damage("something after", |text, rng| {
        let after: &[u8] = rng.pick(&[
            b"\n".as_slice(),
            b" ",
            b"0",
            b"-",
            b"\0",
            b"\r",
            b"\r\n",
            b"0 0 0",
            b"0 0 0\n",
            b"\x1a",
            b"0 0\n",
        ]);
        [text, after].concat()
    }),
    damage("something before", |text, rng| {
        let before: &[u8] = rng.pick(&[
            b"\n".as_slice(),
            b" ",
            b"0",
            b"\xef\xbb\xbf",
            b"\0",
            b"0 0\n",
        ]);
        [before, text].concat()
    }),
    damage("a leading zero", |text, rng| {
        with_sign(text, rng, |digits, rng| {
            [rng.pick(&["0", "0", "00", "0000000000"]), digits].concat()
        })
    }),
    damage("a plus", |text, rng| {
        at_word(text, rng, |word, _| format!("+{word}"))
    }),
    damage("a minus zero", |text, rng| {
        at_word(text, rng, |_, rng| {
            rng.pick(&["-0", "-0", "-00"]).to_string()
        })
    }),
    damage("a lone minus", |text, rng| {
        at_word(text, rng, |_, _| "-".to_string())
    }),
    damage("a minus more", |text, rng| {
        at_word(text, rng, |word, _| format!("-{word}"))
    }),
    damage("a minus behind", |text, rng| {
        at_word(text, rng, |word, _| format!("{word}-"))
    }),
    damage("a minus before a count", |text, rng| {
        at_count(text, rng, |n, _| format!("-{n}"))
    }),
    damage("no whole number", |text, rng| {
        at_word(text, rng, |word, rng| {
            let tail = rng.pick(&[".", ".0", ".5", "e0", "e", ",", "_", "'", "f", "u", "/1"]);
            format!("{word}{tail}")
        })
    }),
    damage("no decimal digits", |text, rng| {
        at_word(text, rng, |_, rng| {
            rng.pick(&[
                "0x1",
                "a",
                "A",
                "NaN",
                "inf",
                "0b1",
                "l",
                "O",
                "\u{661}",
                "\u{ff11}",
                "\u{2212}1",
                ":",
                "/",
            ])
            .to_string()
        })
    }),
    damage("a carriage return", |text, rng| {
        let all = rng.one_in(2);
        each_of(text, b'\n', all, b"\r\n", rng)
    }),
    damage("a tab for a space", |text, rng| {
        let all = rng.one_in(2);
        each_of(text, b' ', all, b"\t", rng)
    }),
    damage("two spaces", |text, rng| {
        let all = rng.one_in(4);
        each_of(text, b' ', all, b"  ", rng)
    }),
    damage("a space at a line's end", |text, rng| {
        each_of(text, b'\n', false, b" \n", rng)
    }),
    damage("a space at a line's beginning", |text, rng| {
        each_of(text, b'\n', false, b"\n ", rng)
    }),
    damage("an empty line", |text, rng| {
        each_of(text, b'\n', false, b"\n\n", rng)
    }),
    damage("two lines joined", |text, rng| {
        each_of(text, b'\n', false, b" ", rng)
    }),
    damage("a line split", |text, rng| {
        each_of(text, b' ', false, b"\n", rng)
    }),
    damage("a number missing", |text, rng| {
        let mut text = text.to_vec();
        let words = words(&text);
        let Range { start, end } = words[place(words.len(), rng)].clone();
        // with the byte behind it, or without
        text.drain(start..end + rng.below(2) as usize);
        text
    }),
    damage("a number more", |text, rng| {
        at_word(text, rng, |word, rng| {
            format!("{word} {}", rng.pick(&["0", "7", "-1"]))
        })
    }),
    damage("counts that do not match", |text, rng| {
        at_count(text, rng, |n, rng| {
            let other = rng.pick(&[n + 1, n + 1, n - 1, n - 1, n + 2, 0, 256, 2 * n + 1]);
            other.max(0).to_string()
        })
    }),
    damage("257 vertices", |_, rng| {
        let many = MOST_VERTICES as usize + 1;
        let few = rng.below(4) as usize;
        let [n, m] = rng.pick(&[[many, few], [few, many], [many, many]]);
        format!("{n} {m}\n{}", "1 2 0\n".repeat(n + m)).into_bytes()
    }),
    damage("one beyond a limit", |text, rng| {
        beyond(text, rng, |limit, _| limit + 1)
    }),
    damage("more beyond a limit", |text, rng| {
        beyond(text, rng, |limit, rng| {
            limit + 1 + rng.below(9 * limit as u64) as i64
        })
    }),
    damage("a number that wraps round", |text, rng| {
        with_sign(text, rng, |digits, rng| {
            let n: u128 = digits.parse().expect("digits");
            let round = rng.pick(&[8, 16, 31, 32, 53, 63, 64, 64, 64, 65]);
            let mut times = 1 + u128::from(rng.below(4));
            // beyond every limit
            while times << round <= COORDINATE as u128 {
                times *= 2;
            }
            (n + (times << round)).to_string()
        })
    }),
    damage("a number of many digits", |text, rng| {
        with_sign(text, rng, |digits, rng| {
            let many = rng.pick(&[8, 19, 20, 21, 40, 400]);
            [digits.trim_start_matches('0'), &"1000".repeat(many / 4 + 1)].concat()
        })
    }),
    damage("any bytes", |_, rng| {
        let size = rng.pick(&[0, 1, 2, 3, 4, 5, 6, 50, 2000]);
        let of_form = rng.one_in(2);
        let mut next = || {
            if of_form {
                rng.pick(FORM)
            } else {
                rng.below(256) as u8
            }
        };
        (0..size).map(|_| next()).collect()
    }),
];

/// The bytes of a text that is of the right form.
pub const FORM: &[u8] = b"0123456789- \n";

/// Other bytes that a reader may mistake for one of them.
pub const OTHERS: &[u8] = &[
    0, b'\t', 0x0b, 0x0c, b'\r', b'+', b',', b'.', b'/', b':', b'_', b'a', b'o', b'O', b'l', b'p',
    0x7f, 0x80, 0x85, 0x8a, 0xa0, 0xad, 0xb0, 0xb9, 0xff,
];

/// The text, followed by as much of the filler as makes this many bytes.
pub fn lengthened(text: &[u8], bytes: usize, filler: &[u8]) -> Vec<u8> {
    let more = bytes.saturating_sub(text.len());
    let filler = filler.iter().cycle().take(more);
    text.iter().chain(filler).copied().collect()
}

/// Two neighbouring bytes swapped; the first is not the last byte of the text.
pub fn swapped(text: &[u8], at: usize) -> Vec<u8> {
    let mut text = text.to_vec();
    text.swap(at, at + 1);
    text
}

/// The text with these bytes in the place of some.
pub fn replaced(text: &[u8], range: Range<usize>, by: &[u8]) -> Vec<u8> {
    [&text[..range.start], by, &text[range.end..]].concat()
}

/// An index below `end`, which is above 0.
fn place(end: usize, rng: &mut Rng) -> usize {
    rng.below(end as u64) as usize
}

fn any_byte(rng: &mut Rng) -> u8 {
    match rng.below(4) {
        0 => rng.below(256) as u8,
        1 => rng.pick(OTHERS),
        _ => rng.pick(FORM),
    }
}

fn at_byte(text: &[u8], rng: &mut Rng, by: fn(u8, &mut Rng) -> Vec<u8>) -> Vec<u8> {
    let at = place(text.len(), rng);
    replaced(text, at..at + 1, &by(text[at], rng))
}

/// Where the numbers are.
fn words(text: &[u8]) -> Vec<Range<usize>> {
    let mut words = Vec::new();
    let mut start = 0;
    for (end, byte) in text.iter().enumerate() {
        if matches!(byte, b' ' | b'\n') {
            words.push(start..end);
            start = end + 1;
        }
    }
    words
}

fn at_word(text: &[u8], rng: &mut Rng, by: impl Fn(&str, &mut Rng) -> String) -> Vec<u8> {
    let words = words(text);
    let word = words[place(words.len(), rng)].clone();
    change(text, word, rng, by)
}

/// A number's digits changed, with its minus left before them.
fn with_sign(text: &[u8], rng: &mut Rng, by: fn(&str, &mut Rng) -> String) -> Vec<u8> {
    at_word(text, rng, |word, rng| match word.strip_prefix('-') {
        Some(digits) => format!("-{}", by(digits, rng)),
        None => by(word, rng),
    })
}

fn at_count(text: &[u8], rng: &mut Rng, by: fn(i64, &mut Rng) -> String) -> Vec<u8> {
    let at = place(2, rng);
    let n = counts(text)[at];
    change(text, words(text)[at].clone(), rng, |_, rng| by(n, rng))
}

fn change(
    text: &[u8],
    word: Range<usize>,
    rng: &mut Rng,
    by: impl Fn(&str, &mut Rng) -> String,
) -> Vec<u8> {
    let other = by(&ascii(&text[word.clone()]), rng);
    replaced(text, word, other.as_bytes())
}

fn ascii(word: &[u8]) -> String {
    word.iter().map(|byte| char::from(*byte)).collect()
}

fn counts(text: &[u8]) -> [i64; 2] {
    let words = words(text);
    [0, 1].map(|at| ascii(&text[words[at].clone()]).parse().expect("a count"))
}

/// One of these bytes, or all of them, replaced.
fn each_of(text: &[u8], byte: u8, all: bool, by: &[u8], rng: &mut Rng) -> Vec<u8> {
    let places: Vec<usize> = (0..text.len()).filter(|at| text[*at] == byte).collect();
    let one = places[place(places.len(), rng)];
    let mut changed = Vec::new();
    for (at, old) in text.iter().enumerate() {
        if *old == byte && (all || at == one) {
            changed.extend(by);
        } else {
            changed.push(*old);
        }
    }
    changed
}

/// A number of a vertex, or a count, beyond its limit.
fn beyond(text: &[u8], rng: &mut Rng, by: fn(i64, &mut Rng) -> i64) -> Vec<u8> {
    let words = words(text);
    let at = place(words.len(), rng);
    let (limit, least) = match at {
        0 | 1 => (MOST_VERTICES, false),
        _ if (at - 2) % 3 == 2 => (BULGE, true),
        _ => (COORDINATE, true),
    };
    let number = by(limit, rng);
    let negative = least && rng.one_in(2);
    let number = if negative { -number } else { number };
    replaced(text, words[at].clone(), number.to_string().as_bytes())
}
