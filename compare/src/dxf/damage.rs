//! Bodies that are damaged in one way each. Some are still of the form: the model says which.

use super::draw::{self, digits_of, joined, most_bulge, plain, skipped, Parts, Spelling, Vertex};
use super::draw::{MILLION, MOST_COORDINATE};
use super::model::Mode;
use crate::form::damage::replaced;
use crate::rng::Rng;

pub struct Damage {
    pub name: &'static str,
    pub make: fn(&Parts, Mode, &mut Rng) -> Vec<u8>,
}

const fn damage(name: &'static str, make: fn(&Parts, Mode, &mut Rng) -> Vec<u8>) -> Damage {
    Damage { name, make }
}

/// Numbers that are none.
pub const BAD_NUMBERS: &[&[u8]] = &[
    b"",
    b" ",
    b"-",
    b"--1",
    b"- 1",
    b"+1",
    b"1 ",
    b"1\t",
    b"\t1",
    b"1\r",
    b"\r1",
    b"1 2",
    b"1,5",
    b".5",
    b"-.5",
    b"5.",
    b"-5.",
    b".",
    b"1..5",
    b"1.5.5",
    b"1.-5",
    b"1. 5",
    b"1.5 ",
    b"1 .5",
    b"1-",
    b"1e3",
    b"1E3",
    b"1.5e0",
    b"0x1",
    b"inf",
    b"nan",
    b"1_0",
    b"1'0",
    b"1\0",
    b"\x001",
    b"1\xb2",
    b"\xef\xbb\xbf1",
    b"\xd9\xa1",
    b"\x0b1",
    b"\x0c1",
    b"\xa01",
    b"1/2",
    b"1:",
    b"-0",
    b"-00",
    b"-0.0",
    b"-0.000000",
    b" -0.00",
    b"-000.000000",
    b"0.0000000",
    b"1.0000000",
    b"1.2345678",
    b"-0.0000001",
    b"0.0000005",
    b"1.00000000000000000000000000000",
];

/// Whole numbers that are none.
pub const BAD_WHOLES: &[&[u8]] = &[
    b"",
    b" ",
    b"-10",
    b"-1",
    b"-0",
    b"+10",
    b"+1",
    b"10 ",
    b"1 0",
    b"10\r",
    b"10\t",
    b"\t10",
    b"10.0",
    b"10.",
    b"1e1",
    b"1,0",
    b"ten",
    b"10a",
    b"a10",
    b"0x10",
    b"1\0",
    b"\xef\xbb\xbf10",
    b"/",
    b":",
    b"10/",
    b"1:0",
];

const FIVE: [&str; 5] = ["90", "70", "10", "20", "42"];

pub const DAMAGES: [Damage; 45] = [
    damage("a byte changed", |parts, _, rng| {
        at_byte(parts, rng, |_, rng| vec![any_byte(rng)])
    }),
    damage("a byte removed", |parts, _, rng| {
        at_byte(parts, rng, |_, _| vec![])
    }),
    damage("a byte doubled", |parts, _, rng| {
        at_byte(parts, rng, |byte, _| vec![byte, byte])
    }),
    damage("a byte put in", |parts, _, rng| {
        at_byte(parts, rng, |byte, rng| vec![any_byte(rng), byte])
    }),
    damage("two bytes swapped", |parts, _, rng| {
        let mut text = parts.text();
        let at = place(text.len() - 1, rng);
        text.swap(at, at + 1);
        text
    }),
    damage("a newline removed", |parts, _, rng| {
        let text = parts.text();
        let ends: Vec<usize> = (0..text.len()).filter(|at| text[*at] == b'\n').collect();
        let at = rng.pick(&ends);
        replaced(&text, at..at + 1, b"")
    }),
    damage("a newline put in", |parts, _, rng| {
        at_byte(parts, rng, |byte, _| vec![b'\n', byte])
    }),
    damage("cut", |parts, _, rng| {
        let text = parts.text();
        text[..place(text.len(), rng)].to_vec()
    }),
    damage("cut after a line", |parts, _, rng| {
        let lines = parts.lines();
        joined(&lines[..place(lines.len(), rng)])
    }),
    damage("no last newline", |parts, _, _| {
        let mut text = parts.text();
        text.pop();
        text
    }),
    damage("carriage returns", |parts, _, _| {
        let mut lines = parts.lines();
        lines.iter_mut().for_each(|line| line.push(b'\r'));
        joined(&lines)
    }),
    damage("one carriage return", |parts, _, rng| {
        at_line(parts, rng, |line, _| [line, b"\r"].concat())
    }),
    damage("a blank behind", |parts, _, rng| {
        at_line(parts, rng, |line, _| [line, b" "].concat())
    }),
    damage("a tab in front", |parts, _, rng| {
        at_line(parts, rng, |line, _| [b"\t", line].concat())
    }),
    damage("a line removed", |parts, _, rng| {
        let mut lines = parts.lines();
        lines.remove(place(lines.len(), rng));
        joined(&lines)
    }),
    damage("a line doubled", |parts, _, rng| {
        let mut lines = parts.lines();
        let at = place(lines.len(), rng);
        lines.insert(at, lines[at].clone());
        joined(&lines)
    }),
    damage("a line put in", |parts, _, rng| {
        let mut lines = parts.lines();
        let line: &[u8] = rng.pick(&[b"".as_slice(), b"0", b"10", b"42", b"1.5", b"x"]);
        lines.insert(place(lines.len() + 1, rng), line.to_vec());
        joined(&lines)
    }),
    damage("two lines swapped", |parts, _, rng| {
        let mut lines = parts.lines();
        let at = place(lines.len() - 1, rng);
        lines.swap(at, at + 1);
        joined(&lines)
    }),
    damage("a pair removed", |parts, _, rng| {
        let mut pairs = parts.clone();
        pairs.0.remove(place(parts.0.len(), rng));
        pairs.text()
    }),
    damage("one of the five removed", |parts, _, rng| {
        let mut pairs = parts.clone();
        if let Some(at) = one_of_five(parts, rng) {
            pairs.0.remove(at);
        }
        pairs.text()
    }),
    damage("a pair doubled", |parts, _, rng| {
        let mut pairs = parts.clone();
        let at = place(parts.0.len(), rng);
        pairs.0.insert(at, pairs.0[at].clone());
        pairs.text()
    }),
    damage("two pairs swapped", |parts, _, rng| {
        let mut pairs = parts.clone();
        let at = place(parts.0.len() - 1, rng);
        pairs.0.swap(at, at + 1);
        pairs.text()
    }),
    damage("any two pairs swapped", |parts, _, rng| {
        let mut pairs = parts.clone();
        let [a, b] = [0; 2].map(|_| place(parts.0.len(), rng));
        pairs.0.swap(a, b);
        pairs.text()
    }),
    damage("one of the five put in", |parts, _, rng| {
        let code = rng.pick(&FIVE);
        put_in(parts, code.as_bytes(), b"1", rng)
    }),
    damage("another group put in", |parts, _, rng| {
        let (code, value) = skipped(rng);
        put_in(parts, code.as_bytes(), &value, rng)
    }),
    damage("another group at the end, cut", |parts, _, rng| {
        let (code, value) = skipped(rng);
        let end = joined(&[code.into_bytes(), value]);
        let mut text = parts.text();
        text.extend_from_slice(&end[..1 + place(end.len() - 1, rng)]);
        text
    }),
    damage("another group in the middle, cut", |parts, _, rng| {
        let (code, _) = skipped(rng);
        let mut pairs = parts.clone();
        pairs.0.truncate(place(parts.0.len() + 1, rng));
        let mut text = pairs.text();
        text.extend_from_slice(code.as_bytes());
        text.push(b'\n');
        if rng.one_in(2) {
            text.extend_from_slice(b"cut");
        }
        text
    }),
    damage("one of the five at the end, cut", |parts, _, rng| {
        let mut pairs = parts.clone();
        pairs.0.truncate(place(parts.0.len(), rng) + 1);
        let mut text = pairs.text();
        let value = pairs.0.last().expect("a pair").value.len();
        text.truncate(text.len() - rng.pick(&[1, value + 1, value + 2]));
        text
    }),
    damage("a bad code", |parts, _, rng| {
        let mut pairs = parts.clone();
        let at = place(parts.0.len(), rng);
        pairs.0[at].code = rng.pick(BAD_WHOLES).to_vec();
        pairs.text()
    }),
    damage("a bad count or bad flags", |parts, _, rng| {
        let code = rng.pick(&["90", "70"]);
        with_value(parts, code, rng, |_, rng| rng.pick(BAD_WHOLES).to_vec())
    }),
    damage("a bad number", |parts, _, rng| {
        with_number(parts, rng, |_, rng| rng.pick(BAD_NUMBERS).to_vec())
    }),
    damage("seven digits", |parts, _, rng| {
        with_number(parts, rng, |_, rng| {
            let m = rng.below(1000) as i64 * MILLION / 8;
            format!("{}{}", plain(m), rng.below(10)).into_bytes()
        })
    }),
    damage("a minus before zero", |parts, _, rng| {
        with_number(parts, rng, |_, rng| {
            rng.pick(&["-0", "-0.0", "-00", " -0.000000"]).into()
        })
    }),
    damage("another count", |parts, _, rng| {
        with_value(parts, "90", rng, |value, rng| {
            let n: u128 = spelt(value).parse().unwrap_or(0);
            let other = match rng.below(8) {
                0 => n + 1,
                1 => n.saturating_sub(1),
                2 => 0,
                3 => n + rng.pick(&[1 << 8, 1 << 12, 1 << 16, 1 << 32, 1 << 64, 1 << 96]),
                4 => n + u128::from(rng.below(5000)),
                5 => return format!("{n}{}", digits_of(29, rng)).into_bytes(),
                6 => 4 * n,
                _ => 2 * n,
            };
            other.to_string().into_bytes()
        })
    }),
    damage("other flags", |parts, _, rng| {
        with_value(parts, "70", rng, |_, rng| {
            let many = 1 + rng.below(40) as usize;
            digits_of(many, rng).into_bytes()
        })
    }),
    damage("a coordinate about its limit", |parts, _, rng| {
        let code = rng.pick(&["10", "20"]);
        with_value(parts, code, rng, |_, rng| about(MOST_COORDINATE, rng))
    }),
    damage("a bulge about its limit", |parts, mode, rng| {
        with_value(parts, "42", rng, |_, rng| about(most_bulge(mode), rng))
    }),
    damage("a large number", |parts, _, rng| {
        with_number(parts, rng, |_, rng| large(rng))
    }),
    damage("a place twice", |parts, _, _| at_one_place(parts).text()),
    damage(
        "a place twice, and a number beyond its limit",
        |parts, mode, rng| {
            let mut pairs = at_one_place(parts);
            let (code, m) = rng.pick(&[
                ("10", -MOST_COORDINATE - 1),
                ("20", MOST_COORDINATE + MILLION),
                ("42", most_bulge(mode) + 1),
                ("42", -most_bulge(mode) - MILLION),
            ]);
            if let Some(last) = parts.of(code).last() {
                pairs.0[*last].value = plain(m).into();
            }
            pairs.text()
        },
    ),
    damage("a fault and another count", |parts, _, rng| {
        let text = with_value(parts, "90", rng, |_, _| b"9".to_vec());
        let at = place(text.len(), rng);
        replaced(&text, at..at + 1, &[any_byte(rng)])
    }),
    damage("a large number and another count", |parts, _, rng| {
        let mut pairs = parts.clone();
        change(&mut pairs, "90", rng, |_, _| b"7".to_vec());
        let code = rng.pick(&["10", "20", "42"]);
        change(&mut pairs, code, rng, |_, rng| large(rng));
        pairs.text()
    }),
    damage("two numbers about their limits", |parts, mode, rng| {
        let mut pairs = parts.clone();
        for _ in 0..2 {
            let code = rng.pick(&["10", "20", "42"]);
            let most = match code {
                "42" => most_bulge(mode),
                _ => MOST_COORDINATE,
            };
            change(&mut pairs, code, rng, |_, rng| about(most, rng));
        }
        pairs.text()
    }),
    damage("the body twice", |parts, _, _| parts.text().repeat(2)),
    damage("any bytes", |_, _, rng| {
        (0..rng.below(40)).map(|_| any_byte(rng)).collect()
    }),
];

/// Those of large arcs. Each is drawn anew.
pub const OF_ARCS: [Damage; 4] = [
    damage("a cut point about its limit", |_, _, rng| {
        let (from, to) = cut_about(rng);
        arcs(vec![from, to], rng)
    }),
    damage(
        "a cut point beyond its limit, and a place twice",
        |_, _, rng| {
            let (from, to) = cut_about(rng);
            let at = Vertex {
                numbers: [5 * MILLION, 6 * MILLION, draw::bulge(Mode::Large, rng)],
                bulge: true,
            };
            arcs(vec![from, to, at, at], rng)
        },
    ),
    damage("two cut points about their limits", |_, _, rng| {
        let (a, b) = cut_about(rng);
        let (c, d) = cut_about(rng);
        arcs(vec![a, b, c, d], rng)
    }),
    damage("any large arcs", |_, _, rng| {
        let any = |rng: &mut Rng| Vertex {
            numbers: [
                draw::coordinate(rng),
                draw::coordinate(rng),
                draw::bulge(Mode::Large, rng),
            ],
            bulge: true,
        };
        let vertices = (0..2 + rng.below(3)).map(|_| any(rng)).collect();
        arcs(vertices, rng)
    }),
];

/// A body of these vertices, from any of them on.
fn arcs(mut vertices: Vec<Vertex>, rng: &mut Rng) -> Vec<u8> {
    let from = place(vertices.len(), rng);
    vertices.rotate_left(from);
    let closed = !rng.one_in(4);
    draw::body(&vertices, closed, Spelling::Loose, rng).text()
}

/// An arc of bulge 4 or so that is cut at the limit of a coordinate, or a few millionths from it, of either sign.
pub fn cut_about(rng: &mut Rng) -> (Vertex, Vertex) {
    let sign = if rng.one_in(2) { 1 } else { -1 };
    let off = rng.pick(&[0, 0, -1, 1, 2, -2, MILLION, -MILLION]);
    let (rise, half_chord) =
        rng.pick(&[(4, 1), (2, 1), (15, 1), (30, 2), (16, 1), (8, 4), (12, 3)]);
    let far = sign * (MOST_COORDINATE + off - rise * MILLION);
    let bulge = sign * rise / half_chord * MILLION;
    let (low, high) = (-half_chord * MILLION, half_chord * MILLION);
    let vertex = |numbers: [i64; 3]| Vertex {
        numbers,
        bulge: true,
    };
    match rng.one_in(2) {
        true => (vertex([far, low, bulge]), vertex([far, high, 0])),
        false => (vertex([low, far, -bulge]), vertex([high, far, 0])),
    }
}

fn place(end: usize, rng: &mut Rng) -> usize {
    rng.below(end as u64) as usize
}

/// Mostly a byte that stands in bodies.
fn any_byte(rng: &mut Rng) -> u8 {
    match rng.below(4) {
        0 => rng.below(256) as u8,
        _ => rng.pick(b"0012459.- \n\r\t+e"),
    }
}

fn at_byte(parts: &Parts, rng: &mut Rng, make: fn(u8, &mut Rng) -> Vec<u8>) -> Vec<u8> {
    let text = parts.text();
    let at = place(text.len(), rng);
    let bytes = make(text[at], rng);
    replaced(&text, at..at + 1, &bytes)
}

fn at_line(parts: &Parts, rng: &mut Rng, make: fn(&[u8], &mut Rng) -> Vec<u8>) -> Vec<u8> {
    let mut lines = parts.lines();
    let at = place(lines.len(), rng);
    lines[at] = make(&lines[at], rng);
    joined(&lines)
}

/// All vertices at the first one's place.
fn at_one_place(parts: &Parts) -> Parts {
    let mut pairs = parts.clone();
    for code in ["10", "20"] {
        let at = parts.of(code);
        let value = at.first().map(|at| parts.0[*at].value.clone());
        for at in at {
            pairs.0[at].value = value.clone().unwrap_or_default();
        }
    }
    pairs
}

fn put_in(parts: &Parts, code: &[u8], value: &[u8], rng: &mut Rng) -> Vec<u8> {
    let mut pairs = Parts::default();
    pairs.push(code, value);
    let mut all = parts.clone();
    let at = place(parts.0.len() + 1, rng);
    all.0.insert(at, pairs.0.remove(0));
    all.text()
}

fn one_of_five(parts: &Parts, rng: &mut Rng) -> Option<usize> {
    let at: Vec<usize> = FIVE.iter().flat_map(|code| parts.of(code)).collect();
    (!at.is_empty()).then(|| rng.pick(&at))
}

/// Changes a value of this code, if there is one.
fn change(parts: &mut Parts, code: &str, rng: &mut Rng, make: impl Fn(&[u8], &mut Rng) -> Vec<u8>) {
    let at = parts.of(code);
    if !at.is_empty() {
        let at = rng.pick(&at);
        parts.0[at].value = make(&parts.0[at].value, rng);
    }
}

fn with_value(
    parts: &Parts,
    code: &str,
    rng: &mut Rng,
    make: impl Fn(&[u8], &mut Rng) -> Vec<u8>,
) -> Vec<u8> {
    let mut pairs = parts.clone();
    change(&mut pairs, code, rng, make);
    pairs.text()
}

fn with_number(parts: &Parts, rng: &mut Rng, make: impl Fn(&[u8], &mut Rng) -> Vec<u8>) -> Vec<u8> {
    let code = rng.pick(&["10", "20", "42"]);
    with_value(parts, code, rng, make)
}

fn spelt(value: &[u8]) -> &str {
    std::str::from_utf8(value).unwrap_or("").trim()
}

/// At a limit, one millionth beside it, and a little farther, of either sign.
fn about(limit: i64, rng: &mut Rng) -> Vec<u8> {
    let m = limit + rng.pick(&[-2, -1, 0, 0, 1, 1, 2, MILLION]);
    plain(if rng.one_in(2) { m } else { -m }).into_bytes()
}

/// A number beyond both limits: about 2^53 millionths, about 2^63 and 2^64 of them, or of very many digits.
pub fn large(rng: &mut Rng) -> Vec<u8> {
    let minus = if rng.one_in(2) { "-" } else { "" };
    let m: u128 = match rng.below(8) {
        0 | 1 => (1 << 53) + u128::from(rng.below(5)) - 2,
        2 => (1 << 63) + u128::from(rng.below(5)) - 2,
        3 => (1 << 64) + u128::from(rng.below(5)) - 2,
        // within the limits, if it wraps round
        4 => (rng.pick(&[1 << 32, 1 << 53, 1 << 63, 1 << 64]) + 1) << rng.below(3),
        5 => rng.pick(&[1 << 64, 1 << 96]) + u128::from(rng.below(1_000_000)),
        6 => {
            let many = rng.pick(&[20, 40, 300, 310, 400]);
            return format!("{minus}1{}", digits_of(many, rng)).into_bytes();
        }
        _ => {
            let many = rng.pick(&[15, 16, 17, 18, 19, 20]);
            let (whole, part) = (digits_of(many, rng), digits_of(6, rng));
            return format!("{minus}9{whole}.{part}").into_bytes();
        }
    };
    format!("{minus}{}.{:06}", m / 1_000_000, m % 1_000_000).into_bytes()
}
