//! A stand-in for the library, right or with a defect, to try the comparison on. It goes from byte to byte.

use std::cell::Cell;

use super::ask::Call;
use super::Ours;
use crate::form::{Place, Sheet};

pub const STAND_IN: Ours = Ours { pack, unpack, read };

thread_local! {
    static DEFECT: Cell<(&'static str, Call)> = const { Cell::new(("", Call::Pack)) };
    /// The call that is made.
    static NOW: Cell<Call> = const { Cell::new(Call::Pack) };
}

/// Gives a call a defect, or none if the name is empty.
pub fn set(defect: &'static str, of: Call) {
    DEFECT.set((defect, of));
}

fn is(defect: &str) -> bool {
    DEFECT.get() == (defect, NOW.get())
}

const COORDINATE: i64 = 1 << 20;
const BULGE: i64 = 1 << 16;
const NO_ROOM: u64 = 512;

/// What a number is for: 0 and 1 are the counts, 2 to 4 the first path's x, y and bulge, 5 to 7 the second's.
type Site = usize;

fn limit(site: Site) -> i64 {
    match site {
        0 | 1 => 256,
        4 | 7 => BULGE,
        _ => COORDINATE,
    }
}

/// Defects of a limit, by site.
const ABOVE: [&str; 8] = [
    "257 vertices taken, first",
    "257 vertices taken, second",
    "one above taken, first x",
    "one above taken, first y",
    "one above taken, first bulge",
    "one above taken, second x",
    "one above taken, second y",
    "one above taken, second bulge",
];
const BELOW: [&str; 8] = [
    "",
    "",
    "one below taken, first x",
    "one below taken, first y",
    "one below taken, first bulge",
    "one below taken, second x",
    "one below taken, second y",
    "one below taken, second bulge",
];
const SHORT: [&str; 8] = [
    "256 vertices refused, first",
    "256 vertices refused, second",
    "the most refused, first x",
    "the most refused, first y",
    "the most refused, first bulge",
    "the most refused, second x",
    "the most refused, second y",
    "the most refused, second bulge",
];
const LEAST: [&str; 8] = [
    "",
    "",
    "the least refused, first x",
    "the least refused, first y",
    "the least refused, first bulge",
    "the least refused, second x",
    "the least refused, second y",
    "the least refused, second bulge",
];

/// All defects of limits.
pub fn of_limits() -> impl Iterator<Item = &'static str> {
    let all = [ABOVE, BELOW, SHORT, LEAST].concat();
    all.into_iter().filter(|name| !name.is_empty())
}

fn in_range(site: Site, n: i128) -> bool {
    let limit = i128::from(limit(site));
    let least = if site < 2 { 0 } else { -limit };
    match () {
        _ if n == limit + 1 && is(ABOVE[site]) => true,
        _ if n == least - 1 && site > 1 && is(BELOW[site]) => true,
        _ if n == limit && is(SHORT[site]) => false,
        _ if n == least && site > 1 && is(LEAST[site]) => false,
        _ if is("no limits") => n.abs() < 1 << 30,
        _ if is("a bulge as far as a coordinate") && site > 1 => n.abs() <= 1 << 20,
        _ => (least..=limit).contains(&n),
    }
}

// ---- the packed form

fn zigzag(site: Site, n: i128) -> u128 {
    let plain = site < 2 && !is("counts zigzagged") || is("nothing zigzagged") && n >= 0;
    (match () {
        _ if plain => n,
        _ if is("bulges not zigzagged") && site % 3 == 1 && n >= 0 => n,
        _ if n < 0 && is("zigzag off by one at negatives") => -2 * n,
        _ if n < 0 && is("zigzag off by two at negatives") => -2 * n - 3,
        _ if n < 0 => -2 * n - 1,
        _ if is("odd numbers positive") => 2 * n + 1,
        _ => 2 * n,
    }) as u128
}

fn unzigzag(site: Site, stored: i128) -> i128 {
    match () {
        _ if is("counts zigzagged") => stored / 2,
        _ if site < 2 => stored,
        _ if is("nothing zigzagged") => stored,
        _ if is("bulges not zigzagged") && site % 3 == 1 => stored,
        _ if is("odd numbers positive") && stored % 2 == 0 => -stored / 2,
        _ if is("odd numbers positive") => stored / 2,
        _ if stored % 2 == 0 => stored / 2,
        _ if is("zigzag off by one at negatives") => -(stored / 2),
        _ => -(stored / 2) - 1,
    }
}

fn groups(mut n: u128) -> Vec<u8> {
    let mut bytes = Vec::new();
    let edge = match () {
        _ if is("128 in one byte") => 128,
        _ if is("127 in two bytes") => 126,
        _ => 127,
    };
    while n > edge {
        bytes.push((n & 127) as u8 | 128);
        n >>= 7;
    }
    bytes.push(n as u8);
    if is("the highest group first") {
        bytes.reverse();
        let last = bytes.len() - 1;
        bytes.iter_mut().for_each(|byte| *byte |= 128);
        bytes[last] &= 127;
    }
    if is("the top bit at the last") {
        bytes.iter_mut().for_each(|byte| *byte ^= 128);
    }
    if is("a group more") && bytes.len() == 3 {
        bytes[2] |= 128;
        bytes.push(0);
    }
    bytes
}

fn packed(sheet: &Sheet) -> Vec<u8> {
    let [first, second] = &sheet.paths;
    let mut bytes = Vec::new();
    let mut put = |site: Site, n: i64| bytes.extend(groups(zigzag(site, n.into())));
    let counts = [first.len() as i64, second.len() as i64];
    if is("the counts in the other order") {
        put(0, counts[1]);
        put(1, counts[0]);
    } else {
        put(0, counts[0]);
        put(1, counts[1]);
    }
    let mut paths = [(2, first), (5, second)];
    if is("the second path first") {
        paths.reverse();
    }
    for (site, path) in paths {
        for [x, y, bulge] in path {
            let turned = is("y before x");
            put(site, if turned { *y } else { *x });
            put(site + 1, if turned { *x } else { *y });
            put(site + 2, *bulge);
        }
    }
    bytes
}

struct Reader<'a> {
    bytes: &'a [u8],
    at: usize,
    /// Where the vertex starts, and how many numbers there were.
    vertex: usize,
    numbers: usize,
}

impl Reader<'_> {
    fn next(&mut self, site: Site) -> Result<i64, usize> {
        let start = self.at;
        let mut n: i128 = 0;
        let mut shift = 0;
        let mut last;
        loop {
            let Some(byte) = self.bytes.get(self.at) else {
                return self.cut(start, n, site);
            };
            last = *byte;
            self.at += 1;
            let group = i128::from(last & 127);
            if is("the highest group first") {
                n = (n << 7 | group) & (1 << 100) - 1;
            } else if shift < 100 {
                n |= group << shift;
            } else if group > 0 {
                // beyond every limit
                n |= 1 << 100;
            }
            shift += 7;
            if is("at most four bytes of a number") && shift == 28 {
                break;
            }
            if (last < 128) != is("the top bit at the last") {
                break;
            }
        }
        if is("a number wraps at 32 bits") {
            n &= (1 << 32) - 1;
        }
        if is("a number wraps at 64 bits") {
            n &= (1 << 64) - 1;
        }
        if is("groups of a number of more than ten bytes dropped") && self.at - start > 10 {
            n &= (1 << 70) - 1;
        }
        let padded = last & 127 == 0 && self.at > start + 1 && !self.takes_padding(site, n, start);
        let n = unzigzag(site, n);
        if padded || !in_range(site, n) {
            return Err(self.fault(start, padded));
        }
        self.numbers += 1;
        Ok(n as i64)
    }

    fn takes_padding(&self, site: Site, n: i128, start: usize) -> bool {
        let by = self.at - start;
        match () {
            _ if is("a padded form taken") => true,
            _ if is("a padded form taken, first count") => site == 0,
            _ if is("a padded form taken, second count") => site == 1,
            _ if is("a padded form taken, first x") => site == 2,
            _ if is("a padded form taken, first y") => site == 3,
            _ if is("a padded form taken, first bulge") => site == 4,
            _ if is("a padded form taken, second x") => site == 5,
            _ if is("a padded form taken, second y") => site == 6,
            _ if is("a padded form taken, second bulge") => site == 7,
            _ if is("a padded zero taken") => n == 0 && by == 2,
            _ if is("a padded form of up to four bytes taken") => by <= 4,
            _ if is("a padded form of five bytes and more taken") => by > 4,
            _ if is("a padded form of more than ten bytes taken") => by > 10,
            _ if is("a padded form of the limit taken") => n == 1 << 21,
            _ => false,
        }
    }

    /// At the file's end.
    fn cut(&mut self, start: usize, n: i128, site: Site) -> Result<i64, usize> {
        let missing = start == self.bytes.len();
        let n = unzigzag(site, n);
        match () {
            _ if is("a cut number taken") && !missing && in_range(site, n) => Ok(n as i64),
            _ if is("a missing number is 0") && missing => Ok(0),
            _ if is("a missing bulge is 0") && missing && site > 1 && site % 3 == 1 => Ok(0),
            _ if is("an empty file taken") && self.bytes.is_empty() => Ok(0),
            _ if is("a missing number told at the last byte") && missing => {
                Err(start.saturating_sub(1))
            }
            _ if is("a cut number told at the end") => Err(self.bytes.len()),
            _ if is("the last byte of a number at fault") && !missing => Err(self.bytes.len() - 1),
            _ if is("a vertex at fault") => Err(self.vertex),
            _ => Err(self.told(start)),
        }
    }

    fn fault(&self, start: usize, padded: bool) -> usize {
        match () {
            _ if is("the last byte of a number at fault") => self.at - 1,
            _ if is("the byte behind a number at fault") => self.at,
            _ if is("the last byte of a padded number") && padded => self.at - 1,
            _ if is("the last byte of a number out of range") && !padded => self.at - 1,
            _ if is("the fifth byte of a longer number") => start + (self.at - 1 - start).min(4),
            _ if is("a vertex at fault") => self.vertex,
            _ => self.told(start),
        }
    }

    fn told(&self, start: usize) -> usize {
        match () {
            _ if is("offsets from 1") => start + 1,
            _ if is("offsets in numbers") => self.numbers,
            _ if is("offsets from the first vertex on") => start.saturating_sub(2),
            _ if is("always at 0") => 0,
            _ => start,
        }
    }
}

fn rest(reader: &Reader) -> Option<usize> {
    let rest = &reader.bytes[reader.at..];
    match () {
        _ if rest.is_empty() => None,
        _ if is("left-over bytes taken") => None,
        _ if is("one byte left over taken") && rest.len() == 1 => None,
        _ if is("a 0 left over taken") && rest.iter().all(|byte| *byte == 0) => None,
        _ if is("a newline left over taken") && rest == b"\n" => None,
        _ if is("a cut number left over taken") && rest.iter().all(|byte| *byte > 127) => None,
        _ if is("left-over bytes beyond 8,192 taken") && reader.bytes.len() > 8192 => None,
        _ if is("left-over bytes told at the end") => Some(reader.bytes.len()),
        _ if is("left-over bytes told at the last") => Some(reader.bytes.len() - 1),
        _ if is("left-over bytes told one before") => Some(reader.at - 1),
        _ if is("left-over bytes read as a number") => {
            let more = rest.iter().position(|byte| *byte < 128)? + 1;
            Some(reader.at + more)
        }
        _ => Some(reader.told(reader.at)),
    }
}

fn sheet(bytes: &[u8]) -> Result<Sheet, usize> {
    match bytes.len() {
        8193.. if is("more than 8,192 bytes told at 0") => return Err(0),
        8193.. if is("more than 8,192 bytes told at 8,192") => return Err(8192),
        5637.. if is("more than 5,636 bytes told at 5,636") => return Err(5636),
        8193.. if is("more than 8,192 bytes cut") => return sheet(&bytes[..8192]),
        5637.. if is("more than 5,636 bytes cut") => return sheet(&bytes[..5636]),
        8192 if is("8,192 bytes told at 0") => return Err(0),
        5636 if is("5,636 bytes refused") => return Err(5635),
        _ => {}
    }
    let mut reader = Reader {
        bytes,
        at: 0,
        vertex: 0,
        numbers: 0,
    };
    let mut counts = [reader.next(0)?, reader.next(1)?];
    if is("the counts in the other order") {
        counts.reverse();
    }
    let mut paths = [(2, counts[0]), (5, counts[1])];
    if is("the second path first") {
        paths.reverse();
    }
    let mut read = Vec::new();
    for (site, count) in paths {
        let mut path: Vec<Place> = Vec::new();
        for _ in 0..count {
            reader.vertex = reader.at;
            let mut place = [
                reader.next(site)?,
                reader.next(site + 1)?,
                reader.next(site + 2)?,
            ];
            if is("y before x") {
                place.swap(0, 1);
            }
            path.push(place);
        }
        read.push(path);
    }
    if let Some(offset) = rest(&reader) {
        return Err(offset);
    }
    let [one, other] = read.try_into().expect("two paths");
    Ok(if is("the second path first") {
        Sheet::new(other, one)
    } else {
        Sheet::new(one, other)
    })
}

// ---- the text

/// The layout of a text, by its lines and words.
fn from_text(text: &[u8]) -> Option<Sheet> {
    let mut text = String::from_utf8_lossy(text).into_owned();
    if is("a carriage return taken") {
        text = text.replace("\r\n", "\n");
    }
    if is("two spaces taken") {
        text = text.replace("  ", " ");
    }
    if is("a tab taken") {
        text = text.replace('\t', " ");
    }
    if is("an empty line taken") {
        text = text.replace("\n\n", "\n");
    }
    let lines = match text.strip_suffix('\n') {
        Some(lines) => lines,
        None if is("no last newline needed") => &text,
        None => return None,
    };
    let mut lines = lines.split('\n');
    let counts = numbers(lines.next()?, &[0, 1])?;
    let mut path = |count: i64, sites: [Site; 3]| -> Option<Vec<Place>> {
        let mut path = Vec::new();
        for _ in 0..count {
            let Some(line) = lines.next() else {
                if is("missing vertices passed over") {
                    break;
                }
                return None;
            };
            path.push(numbers(line, &sites)?.try_into().expect("three numbers"));
        }
        Some(path)
    };
    let (first, second) = (path(counts[0], [2, 3, 4])?, path(counts[1], [5, 6, 7])?);
    if lines.next().is_some() && !is("more vertices passed over") {
        return None;
    }
    Some(Sheet::new(first, second))
}

fn numbers(line: &str, sites: &[Site]) -> Option<Vec<i64>> {
    let line = match () {
        _ if is("a space at the end taken") => line.strip_suffix(' ').unwrap_or(line),
        _ if is("a space in front taken") => line.strip_prefix(' ').unwrap_or(line),
        _ => line,
    };
    let mut words = line.split(' ');
    let mut numbers = Vec::new();
    for site in sites {
        numbers.push(whole(words.next()?, *site)?);
    }
    if words.next().is_some() && !is("a number more passed over") {
        return None;
    }
    Some(numbers)
}

fn whole(word: &str, site: Site) -> Option<i64> {
    let digits = word.strip_prefix('-').unwrap_or(word);
    let digits = match digits.strip_prefix('+') {
        Some(digits) if is("a plus taken") => digits,
        _ => digits,
    };
    let zeros = digits.len() > 1 && digits.starts_with('0') && !is("a leading zero taken");
    let minus_zero = word.starts_with('-') && digits == "0" && !is("a minus zero taken");
    let minus_count = word.starts_with('-') && site < 2;
    if digits.is_empty() || zeros || minus_zero || minus_count {
        return None;
    }
    let mut n: i128 = 0;
    for byte in digits.bytes() {
        if !byte.is_ascii_digit() {
            return None;
        }
        n = (10 * n + i128::from(byte - b'0')).min(1 << 100);
        if is("a number wraps at 64 bits") {
            n &= (1 << 64) - 1;
        }
    }
    let n = if word.starts_with('-') { -n } else { n };
    in_range(site, n).then_some(n as i64)
}

fn to_text(sheet: &Sheet) -> Vec<u8> {
    let [first, second] = &sheet.paths;
    let word = |n: &i64| match () {
        _ if is("a plus before numbers") && *n > 0 => format!("+{n}"),
        _ if is("a zero in front of numbers") && *n > 9 => format!("0{n}"),
        _ if is("the most negative as positive") && *n == -COORDINATE => COORDINATE.to_string(),
        _ if is("digits turned") && *n > 9 => n.to_string().chars().rev().collect(),
        _ => n.to_string(),
    };
    let mut lines = vec![[first.len(), second.len()].map(|n| n.to_string()).join(" ")];
    for place in first.iter().chain(second) {
        let words: Vec<String> = place.iter().map(word).collect();
        lines.push(words.join(if is("tabs between numbers") {
            "\t"
        } else {
            " "
        }));
    }
    let mut text = lines.join("\n");
    if !is("no last newline") {
        text.push('\n');
    }
    if is("an empty line at the end") {
        text.push('\n');
    }
    text.into_bytes()
}

// ---- the calls

/// Whether a slice is too short.
fn too_short(places: usize, needed: usize, written: Option<usize>) -> bool {
    match () {
        _ if is("a place less is enough") => places + 1 < needed,
        _ if is("a place more is asked for") => places <= needed,
        _ if is("only what is written is asked for") => written.is_some_and(|n| places < n),
        _ if is("room is asked for last") && written.is_none() => false,
        _ => places < needed,
    }
}

fn no_room(told: &[u64]) -> bool {
    match () {
        _ if is("one place to tell is enough") => told.is_empty(),
        _ if is("three places to tell are asked for") => told.len() < 3,
        _ if is("no place to tell is asked for") => false,
        _ => told.len() < 2,
    }
}

fn tell(told: &mut [u64], numbers: [usize; 2]) {
    let numbers = match () {
        _ if is("told in the other order") => [numbers[1], numbers[0]],
        _ if is("one more told") => [numbers[0] + 1, numbers[1]],
        _ => numbers,
    };
    let places = if is("only one place told") { 1 } else { 2 };
    for (place, n) in told.iter_mut().zip(numbers).take(places) {
        *place = n as u64;
    }
    if is("a third place told") {
        told.iter_mut().skip(2).for_each(|place| *place = 0);
    }
}

fn put<T: Copy>(from: &[T], out: &mut [T]) {
    // not even a wrong one writes beyond its slice
    let n = from.len().min(out.len());
    out[..n].copy_from_slice(&from[..n]);
}

fn put_bytes(from: &[u8], out: &mut [u8], told: &mut [u64]) -> u64 {
    put(from, out);
    if is("what follows overwritten") {
        if let Some(next) = out.get_mut(from.len()) {
            *next = 0;
        }
    }
    if is("the rest cleared") && from.len() < out.len() {
        out[from.len()..].fill(0);
    }
    if is("the last byte not written") {
        if let Some(last) = from.len().checked_sub(1).filter(|last| *last < out.len()) {
            out[last] = 0x55;
        }
    }
    tell(told, [from.len(), 0]);
    0
}

fn pack(text: &[u8], out: &mut [u8], told: &mut [u64]) -> u64 {
    NOW.set(Call::Pack);
    let bytes = from_text(text).map(|sheet| packed(&sheet));
    let written = bytes.as_ref().map(Vec::len);
    if no_room(told) || too_short(out.len(), 5636, written) {
        if is("written where there is no room") && !out.is_empty() {
            out[0] = 1;
        }
        return NO_ROOM;
    }
    match bytes {
        Some(bytes) => put_bytes(&bytes, out, told),
        None => {
            if is("written before a refusal") {
                put(&[2], out);
            }
            if is("told before a refusal") {
                tell(told, [0, 0]);
            }
            if is("18 for a text") {
                return 18;
            }
            10
        }
    }
}

/// A refusal of a file.
fn refuse(offset: usize, told: &mut [u64]) -> u64 {
    if !is("no offset told") {
        tell(told, [offset, 0]);
    }
    if is("10 for a file") {
        return 10;
    }
    18
}

/// What a hasty writer has written before the fault: the lines up to it.
fn front_of_text(bytes: &[u8]) -> Vec<u8> {
    let mut reader = Reader {
        bytes,
        at: 0,
        vertex: 0,
        numbers: 0,
    };
    match (reader.next(0), reader.next(1)) {
        (Ok(n), Ok(m)) => format!("{n} {m}\n").into_bytes(),
        (Ok(n), _) => format!("{n} ").into_bytes(),
        _ => vec![],
    }
}

fn unpack(bytes: &[u8], out: &mut [u8], told: &mut [u64]) -> u64 {
    NOW.set(Call::Unpack);
    let text = sheet(bytes).map(|sheet| to_text(&sheet));
    let written = text.as_ref().ok().map(Vec::len);
    if no_room(told) || too_short(out.len(), 12_808, written) {
        if is("written where there is no room") && !out.is_empty() {
            out[0] = 1;
        }
        return NO_ROOM;
    }
    match text {
        Ok(text) => put_bytes(&text, out, told),
        Err(offset) => {
            if is("written before a refusal") {
                put(&front_of_text(bytes), out);
            }
            refuse(offset, told)
        }
    }
}

fn floats(path: &[Place]) -> Vec<f64> {
    let parts = match () {
        _ if is("bulges by 65,535") => 65_535.0,
        _ if is("bulges as whole numbers") => 1.0,
        _ => 65_536.0,
    };
    let each = |[x, y, bulge]: &Place| {
        let [x, y, bulge] = [*x as f64, *y as f64, *bulge as f64 / parts];
        let minus = |x: f64| {
            if x == 0.0 && is("zeros with a minus") {
                -0.0
            } else {
                x
            }
        };
        let x = if is("single floats") {
            x as f32 as f64 + 0.0
        } else {
            x
        };
        let bulge = if is("bulges of a last bit less") && bulge > 0.0 {
            bulge.next_down()
        } else {
            bulge
        };
        let trace = match () {
            _ if is("a trace of -0") => -0.0,
            _ if is("a trace of 1") => 1.0,
            _ if is("the bulge's trace") => bulge,
            _ => 0.0,
        };
        let vertex = [x, y, bulge, trace].map(minus);
        let numbers = if is("no traces") { 3 } else { 4 };
        vertex[..numbers].to_vec()
    };
    path.iter().flat_map(each).collect()
}

fn read(bytes: &[u8], first: &mut [f64], second: &mut [f64], told: &mut [u64]) -> u64 {
    NOW.set(Call::Read);
    let paths = sheet(bytes).map(|sheet| sheet.paths.each_ref().map(|path| floats(path)));
    let written = |at: usize| paths.as_ref().ok().map(|paths| paths[at].len());
    let asked = if is("room for three numbers a vertex") {
        768
    } else {
        1024
    };
    let short = [
        too_short(first.len(), asked, written(0)) && !is("the first slice's room not asked for"),
        too_short(second.len(), asked, written(1)) && !is("the second slice's room not asked for"),
    ];
    if no_room(told) || short[0] || short[1] {
        if is("written where there is no room") {
            put(&[0.5], first);
        }
        return NO_ROOM;
    }
    match paths {
        Ok([one, other]) => {
            put(&one, if is("both into one") { second } else { first });
            put(&other, second);
            if is("the rest cleared") {
                second[other.len().min(1024)..].fill(0.0);
            }
            let told_counts = if is("numbers for vertices") {
                [one.len(), other.len()]
            } else {
                [one.len() / 4, other.len() / 4]
            };
            tell(told, told_counts);
            0
        }
        Err(offset) => {
            if is("written before a refusal") && offset > 4 {
                put(&[0.5], first);
            }
            refuse(offset, told)
        }
    }
}
