//! A stand-in for the library, right or with a defect, to try the comparison on. It goes from byte to byte, and counts in
//! millionths.

use std::cell::Cell;

use super::model::Mode;
use super::Ours;

pub const HALF: Ours = Ours {
    mode: Mode::Half,
    import: |text, path, told| import(Mode::Half, text, path, told),
    export: |path, out, told| export(Mode::Half, path, out, told),
};
pub const LARGE: Ours = Ours {
    mode: Mode::Large,
    import: |text, path, told| import(Mode::Large, text, path, told),
    export: |path, out, told| export(Mode::Large, path, out, told),
};

thread_local! {
    static DEFECT: Cell<&'static str> = const { Cell::new("") };
}

/// Gives the stand-in a defect, or none if the name is empty.
pub fn set(defect: &'static str) -> &'static str {
    DEFECT.replace(defect)
}

fn is(defect: &str) -> bool {
    DEFECT.get() == defect
}

const NO_ROOM: u64 = 512;
const MOST: u64 = 1 << 53;

fn word(number: u64, item: u64, index: u64) -> u64 {
    let number = match number {
        20 if is("21 for 20") => 21,
        21 if is("20 for 21") => 20,
        23 if is("2 for 23") => 2,
        24 if is("8 for 24") => 8,
        24 if is("17 for 24") => 17,
        _ => number,
    };
    let item = match item {
        15 if is("a line with the rows' item") => 9,
        16 if is("the room with the rows' item") => 9,
        16 if is("the room with a line's item") => 15,
        3 if number == 23 && is("23 of a bulge told as x") => 1,
        17 if is("a cut point's x told as x") => 1,
        18 if is("a cut point's y told as y") => 2,
        17 | 18 if is("a cut point told as a chord") => 7,
        17 if is("a cut point's coordinates exchanged") => 18,
        18 if is("a cut point's coordinates exchanged") => 17,
        _ => item,
    };
    let owner = u64::from(is("an owner of 1") && number != 24);
    256 + number + (item << 16) + (owner << 24) + (index << 32)
}

fn at_line(number: u64, line: u64) -> u64 {
    let line = match () {
        _ if is("a line too many") => line + 1,
        _ if is("lines from 0") => line - 1,
        _ if is("lines by pairs") => line.div_ceil(2),
        _ if number == 22 && is("22 at the line of 90") => line - 1,
        _ if number == 22 && is("22 at line 2") => 2,
        _ if is("no line told") => 0,
        _ if is("lines of 16 bits") => line & 0xffff,
        _ if is("lines of 20 bits") => line & 0xf_ffff,
        _ => line,
    };
    word(number, 15, line)
}

// ---- import

struct Reader<'a> {
    text: &'a [u8],
    at: usize,
    /// How many lines were read.
    lines: u64,
}

/// A number in millionths, with a sign.
#[derive(Clone, Copy, PartialEq)]
struct Number {
    minus: bool,
    m: u64,
}

impl Number {
    fn value(self) -> f64 {
        let x = match () {
            _ if is("millionths times 1e-6") => self.m as f64 * 1e-6,
            _ if is("numbers of 32 bits") => f64::from((self.m as f64 / 1e6) as f32),
            _ if is("whole and fraction added") => {
                (self.m / 1_000_000) as f64 + (self.m % 1_000_000) as f64 / 1e6
            }
            _ => self.m as f64 / 1e6,
        };
        if self.minus {
            -x
        } else {
            x
        }
    }
}

impl Reader<'_> {
    fn is_at_end(&self) -> bool {
        self.at == self.text.len()
    }

    fn peek(&self) -> Option<u8> {
        self.text.get(self.at).copied()
    }

    fn blanks(&mut self) {
        while let Some(byte) = self.peek() {
            let blank = byte == b' ' && !is("no blanks taken")
                || byte == b'\t' && is("a tab taken")
                || is("a blank line passed over") && byte == b'\n';
            if !blank {
                return;
            }
            self.at += 1;
        }
    }

    /// The end of a line that is a number.
    fn newline(&mut self) -> Option<()> {
        if is("a carriage return taken") && self.peek() == Some(b'\r') {
            self.at += 1;
        }
        if is("blanks behind taken") {
            self.blanks();
        }
        match self.peek() {
            Some(b'\n') => {
                self.at += 1;
                self.lines += 1;
                Some(())
            }
            None if is("no last newline needed") => {
                self.lines += 1;
                Some(())
            }
            _ => None,
        }
    }

    /// The last two digits, and whether there were others than zeros before them; or none.
    fn whole(&mut self) -> Option<u64> {
        self.blanks();
        if is("a plus taken") && self.peek() == Some(b'+') {
            self.at += 1;
        }
        if is("a minus before a code taken") && self.peek() == Some(b'-') {
            self.at += 1;
        }
        let start = self.at;
        let mut n: u64 = 0;
        while let Some(digit @ b'0'..=b'9') = self.peek() {
            let digit = u64::from(digit - b'0');
            n = match () {
                _ if is("whole numbers of 32 bits") => {
                    u64::from((n as u32).wrapping_mul(10).wrapping_add(digit as u32))
                }
                _ if is("whole numbers wrap round") => n.wrapping_mul(10).wrapping_add(digit),
                // what is more keeps its last digit, and no code or count is so large
                _ if n >= 1 << 40 => (1 << 40) + digit % 2,
                _ => 10 * n + digit,
            };
            self.at += 1;
        }
        let many = self.at - start;
        if many == 0 && !is("no digits are 0")
            || many > 1 && self.text[start] == b'0' && is("a leading zero refused")
            || many > 20 && is("more than 20 digits refused")
        {
            return None;
        }
        self.newline()?;
        Some(n)
    }

    fn number(&mut self) -> Option<Number> {
        self.blanks();
        let plus = self.peek() == Some(b'+') && is("a plus taken");
        let minus = self.peek() == Some(b'-');
        if minus || plus {
            self.at += 1;
        }
        let start = self.at;
        let mut m: u64 = 0;
        let mut put = |digit: u8| {
            let digit = u64::from(digit - b'0');
            m = match () {
                _ if is("numbers wrap round") => m.wrapping_mul(10).wrapping_add(digit),
                _ => m.saturating_mul(10).saturating_add(digit),
            };
        };
        while let Some(digit @ b'0'..=b'9') = self.peek() {
            put(digit);
            self.at += 1;
        }
        let whole = self.at - start;
        if whole > 1 && self.text[start] == b'0' && is("a leading zero refused") {
            return None;
        }
        let mut fraction = 0;
        if self.peek() == Some(b'.') || self.peek() == Some(b',') && is("a comma taken") {
            self.at += 1;
            while let Some(digit @ b'0'..=b'9') = self.peek() {
                if fraction < 6 {
                    put(digit);
                }
                fraction += 1;
                self.at += 1;
            }
            if fraction == 0 && !is("a point at the end taken") {
                return None;
            }
        }
        if whole == 0 && !(fraction > 0 && is("a point at the front taken")) {
            return None;
        }
        if fraction > 6 && !(is("seven digits read") && fraction == 7) && !is("more digits cut off")
        {
            return None;
        }
        if fraction > 5 && is("six digits refused") {
            return None;
        }
        for _ in fraction.min(6)..6 {
            put(b'0');
        }
        if is("an exponent taken") && self.peek() == Some(b'e') {
            self.at += 1;
            while let Some(b'0'..=b'9') = self.peek() {
                self.at += 1;
            }
        }
        if minus && m == 0 && !is("minus zero read") && !is("minus zero read as zero") {
            return None;
        }
        self.newline()?;
        let m = match () {
            _ if is("no cap") || is("numbers wrap round") => m,
            _ if is("a cap at the limit") => m.min(1_048_576_000_000),
            _ => m.min(MOST),
        };
        let minus = minus && !(m == 0 && is("minus zero read as zero")) && !is("no sign");
        Some(Number { minus, m })
    }

    /// Whether the line ends.
    fn skip(&mut self) -> bool {
        while let Some(byte) = self.peek() {
            self.at += 1;
            if byte == b'\n' {
                self.lines += 1;
                return true;
            }
        }
        is("a skipped value needs no newline")
    }
}

struct Found {
    numbers: Vec<[f64; 3]>,
    closed: bool,
    count: u64,
    count_line: u64,
}

fn read(text: &[u8]) -> Result<Found, u64> {
    let mut reader = Reader {
        text,
        at: 0,
        lines: 0,
    };
    let mut found = Found {
        numbers: Vec::new(),
        closed: false,
        count: 0,
        count_line: 0,
    };
    // 0 the count is due, 1 the flags, 2 a vertex, 3 a y, 4 a bulge or a vertex
    let mut due = 0;
    let mut last_bulge = 0.0;
    loop {
        let line = reader.lines + 1;
        if reader.is_at_end() {
            let owed = match due {
                0 if is("90 may be missing") => false,
                1 if is("70 may be missing") => false,
                3 if is("the last 20 may be missing") => false,
                0 | 1 | 3 => true,
                _ => false,
            };
            if !owed {
                return Ok(found);
            }
            let line = if is("the end told at the last line") {
                line - 1
            } else {
                line
            };
            return Err(at_line(21, line));
        }
        let unended = !text[reader.at..].contains(&b'\n');
        let Some(code) = reader.whole() else {
            if unended && is("an unended code is 21") {
                return Err(at_line(21, line));
            }
            if unended && is("an unended code at the end passed over") && (due == 2 || due == 4) {
                return Ok(found);
            }
            return Err(at_line(20, line));
        };
        let line = reader.lines + 1;
        let place = match (code, due) {
            (90, 0) | (70, 1) | (10, 2) | (20, 3) | (42 | 10, 4) => true,
            (42, 2) if is("42 twice taken") && !found.numbers.is_empty() => true,
            (42, 2) if is("42 before 10 taken") && found.numbers.is_empty() => true,
            (90, 2 | 4) if is("90 twice taken") => true,
            (70, 2 | 4) if is("70 twice taken") => true,
            (70, 0) if is("70 before 90 taken") => true,
            (10, 1) if is("70 may be missing") => true,
            (10, 3) if is("10 twice taken") => true,
            (20, 2 | 4) if is("20 twice taken") && !found.numbers.is_empty() => true,
            (42, 3) if is("42 before 20 taken") => true,
            (90 | 70 | 10 | 20 | 42, _) => false,
            (0, _) if is("0 ends the body") && due != 0 => return Ok(found),
            (c, _) if c > 1071 && is("codes above 1071 refused") => {
                return Err(at_line(20, line - 1))
            }
            (40 | 41, _) if is("widths refused") => return Err(at_line(21, line - 1)),
            _ => {
                if reader.is_at_end() && is("a skipped value may be missing") {
                    return Ok(found);
                }
                if is("a skipped empty value is passed over") && reader.peek() == Some(b'\n') {
                    continue;
                }
                if is("a code without its value skipped") {
                    continue;
                }
                if !reader.skip() {
                    let end = reader.text.ends_with(b"\n");
                    if !end && is("an unended skipped value is 20") {
                        return Err(at_line(20, line));
                    }
                    return Err(at_line(21, line));
                }
                continue;
            }
        };
        if !place {
            if is("out of place told at the value") {
                return Err(at_line(21, line));
            }
            if is("out of place passed over") {
                if !reader.skip() {
                    return Err(at_line(21, line));
                }
                continue;
            }
            return Err(at_line(21, line - 1));
        }
        if reader.is_at_end() {
            let line = if is("a missing value told at its code") {
                line - 1
            } else {
                line
            };
            let number = if is("a missing value is 20") { 20 } else { 21 };
            return Err(at_line(number, line));
        }
        if code == 90 || code == 70 {
            let unended = !text[reader.at..].contains(&b'\n');
            let Some(n) = reader.whole() else {
                let number = if unended && is("an unended value is 21") {
                    21
                } else {
                    20
                };
                return Err(at_line(number, line));
            };
            if code == 90 {
                found.count = n;
                found.count_line = line;
                due = due.max(1);
                if n > 4096 && is("7 by the count, before all else") {
                    return Err(word(7, 8, 0));
                }
            } else {
                found.closed = match () {
                    _ if is("closed by bit 2") => n & 2 == 2,
                    _ if is("closed by 1 only") => n == 1,
                    _ if is("closed if not 0") => n != 0,
                    _ if is("never closed") => false,
                    _ if is("flags of 8 bits only") => n & 1 == 1 && n < 256,
                    _ => n & 1 == 1,
                };
                due = due.max(2);
            }
            continue;
        }
        let unended = !text[reader.at..].contains(&b'\n');
        let Some(number) = reader.number() else {
            let at = if is("a bad number told at its code") {
                line - 1
            } else {
                line
            };
            let refusal = if unended && is("an unended value is 21") {
                21
            } else {
                20
            };
            return Err(at_line(refusal, at));
        };
        let x = number.value();
        match code {
            10 => {
                let bulge = if is("a missing bulge keeps the last one") {
                    last_bulge
                } else {
                    0.0
                };
                let bulge = if is("a missing bulge is -0") {
                    -0.0
                } else {
                    bulge
                };
                found.numbers.push([x, 0.0, bulge]);
                due = 3;
            }
            20 => {
                if let Some(vertex) = found.numbers.last_mut() {
                    vertex[1] = x;
                }
                due = 4;
            }
            _ => {
                last_bulge = x;
                if let Some(vertex) = found.numbers.last_mut() {
                    vertex[2] = x;
                    due = 2;
                }
            }
        }
        if is("y before x") {
            if let Some(vertex) = found.numbers.last_mut() {
                if code == 20 {
                    vertex.swap(0, 1);
                }
            }
        }
    }
}

fn too_many(vertices: usize) -> bool {
    match () {
        _ if is("4,097 vertices taken") => vertices > 4097,
        _ if is("4,096 vertices refused") => vertices > 4095,
        _ => vertices > 4096,
    }
}

/// The largest bulge.
fn most(mode: Mode) -> f64 {
    match mode {
        Mode::Half => 1.0,
        Mode::Large if is("bulges up to 1") => 1.0,
        Mode::Large if is("bulges up to 8") => 8.0,
        Mode::Large => 16.0,
    }
}

fn refusal(mode: Mode, item: usize, x: f64) -> u64 {
    let most = most(mode);
    let beyond = match item {
        0 | 1 => (
            2,
            x.abs()
                > if is("coordinates up to 2^21") {
                    2_097_152.0
                } else {
                    1_048_576.0
                },
        ),
        2 => (
            3,
            x.abs() > most && !(is("a bulge a millionth beyond") && x.abs() <= most + 1e-6),
        ),
        _ => (15, !(0.0..=255.0).contains(&x) || x.fract() != 0.0),
    };
    match () {
        _ if x.is_nan() => 11,
        _ if x.is_infinite() => 12,
        _ if x.abs() == 1_048_576.0 && item < 2 && is("the largest coordinate refused") => 2,
        _ if x.abs() == most && item == 2 && is("the largest bulge refused") => 3,
        _ if item == 3 && is("traces not checked") => 0,
        _ if beyond.1 => beyond.0,
        _ => 0,
    }
}

const ITEMS: [u64; 4] = [1, 2, 3, 13];

/// Where a segment is cut, if it is.
fn cut_point(v: &[f64], u: &[f64]) -> Option<[f64; 2]> {
    let cut = match () {
        _ if is("a cut at exactly 1") => v[2].abs() >= 1.0,
        _ if is("a cut from 1.000001 on") => v[2].abs() > 1.000_001,
        _ if is("only positive bulges cut") => v[2] > 1.0,
        _ if is("nothing cut") => false,
        _ => v[2].abs() > 1.0,
    };
    let b = if is("the sign lost") {
        v[2].abs()
    } else {
        v[2]
    };
    let (x, y) = ((v[0] + u[0]) / 2.0, (v[1] + u[1]) / 2.0);
    let (dx, dy) = (b * (u[0] - v[0]) / 2.0, b * (u[1] - v[1]) / 2.0);
    let point = match () {
        _ if is("y's cut with plus") => [x + dy, y + dx],
        _ if is("x's cut with minus") => [x - dy, y - dx],
        _ if is("a cut on the other side") => [x - dy, y + dx],
        _ if is("a cut at the middle of the chord") => [x, y],
        _ if is("a cut by the whole chord") => [x + 2.0 * dy, y - 2.0 * dx],
        _ if is("a cut without b") => [x + dy / b, y - dx / b],
        _ => [x + dy, y - dx],
    };
    cut.then_some(point)
}

/// The first fault of a segment: the number and the item. `cuts` and `chords` say what is looked at.
fn of_segment(v: &[f64], u: &[f64], cuts: bool, chords: bool) -> Option<(u64, u64)> {
    let least = if is("a chord of 2^-40 refused") {
        2_f64.powi(-40).next_up()
    } else {
        2_f64.powi(-40)
    };
    let short = |v: &[f64], u: &[f64]| {
        let (x, y) = (u[0] - v[0], u[1] - v[1]);
        chords && !is("arcs not checked") && (x * x + y * y).sqrt() < least
    };
    let Some(point) = cut_point(v, u) else {
        return (v[2].abs() >= 1e-8 && short(v, u)).then_some((5, 7));
    };
    let limit = match () {
        _ if is("a cut point at the limit refused") => 1_048_576_f64.next_down(),
        _ if is("a cut point a float beyond taken") => 1_048_576_f64.next_up(),
        _ if is("a cut point a millionth beyond taken") => 1_048_576.000_001,
        _ => 1_048_576.0,
    };
    let mut coordinates = [(point[0], 17), (point[1], 18)];
    if is("a cut point's y before its x") {
        coordinates.reverse();
    }
    for (x, item) in coordinates {
        let passed = is("cut points not checked")
            || item == 17 && is("a cut point's x not checked")
            || item == 18 && is("a cut point's y not checked");
        if cuts && !passed && x.abs() > limit {
            return Some((2, item));
        }
    }
    let first = short(v, &point) && !is("the first half not checked");
    let second = short(&point, u) && !is("the second half not checked");
    let both = match () {
        _ if is("halves not checked") => false,
        _ if is("5 if both halves are short") => short(v, &point) && short(&point, u),
        _ if is("5 by the arc's own chord") => short(v, u),
        _ if is("5 by the arc's own chord too") => first || second || short(v, u),
        _ => first || second,
    };
    both.then_some((5, 7))
}

fn checked(mode: Mode, path: &[f64], closed: bool) -> Result<(), u64> {
    let n = path.len() / 4;
    let after_the_cut = match is("7 after the cut") {
        true => path.chunks(4).filter(|v| v[2].abs() > 1.0).count(),
        false => 0,
    };
    if too_many(n + after_the_cut) {
        return Err(word(7, 8, 0));
    }
    let numbers = || {
        for (vertex, v) in path.chunks(4).enumerate() {
            let last =
                is("the last bulge of an open path not checked") && !closed && vertex + 1 == n;
            for (item, x) in v.iter().enumerate() {
                let refused = refusal(mode, item, *x);
                if refused != 0 && !(last && item == 2) {
                    let told = if is("vertices from 1") {
                        vertex + 1
                    } else {
                        vertex
                    };
                    return Err(word(refused, ITEMS[item], told as u64));
                }
            }
        }
        Ok(())
    };
    if !is("arcs before numbers") {
        numbers()?;
    }
    let ends = closed && !is("the closing arc not checked");
    let segments = if n < 2 { 0 } else { n - usize::from(!ends) };
    // each segment's cut point and chords in order, or all of one sort before all of the other
    let passes: &[[bool; 2]] = match () {
        _ if is("5 before 2") => &[[false, true], [true, false]],
        _ if is("2 before 5") => &[[true, false], [false, true]],
        _ => &[[true, true]],
    };
    for [cuts, chords] in passes {
        let mut halves = 0;
        let open_too = is("the last bulge of an open path cut") && !closed && n > 1;
        for from in 0..segments + usize::from(open_too) {
            let (v, u) = (&path[4 * from..], &path[4 * ((from + 1) % n)..]);
            if let Some((number, item)) = of_segment(v, u, *cuts, *chords) {
                let index = match () {
                    _ if is("the new index told") => from + halves,
                    _ if number == 5 && is("the second half's index told") && v[2].abs() > 1.0 => {
                        from + 1
                    }
                    _ => from,
                };
                return Err(word(number, item, index as u64));
            }
            halves += usize::from(v[2].abs() > 1.0);
        }
    }
    numbers()
}

/// The path with its large arcs cut.
fn cut(path: &[f64], closed: bool) -> Vec<f64> {
    let n = path.len() / 4;
    let mut all = Vec::new();
    for at in 0..n {
        let (v, u) = (&path[4 * at..4 * at + 4], &path[4 * ((at + 1) % n)..]);
        let point = cut_point(v, u).filter(|_| closed || at + 1 < n);
        match point {
            Some([x, y]) => {
                let half = ((1.0 + v[2] * v[2]).sqrt() - 1.0) / v[2];
                all.extend([v[0], v[1], half, v[3], x, y, half, v[3]]);
            }
            None => all.extend(v),
        }
    }
    all
}

fn import(mode: Mode, text: &[u8], path: &mut [f64], told: &mut [u64]) -> u64 {
    let least = match () {
        _ if is("one to tell in is enough") => 1,
        _ if is("three to tell in are needed") => 3,
        _ => 2,
    };
    if told.len() < least {
        if is("a fault before no room") {
            if let Err(word) = read(text) {
                return word;
            }
        }
        return NO_ROOM;
    }
    if is("22 before 20") {
        // the count, and how often 10 is a code
        let lines: Vec<&[u8]> = text.split(|byte| *byte == b'\n').collect();
        let tens = lines
            .iter()
            .step_by(2)
            .filter(|line| line.trim_ascii() == b"10")
            .count();
        let at = lines
            .iter()
            .step_by(2)
            .position(|line| line.trim_ascii() == b"90");
        let count = at
            .and_then(|at| lines.get(2 * at + 1))
            .map(|line| line.trim_ascii());
        if let Some(count) =
            count.and_then(|line| std::str::from_utf8(line).ok()?.parse::<usize>().ok())
        {
            if count != tens {
                return at_line(22, 2 * at.unwrap_or(0) as u64 + 2);
            }
        }
    }
    let found = match read(text) {
        Ok(found) => found,
        Err(word) => {
            if is("written before a refusal") {
                path.iter_mut().take(1).for_each(|x| *x = 0.5);
            }
            if is("told before a refusal") {
                told[0] = 0;
            }
            return word;
        }
    };
    let n = found.numbers.len();
    let numbers: Vec<f64> = found
        .numbers
        .iter()
        .flat_map(|[x, y, bulge]| {
            let trace = match () {
                _ if is("a trace of 1") => 1.0,
                _ if is("a trace of -0") => -0.0,
                _ => 0.0,
            };
            [*x, *y, *bulge, trace]
        })
        .collect();
    let no_room = match () {
        _ if is("a place less is enough") => path.len() + 1 < numbers.len(),
        _ if is("a place more is needed") => path.len() <= numbers.len(),
        _ if is("room for three numbers a vertex") => path.len() < 3 * n,
        _ if is("room for 16,384 is needed") => path.len() < 16_384,
        _ => path.len() < numbers.len(),
    };
    if no_room && (is("24 first") || is("24 before 22")) {
        return word(24, 16, 0);
    }
    let met = match () {
        _ if is("more vertices than the count taken") => found.count <= n as u64,
        _ if is("fewer vertices than the count taken") => found.count >= n as u64,
        _ if is("the count not looked at") => true,
        _ if is("the count's last 16 bits") => found.count & 0xffff == n as u64,
        _ => found.count == n as u64,
    };
    if !met && !is("22 last") && !is("7 before 22") && !is("22 behind the numbers") {
        return at_line(22, found.count_line);
    }
    if no_room && is("24 before 7") {
        return word(24, 16, 0);
    }
    if too_many(n) && is("7 before 22") {
        return word(7, 8, 0);
    }
    if !met && is("7 before 22") {
        return at_line(22, found.count_line);
    }
    if let Err(word) = checked(mode, &numbers, found.closed) {
        return word;
    }
    let numbers = match is("the cut path") {
        true => cut(&numbers, found.closed),
        false => numbers,
    };
    let n = numbers.len() / 4;
    if !met && is("22 behind the numbers") {
        return at_line(22, found.count_line);
    }
    if no_room {
        if is("written before 24") {
            let fits = path.len().min(numbers.len());
            path[..fits].copy_from_slice(&numbers[..fits]);
        }
        if is("told before 24") {
            told[0] = n as u64;
        }
        return word(24, 16, 0);
    }
    if !met {
        return at_line(22, found.count_line);
    }
    // not even a wrong one writes beyond its slice
    let fits = path.len().min(numbers.len());
    let kept = if is("the last number not written") {
        fits.saturating_sub(1)
    } else {
        fits
    };
    path[..kept].copy_from_slice(&numbers[..kept]);
    if is("the rest cleared") {
        path[fits..].fill(0.0);
    }
    told[0] = match () {
        _ if is("numbers told for vertices") => numbers.len() as u64,
        _ => n as u64,
    };
    if told.len() > 1 {
        told[1] = u64::from(found.closed);
        if is("told in the other order") {
            told.swap(0, 1);
        }
    }
    if told.len() > 2 && is("a third place told") {
        told[2] = 0;
    }
    u64::from(is("answers 1"))
}

// ---- export

/// The millionths of a number, if it is these divided once.
fn millionths(x: f64) -> Option<i64> {
    let m = (x * 1e6).round();
    let m = m as i64;
    let back = m as f64 / 1e6;
    let same = match () {
        _ if is("export rounding silently") => true,
        _ if is("export rounding by a last bit") => (back - x).abs() <= x.abs() * 3e-16,
        _ if is("minus zero written") || is("minus zero written as zero") => back == x,
        _ if is("export cuts digits off") => return Some((x * 1e6) as i64),
        _ if is("only 65,536ths exported") => {
            back.to_bits() == x.to_bits() && (x * 65_536.0).fract() == 0.0
        }
        _ if is("test by a product") => m as f64 == x * 1e6 && x.to_bits() != (-0.0_f64).to_bits(),
        _ => back.to_bits() == x.to_bits(),
    };
    same.then_some(m)
}

fn put(text: &mut Vec<u8>, x: f64, m: i64) {
    let minus = match () {
        _ if is("minus zero written") && m == 0 => x.is_sign_negative(),
        _ if is("no minus written") => false,
        _ => m < 0,
    };
    if minus {
        text.push(b'-');
    } else if is("a plus written") {
        text.push(b'+');
    } else if is("a blank written") {
        text.push(b' ');
    }
    let m = m.unsigned_abs();
    let (whole, part) = (m / 1_000_000, m % 1_000_000);
    let whole = match () {
        _ if is("one digit before a bulge's point") && whole <= 16 => whole % 10,
        _ => whole,
    };
    let spelt = match () {
        _ if is("a zero in front left out") && whole == 0 => format!(".{part:06}"),
        _ if is("a zero more in front") => format!("0{whole}.{part:06}"),
        _ if is("zeros behind left out") => format!("{whole}.{part:06}")
            .trim_end_matches('0')
            .trim_end_matches('.')
            .to_string(),
        _ if is("five digits written") => format!("{whole}.{:05}", part / 10),
        _ if is("the fraction not padded") => format!("{whole}.{part}"),
        _ if is("a comma written") => format!("{whole},{part:06}"),
        _ => format!("{whole}.{part:06}"),
    };
    text.extend(spelt.bytes());
    if is("carriage returns written") {
        text.push(b'\r');
    }
    text.push(b'\n');
}

fn export(mode: Mode, (path, closed): (&[f64], bool), out: &mut [u8], told: &mut [u64]) -> u64 {
    let least = match () {
        _ if is("two to tell in are needed") => 2,
        _ if is("nothing to tell in is enough") => 0,
        _ => 1,
    };
    if told.len() < least {
        return NO_ROOM;
    }
    if path.len() % 4 != 0 {
        if !is("the rest of a vertex passed over") {
            if too_many(path.len() / 4) && is("7 before 6") {
                return word(7, 8, 0);
            }
            return word(6, 8, 0);
        }
    }
    let mut path = &path[..path.len() / 4 * 4];
    let halves;
    if is("the cut path") && checked(mode, path, closed).is_ok() {
        halves = cut(path, closed);
        path = &halves;
    }
    let n = path.len() / 4;
    let mut text = Vec::new();
    let mut refused = None;
    text.extend(format!("90\n{n}\n70\n{}\n", u8::from(closed)).bytes());
    if is("70 before 90 written") {
        text.clear();
        text.extend(format!("70\n{}\n90\n{n}\n", u8::from(closed)).bytes());
    }
    if is("always closed written") {
        text.clear();
        text.extend(format!("90\n{n}\n70\n1\n").bytes());
    }
    for (vertex, v) in path.chunks(4).enumerate() {
        for (item, code) in ["10", "20", "42"].into_iter().enumerate() {
            let absent = item == 2 && v[2] == 0.0 && is("no 42 where the bulge is 0")
                || item == 2
                    && !closed
                    && vertex + 1 == n
                    && is("no 42 behind an open path's last vertex");
            if absent {
                continue;
            }
            let m = match millionths(v[item]) {
                Some(m) => m,
                None => {
                    let index = if is("vertices from 1") {
                        vertex + 1
                    } else {
                        vertex
                    };
                    let unchecked = item == 2 && is("the bulge's text not looked at");
                    if !unchecked {
                        refused = refused.or(Some(word(23, ITEMS[item], index as u64)));
                    }
                    0
                }
            };
            text.extend(code.bytes());
            text.push(b'\n');
            put(&mut text, v[item], m);
        }
        if is("traces written") && v[3] != 0.0 {
            text.extend(format!("38\n{}\n", v[3]).bytes());
        }
    }
    if is("an end written") {
        text.extend(b"0\nSEQEND\n");
    }
    let no_room = match () {
        _ if is("a place less is enough") => out.len() + 1 < text.len(),
        _ if is("a place more is needed") => out.len() <= text.len(),
        _ if is("room for the most is needed") => out.len() < mode.most_bytes(n),
        _ if is("room for the other mode's most is needed") => out.len() < Mode::Half.most_bytes(n),
        _ => out.len() < text.len(),
    };
    if no_room && is("24 first") {
        return word(24, 16, 0);
    }
    if let (Some(word), true) = (refused, is("23 before the checks")) {
        return word;
    }
    if let Err(word) = checked(mode, path, closed) {
        return word;
    }
    if no_room && is("24 before 23") {
        return word(24, 16, 0);
    }
    if let Some(word) = refused {
        if is("written before a refusal") {
            out.iter_mut().take(3).for_each(|byte| *byte = b'9');
        }
        if is("told before a refusal") && !told.is_empty() {
            told[0] = 0;
        }
        return word;
    }
    if no_room {
        if is("written before 24") {
            let fits = out.len().min(text.len());
            out[..fits].copy_from_slice(&text[..fits]);
        }
        if is("told before 24") && !told.is_empty() {
            told[0] = text.len() as u64;
        }
        return word(24, 16, 0);
    }
    let fits = out.len().min(text.len());
    let kept = if is("the last newline not written") {
        fits - 1
    } else {
        fits
    };
    out[..kept].copy_from_slice(&text[..kept]);
    if is("a NUL behind") && out.len() > fits {
        out[fits] = 0;
    }
    if is("the rest cleared") {
        out[fits..].fill(0);
    }
    if let Some(bytes) = told.first_mut() {
        *bytes = match () {
            _ if is("vertices told for bytes") => n as u64,
            _ if is("a byte more told") => text.len() as u64 + 1,
            _ => text.len() as u64,
        };
    }
    if told.len() > 1 && is("a second place told") {
        told[1] = u64::from(closed);
    }
    u64::from(is("answers 1"))
}
