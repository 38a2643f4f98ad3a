//! Both moves as one would write them in plain Rust, with nothing but speed and clearness in mind: what the programs are timed
//! beside. The program `mover` is made of this file alone.

const MOST_TEXT: usize = 16_384;
const MOST_VERTICES: u64 = 256;
const COORDINATE: i64 = 1_048_576;
const BULGE: i64 = 65_536;

/// Text to packed; none if the text breaks its form.
pub fn pack(text: &[u8]) -> Option<Vec<u8>> {
    if text.len() > MOST_TEXT {
        return None;
    }
    let mut out = Vec::with_capacity(text.len());
    let mut rest = text;
    let mut vertices = 0;
    for end in [b' ', b'\n'] {
        let n = whole(&mut rest, end, MOST_VERTICES as i64)?;
        vertices += u64::try_from(n).ok()?;
        put(n as u64, &mut out);
    }
    for _ in 0..vertices {
        for (end, most) in [(b' ', COORDINATE), (b' ', COORDINATE), (b'\n', BULGE)] {
            let n = whole(&mut rest, end, most)?;
            put(((n << 1) ^ (n >> 63)) as u64, &mut out);
        }
    }
    rest.is_empty().then_some(out)
}

/// Takes a whole number and the byte behind it off the front.
fn whole(rest: &mut &[u8], end: u8, most: i64) -> Option<i64> {
    let at = rest.iter().position(|byte| *byte == end)?;
    let word = &rest[..at];
    *rest = &rest[at + 1..];
    let (negative, digits) = match word {
        [b'-', digits @ ..] => (true, digits),
        digits => (false, digits),
    };
    let n = match digits {
        [b'0'] if !negative => 0,
        [b'1'..=b'9', ..] if digits.len() <= 7 => {
            digits.iter().try_fold(0, |n, byte| match byte {
                b'0'..=b'9' => Some(10 * n + i64::from(byte - b'0')),
                _ => None,
            })?
        }
        _ => return None,
    };
    (n <= most).then_some(if negative { -n } else { n })
}

fn put(mut n: u64, out: &mut Vec<u8>) {
    while n >= 128 {
        out.push(n as u8 | 128);
        n >>= 7;
    }
    out.push(n as u8);
}

/// Packed to text, or the offset of the fault.
pub fn unpack(bytes: &[u8]) -> Result<Vec<u8>, usize> {
    let mut out = Vec::with_capacity(3 * bytes.len());
    let mut at = 0;
    let mut vertices = 0;
    for end in [b' ', b'\n'] {
        let n = take(bytes, &mut at, MOST_VERTICES)?;
        vertices += n;
        write(n as i64, end, &mut out);
    }
    for _ in 0..vertices {
        for (end, most) in [(b' ', COORDINATE), (b' ', COORDINATE), (b'\n', BULGE)] {
            let n = take(bytes, &mut at, 2 * most as u64)?;
            write((n >> 1) as i64 ^ -((n & 1) as i64), end, &mut out);
        }
    }
    if at < bytes.len() {
        return Err(at);
    }
    Ok(out)
}

/// The number that starts at `at`, which is moved behind it. No number within the limits has more than four bytes.
fn take(bytes: &[u8], at: &mut usize, most: u64) -> Result<u64, usize> {
    let mut n = 0;
    for (place, byte) in bytes[*at..].iter().take(4).enumerate() {
        n |= u64::from(byte & 127) << (7 * place);
        if *byte < 128 {
            let padded = *byte == 0 && place > 0;
            if padded || n > most {
                return Err(*at);
            }
            *at += place + 1;
            return Ok(n);
        }
    }
    Err(*at)
}

fn write(n: i64, end: u8, out: &mut Vec<u8>) {
    if n < 0 {
        out.push(b'-');
    }
    let mut digits = [0; 20];
    let mut from = digits.len();
    let mut left = n.unsigned_abs();
    loop {
        from -= 1;
        digits[from] = b'0' + (left % 10) as u8;
        left /= 10;
        if left == 0 {
            break;
        }
    }
    out.extend_from_slice(&digits[from..]);
    out.push(end);
}
