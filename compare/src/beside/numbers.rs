//! Layouts from outside, as plain numbers: a text line for each vertex, `x y bulge` or `x y bulge trace`, spaces between; an empty
//! text line or more between the two paths, and none if there is one path; text lines that begin with `#` are skipped. A number is
//! decimal, with an exponent or without, or `NaN`, `inf`, `-inf`, or `0x` and the sixteen hex digits of its pattern. Nothing is
//! checked here: what is no number for a cutter must come through.

use crate::vertex::{TRACE, VERTEX};

/// One path or two, each as the listings take it; or the text line that is no vertex.
pub fn paths(bytes: &[u8]) -> Result<Vec<Vec<f64>>, String> {
    let text = std::str::from_utf8(bytes).map_err(|_| "no plain text".to_string())?;
    let mut paths = Vec::new();
    let mut next = true;
    for (at, line) in text.lines().enumerate() {
        let line = line.trim();
        if line.starts_with('#') {
            continue;
        }
        if line.is_empty() {
            next = true;
            continue;
        }
        if next {
            paths.push(Vec::new());
            next = false;
        }
        let vertex = vertex(line).ok_or_else(|| format!("line {}: no vertex: {line}", at + 1))?;
        paths.last_mut().expect("one was begun").extend(vertex);
    }
    match paths.len() {
        1 | 2 => Ok(paths),
        count => Err(format!("{count} paths, not one or two")),
    }
}

fn vertex(line: &str) -> Option<[f64; VERTEX]> {
    let numbers: Vec<f64> = line.split_whitespace().map(number).collect::<Option<_>>()?;
    let mut vertex = [0.0; VERTEX];
    if numbers.len() != VERTEX && numbers.len() != TRACE {
        return None;
    }
    vertex[..numbers.len()].copy_from_slice(&numbers);
    Some(vertex)
}

fn number(word: &str) -> Option<f64> {
    const DIGITS: usize = 16;
    match word.strip_prefix("0x") {
        Some(digits) if digits.len() == DIGITS => {
            u64::from_str_radix(digits, 16).ok().map(f64::from_bits)
        }
        Some(_) => None,
        None => word.parse().ok(),
    }
}
