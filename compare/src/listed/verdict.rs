//! Compares what was printed with what is expected.

use crate::numbers::same;

/// How an output compares with the expected one.
#[derive(Debug, PartialEq)]
pub enum Verdict {
    /// Byte for byte.
    Same,
    /// The same except for the sign of a zero, or for which NaN it is.
    SameNumbers,
    Different,
}

pub fn judge(printed: &[u8], expected: &str) -> Verdict {
    if printed == expected.as_bytes() {
        return Verdict::Same;
    }
    let lines = |text: &[u8]| -> Vec<Vec<u8>> {
        let lines = text.split(|byte| *byte == b'\n');
        lines.map(<[u8]>::to_vec).collect()
    };
    let (ours, expected) = (lines(printed), lines(expected.as_bytes()));
    let rows = || ours.iter().zip(&expected).skip(1);
    let first = ours.first() == expected.first();
    if first && ours.len() == expected.len() && rows().all(|(a, b)| same_row(a, b)) {
        Verdict::SameNumbers
    } else {
        Verdict::Different
    }
}

/// The same indices and class, and as many floats after them, each equal or a NaN in both.
fn same_row(ours: &[u8], expected: &[u8]) -> bool {
    const FRONT: usize = 3;
    let words = |line: &[u8]| -> Vec<Vec<u8>> {
        let words = line.split(|byte| *byte == b' ');
        words.map(<[u8]>::to_vec).collect()
    };
    let (ours, expected) = (words(ours), words(expected));
    if ours == expected {
        return true;
    }
    let (Some(front), Some(stated)) = (ours.get(..FRONT), expected.get(..FRONT)) else {
        return false;
    };
    let floats = |words: &[Vec<u8>]| -> Option<Vec<f64>> {
        words[FRONT..].iter().map(|word| float(word)).collect()
    };
    match (floats(&ours), floats(&expected)) {
        (Some(ours), Some(expected)) => front == stated && same(&ours, &expected),
        _ => false,
    }
}

/// Bits as exactly 16 lower-case hex digits.
fn float(word: &[u8]) -> Option<f64> {
    let digit = |byte: &u8| matches!(byte, b'0'..=b'9' | b'a'..=b'f');
    if word.len() != 16 || !word.iter().all(digit) {
        return None;
    }
    let word = std::str::from_utf8(word).ok()?;
    u64::from_str_radix(word, 16).ok().map(f64::from_bits)
}

#[cfg(test)]
mod tests {
    use super::{judge, Verdict};

    const ONE: &str = "3ff0000000000000";
    const ZERO: &str = "0000000000000000";

    fn row(points: &[&str]) -> String {
        format!("pairs 1 rows 1\n0 0 one {}\n", points.join(" "))
    }

    #[test]
    fn zeros_and_nans() {
        let expected = row(&[ONE, ZERO]);
        let of = |points: &[&str]| judge(row(points).as_bytes(), &expected);
        assert_eq!(of(&[ONE, ZERO]), Verdict::Same);
        assert_eq!(of(&[ONE, "8000000000000000"]), Verdict::SameNumbers);
        let expected = row(&[ONE, "7ff8000000000000"]);
        let of = |points: &[&str]| judge(row(points).as_bytes(), &expected);
        assert_eq!(of(&[ONE, "fff8000000000001"]), Verdict::SameNumbers);
        assert_eq!(of(&[ONE, ZERO]), Verdict::Different);
        assert_eq!(of(&[ONE, "7ff0000000000000"]), Verdict::Different);
    }

    #[test]
    fn anything_else() {
        let expected = row(&[ONE, ZERO]);
        let others = [
            row(&[ONE, "0000000000000001"]),
            row(&[ONE, "0"]),
            row(&["3FF0000000000000", ZERO]),
            row(&[ONE]),
            row(&[ONE, ZERO, ZERO]),
            row(&[ONE, "", ZERO]),
            row(&[ZERO, ONE]),
            expected.replace("0 0 one", "0 1 one"),
            expected.replace("one", "two"),
            expected.replace("pairs 1", "pairs 2"),
            expected.replace('\n', "\r\n"),
            expected.trim_end().to_string(),
            format!("{expected}\n"),
            format!("{expected}0 0 one {ONE} {ZERO}\n"),
            "refused 16\n".to_string(),
            String::new(),
        ];
        for other in others {
            assert_eq!(
                judge(other.as_bytes(), &expected),
                Verdict::Different,
                "{other:?}"
            );
        }
        assert_eq!(judge(b"refused 5\n", "refused 16\n"), Verdict::Different);
        assert_eq!(judge(b"refused 16\n", "refused 16\n"), Verdict::Same);
    }
}
