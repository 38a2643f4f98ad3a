//! Bodies and paths worked out by hand, which need no model.

use super::model::Mode;
use super::Ours;

const NO_ROOM: u64 = 512;

/// The word of a refusal at a text line.
const fn at_line(number: u64, line: u64) -> u64 {
    256 + number + (15 << 16) + (line << 32)
}

/// The word of a refusal of a vertex's number, a chord or a length.
const fn at(number: u64, item: u64, index: u64) -> u64 {
    256 + number + (item << 16) + (index << 32)
}

const NO_ROOM_LEFT: u64 = 256 + 24 + (16 << 16);

/// A text, the numbers of its path, and whether it is closed.
type Read = (&'static str, &'static [f64], bool);
/// A text that is refused, and the word.
type NotRead = (&'static str, u64);
/// A path, whether it is closed, and its text.
type Written = (&'static [f64], bool, &'static str);
/// A path that is refused, whether it is closed, and the word.
type NotWritten = (&'static [f64], bool, u64);

/// Those of both modes, and those of this one.
pub fn bodies(mode: Mode) -> impl Iterator<Item = &'static Read> {
    let of_mode: &[Read] = match mode {
        Mode::Half => &[],
        Mode::Large => LARGE_BODIES,
    };
    BODIES.iter().chain(of_mode)
}

pub fn refused(mode: Mode) -> impl Iterator<Item = &'static NotRead> {
    let of_mode = match mode {
        Mode::Half => HALF_REFUSED,
        Mode::Large => LARGE_REFUSED,
    };
    REFUSED.iter().chain(of_mode)
}

pub fn paths(mode: Mode) -> impl Iterator<Item = &'static Written> {
    let of_mode: &[Written] = match mode {
        Mode::Half => &[],
        Mode::Large => LARGE_PATHS,
    };
    PATHS.iter().chain(of_mode)
}

pub fn not_exported(mode: Mode) -> impl Iterator<Item = &'static NotWritten> {
    let of_mode = match mode {
        Mode::Half => HALF_NOT_EXPORTED,
        Mode::Large => LARGE_NOT_EXPORTED,
    };
    NOT_EXPORTED.iter().chain(of_mode)
}

const BODIES: &[Read] = &[
    ("90\n0\n70\n0\n", &[], false),
    ("90\n0\n70\n1\n", &[], true),
    ("90\n1\n70\n0\n10\n1\n20\n2\n", &[1.0, 2.0, 0.0, 0.0], false),
    (
        "90\n2\n70\n1\n10\n0\n20\n0\n42\n1\n10\n1.5\n20\n-2.25\n",
        &[0.0, 0.0, 1.0, 0.0, 1.5, -2.25, 0.0, 0.0],
        true,
    ),
    // blanks, leading zeros, other groups everywhere, one of them with a value like a code
    (
        "  0\nLWPOLYLINE\n 5\n2F\n 090\n   2\n100\n10\n070\n 128\n43\n0.0\n  10\n 0001.500000\n38\n\n20\n  -0.000001\n40\n0\n\
         0010\n3\n8\n42\n 20\n1048576\n 42\n-1.0\n999\nend\n",
        &[1.5, -1e-6, 0.0, 0.0, 3.0, 1_048_576.0, -1.0, 0.0],
        false,
    ),
    // a bulge that is absent is 0, not the last one
    (
        "90\n3\n70\n129\n10\n0\n20\n0\n42\n0.5\n10\n4\n20\n0\n10\n4\n20\n4\n42\n0\n",
        &[0.0, 0.0, 0.5, 0.0, 4.0, 0.0, 0.0, 0.0, 4.0, 4.0, 0.0, 0.0],
        true,
    ),
    // one tenth and 1/64
    ("90\n1\n70\n3\n10\n0.1\n20\n00.015625\n", &[0.1, 0.015625, 0.0, 0.0], true),
    // closed by the last bit only
    ("90\n0\n70\n2\n", &[], false),
    ("90\n0\n70\n123456789012345678901234567891\n", &[], true),
    ("90\n0\n70\n123456789012345678901234567890\n", &[], false),
    ("90\n00000000000000000000000000000000000000001\n70\n0\n10\n7\n20\n8\n", &[7.0, 8.0, 0.0, 0.0], false),
];

/// A tuning loop, uncut: the request's own. Bulges of 16; one of them starts no segment. An arc that is cut at the limit of y.
const LARGE_BODIES: &[Read] = &[
    (
        "90\n2\n70\n0\n10\n0\n20\n0\n42\n8\n10\n0.125\n20\n0\n",
        &[0.0, 0.0, 8.0, 0.0, 0.125, 0.0, 0.0, 0.0],
        false,
    ),
    (
        "90\n2\n70\n0\n10\n0\n20\n0\n42\n16\n10\n1\n20\n0\n42\n-16.000000\n",
        &[0.0, 0.0, 16.0, 0.0, 1.0, 0.0, -16.0, 0.0],
        false,
    ),
    (
        "90\n2\n70\n0\n10\n-1\n20\n1048572\n42\n-4\n10\n1\n20\n1048572\n",
        &[-1.0, 1_048_572.0, -4.0, 0.0, 1.0, 1_048_572.0, 0.0, 0.0],
        false,
    ),
];

const REFUSED: &[NotRead] = &[
    // the text ends where a code or a value is owed
    ("", at_line(21, 1)),
    ("90\n", at_line(21, 2)),
    ("90\n0\n", at_line(21, 3)),
    ("90\n0\n70\n", at_line(21, 4)),
    ("90\n1\n70\n0\n10\n5\n", at_line(21, 7)),
    ("90\n1\n70\n0\n10\n5\n20\n", at_line(21, 8)),
    ("90\n0\n70\n0\n8\n", at_line(21, 6)),
    ("0\nLWPOLYLINE\n", at_line(21, 3)),
    // a last line without its newline
    ("90", at_line(20, 1)),
    ("90\n0", at_line(20, 2)),
    ("90\n0\n70\n1", at_line(20, 4)),
    ("90\n0\n70\n1\n0", at_line(20, 5)),
    ("90\n0\n70\n1\n0\nSEQEND", at_line(21, 6)),
    ("90\n1\n70\n0\n10\n5\n20\n6", at_line(20, 8)),
    // out of place
    ("70\n0\n", at_line(21, 1)),
    ("10\n0\n", at_line(21, 1)),
    ("90\n0\n90\n0\n", at_line(21, 3)),
    ("90\n0\n10\n0\n", at_line(21, 3)),
    ("90\n0\n70\n0\n70\n0\n", at_line(21, 5)),
    ("90\n1\n70\n0\n20\n5\n10\n5\n", at_line(21, 5)),
    ("90\n1\n70\n0\n42\n5\n10\n5\n20\n5\n", at_line(21, 5)),
    ("90\n1\n70\n0\n10\n5\n10\n5\n", at_line(21, 7)),
    ("90\n1\n70\n0\n10\n5\n42\n0\n20\n5\n", at_line(21, 7)),
    (
        "90\n1\n70\n0\n10\n5\n20\n5\n42\n0\n42\n0\n",
        at_line(21, 11),
    ),
    ("90\n1\n70\n0\n10\n5\n20\n5\n20\n0\n", at_line(21, 9)),
    ("90\n1\n70\n0\n10\n5\n20\n5\n90\n1\n", at_line(21, 9)),
    // a bad code or number
    ("\n", at_line(20, 1)),
    (" \n", at_line(20, 1)),
    ("-90\n", at_line(20, 1)),
    ("90 \n", at_line(20, 1)),
    ("90\r\n0\r\n", at_line(20, 1)),
    ("\t90\n", at_line(20, 1)),
    ("90\n\n", at_line(20, 2)),
    ("90\n+1\n", at_line(20, 2)),
    ("90\n-0\n", at_line(20, 2)),
    ("90\n1.0\n", at_line(20, 2)),
    ("90\n1\n70\n-1\n", at_line(20, 4)),
    ("90\n1\n70\n0\n10\n-0\n20\n0\n", at_line(20, 6)),
    ("90\n1\n70\n0\n10\n0\n20\n-0.000000\n", at_line(20, 8)),
    ("90\n1\n70\n0\n10\n.5\n20\n0\n", at_line(20, 6)),
    ("90\n1\n70\n0\n10\n5.\n20\n0\n", at_line(20, 6)),
    ("90\n1\n70\n0\n10\n1e3\n20\n0\n", at_line(20, 6)),
    ("90\n1\n70\n0\n10\n0.1234567\n20\n0\n", at_line(20, 6)),
    ("90\n1\n70\n0\n10\n1.0000000\n20\n0\n", at_line(20, 6)),
    ("90\n1\n70\n0\n10\n+1\n20\n0\n", at_line(20, 6)),
    ("90\n1\n70\n0\n10\n1\n20\n\n", at_line(20, 8)),
    ("90\n1\n70\n0\n10\n1\n20\n0\n42\n--1\n", at_line(20, 10)),
    ("90\n0\n70\n0\nx\n1\n", at_line(20, 5)),
    // 20 and 21 by line, before the count
    ("90\n5\n70\n0\n10\nx\n20\n0\n", at_line(20, 6)),
    ("90\n5\n70\n0\n10\n1\n", at_line(21, 7)),
    // the count is not met
    ("90\n1\n70\n0\n", at_line(22, 2)),
    ("90\n0\n70\n0\n10\n1\n20\n1\n", at_line(22, 2)),
    (
        "0\nLWPOLYLINE\n8\n0\n90\n2\n70\n0\n10\n1\n20\n1\n",
        at_line(22, 6),
    ),
    ("90\n18446744073709551616\n70\n0\n", at_line(22, 2)),
    (
        "90\n18446744073709551617\n70\n0\n10\n1\n20\n1\n",
        at_line(22, 2),
    ),
    // before numbers
    ("90\n2\n70\n0\n10\n1048577\n20\n1\n", at_line(22, 2)),
    // numbers, by vertex
    ("90\n1\n70\n0\n10\n1048576.000001\n20\n1\n", at(2, 1, 0)),
    ("90\n1\n70\n0\n10\n0\n20\n-1048576.000001\n", at(2, 2, 0)),
    ("90\n1\n70\n0\n10\n9007199254.740992\n20\n0\n", at(2, 1, 0)),
    (
        "90\n1\n70\n0\n10\n18446744073709.551616\n20\n0\n",
        at(2, 1, 0),
    ),
    // arcs without a chord, by segment; behind all numbers
    (
        "90\n2\n70\n0\n10\n1\n20\n1\n42\n1\n10\n1\n20\n1\n",
        at(5, 7, 0),
    ),
    (
        "90\n2\n70\n1\n10\n1\n20\n1\n10\n1\n20\n1\n42\n-0.000001\n",
        at(5, 7, 1),
    ),
];

/// Bulges above 1, before arcs.
const HALF_REFUSED: &[NotRead] = &[
    ("90\n1\n70\n0\n10\n0\n20\n0\n42\n1.000001\n", at(3, 3, 0)),
    (
        "90\n2\n70\n0\n10\n0\n20\n0\n10\n0\n20\n0\n42\n-1.000001\n",
        at(3, 3, 1),
    ),
    (
        "90\n2\n70\n0\n10\n1\n20\n1\n42\n1\n10\n1\n20\n1\n42\n2\n",
        at(3, 3, 1),
    ),
];

const LARGE_REFUSED: &[NotRead] = &[
    // bulges above 16, also where they start no segment, before arcs
    ("90\n1\n70\n0\n10\n0\n20\n0\n42\n16.000001\n", at(3, 3, 0)),
    (
        "90\n2\n70\n0\n10\n0\n20\n0\n42\n2\n10\n0\n20\n0\n42\n-16.000001\n",
        at(3, 3, 1),
    ),
    ("90\n1\n70\n0\n10\n0\n20\n0\n42\n17\n", at(3, 3, 0)),
    // cut a millionth beyond the limit, of x and of y
    (
        "90\n2\n70\n0\n10\n1048572.000001\n20\n-1\n42\n4\n10\n1048572.000001\n20\n1\n",
        at(2, 17, 0),
    ),
    (
        "90\n2\n70\n0\n10\n-1\n20\n1048572.000001\n42\n-4\n10\n1\n20\n1048572.000001\n",
        at(2, 18, 0),
    ),
    // an arc of no length
    (
        "90\n2\n70\n0\n10\n1\n20\n1\n42\n16\n10\n1\n20\n1\n",
        at(5, 7, 0),
    ),
    // 5 and 2 by segment: the second one closes the path
    (
        "90\n3\n70\n1\n10\n1\n20\n1\n42\n2\n10\n1\n20\n1\n10\n1048576\n20\n0\n42\n16\n",
        at(5, 7, 0),
    ),
    (
        "90\n3\n70\n1\n10\n1048576\n20\n0\n42\n16\n10\n1\n20\n1\n42\n2\n10\n1\n20\n1\n",
        at(2, 18, 0),
    ),
];

const PATHS: &[Written] = &[
    (&[], false, "90\n0\n70\n0\n"),
    (&[], true, "90\n0\n70\n1\n"),
    (
        &[0.0, -1.5, 0.0, 0.0],
        false,
        "90\n1\n70\n0\n10\n0.000000\n20\n-1.500000\n42\n0.000000\n",
    ),
    // traces are not written
    (
        &[0.1, 1_048_576.0, 0.015625, 7.0, -1e-6, 12.345678, -1.0, 255.0],
        true,
        "90\n2\n70\n1\n10\n0.100000\n20\n1048576.000000\n42\n0.015625\n10\n-0.000001\n20\n12.345678\n42\n-1.000000\n",
    ),
];

const LARGE_PATHS: &[Written] = &[(
    &[0.0, 0.0, 8.0, 3.0, 0.125, 0.0, -16.0, 0.0],
    false,
    "90\n2\n70\n0\n10\n0.000000\n20\n0.000000\n42\n8.000000\n10\n0.125000\n20\n0.000000\n42\n-16.000000\n",
)];

const HALF_NOT_EXPORTED: &[NotWritten] = &[(&[0.0, 0.0, 1.5, 0.0], false, at(3, 3, 0))];

const LARGE_NOT_EXPORTED: &[NotWritten] = &[
    (&[0.0, 0.0, 16.5, 0.0], false, at(3, 3, 0)),
    // 2^-40 at a bulge above 1, by the floats
    (
        &[
            0.0,
            0.0,
            1.000_000_000_000_000_2,
            0.0,
            9.094_947_017_729_282e-13,
            0.0,
            0.0,
            0.0,
        ],
        false,
        at(5, 7, 0),
    ),
    (
        &[0.0, 0.0, 1.0, 0.0, 9.094_947_017_729_282e-13, 0.0, 0.0, 0.0],
        false,
        at(23, 1, 1),
    ),
    // before 23
    (
        &[-1.0, 1_048_573.0, -4.0, 0.0, 1.0, 1_048_573.0, -0.0, 0.0],
        false,
        at(2, 18, 0),
    ),
    (&[0.0, 0.0, 15.0 + 1.0 / 128.0, 0.0], false, at(23, 3, 0)),
];

const NOT_EXPORTED: &[NotWritten] = &[
    (&[0.0], false, at(6, 8, 0)),
    (&[0.0, 0.0, 0.0], false, at(6, 8, 0)),
    (&[f64::NAN, 0.0, 0.0, 0.0, 0.0], false, at(6, 8, 0)),
    (&[f64::NAN, 0.0, 0.0, 0.0], false, at(11, 1, 0)),
    (&[0.0, f64::INFINITY, 0.0, 0.0], false, at(12, 2, 0)),
    (&[0.0, 0.0, 0.0, 256.0], false, at(15, 13, 0)),
    (&[-0.0, 0.0, 0.0, 256.0], false, at(15, 13, 0)),
    // -0 is read back from no text
    (&[-0.0, 0.0, 0.0, 0.0], false, at(23, 1, 0)),
    (&[0.0, 0.0, -0.0, 0.0], false, at(23, 3, 0)),
    (
        &[0.0, 0.0, 0.0, -0.0, 1.0, 1e-7, 0.0, 0.0],
        false,
        at(23, 2, 1),
    ),
    // a quarter circle's bulge, and 1/128
    (&[0.0, 0.0, 0.41421356237309503, 0.0], false, at(23, 3, 0)),
    (&[0.0, 0.0, 0.0078125, 0.0], false, at(23, 3, 0)),
    (&[5e-324, 0.0, 0.0, 0.0], false, at(23, 1, 0)),
    // arcs before 23
    (
        &[0.0, 0.0, 0.41421356237309503, 0.0, 0.0, 0.0, 0.0, 0.0],
        false,
        at(5, 7, 0),
    ),
];

/// What is wrong, told in words.
pub fn wrong(ours: Ours) -> Vec<String> {
    let mut wrong = Vec::new();
    let mut path = vec![0.0; 64];
    let mut text = vec![0; 512];
    for (body, numbers, closed) in bodies(ours.mode) {
        let mut told = [9; 2];
        let word = (ours.import)(body.as_bytes(), &mut path[..numbers.len()], &mut told);
        let bits = |numbers: &[f64]| -> Vec<u64> { numbers.iter().map(|x| x.to_bits()).collect() };
        let same = bits(&path[..numbers.len()]) == bits(numbers);
        if word != 0 || told != [numbers.len() as u64 / 4, u64::from(*closed)] || !same {
            wrong.push(format!("example {body:?}: returned {word}, told {told:?}"));
        }
        if !numbers.is_empty() {
            let word = (ours.import)(body.as_bytes(), &mut path[..numbers.len() - 1], &mut told);
            if word != NO_ROOM_LEFT {
                wrong.push(format!("example {body:?} without room: returned {word}"));
            }
        }
        if (ours.import)(body.as_bytes(), &mut path, &mut told[..1]) != NO_ROOM {
            wrong.push(format!("example {body:?}: nothing to tell in"));
        }
    }
    for (body, expected) in refused(ours.mode) {
        let word = (ours.import)(body.as_bytes(), &mut path, &mut [0; 2]);
        if word != *expected {
            wrong.push(format!(
                "example {body:?}: returned {word:#x}, expected {expected:#x}"
            ));
        }
    }
    for (path, closed, expected) in paths(ours.mode) {
        let mut told = [9];
        let room = expected.len();
        let word = (ours.export)((path, *closed), &mut text[..room], &mut told);
        if word != 0 || told != [room as u64] || text[..room] != *expected.as_bytes() {
            wrong.push(format!("example {path:?}: returned {word}, told {told:?}"));
        }
        let word = (ours.export)((path, *closed), &mut text[..room - 1], &mut told);
        if word != NO_ROOM_LEFT {
            wrong.push(format!("example {path:?} without room: returned {word}"));
        }
        if (ours.export)((path, *closed), &mut text, &mut []) != NO_ROOM {
            wrong.push(format!("example {path:?}: nothing to tell in"));
        }
    }
    for (path, closed, expected) in not_exported(ours.mode) {
        let word = (ours.export)((path, *closed), &mut text, &mut [0]);
        if word != *expected {
            wrong.push(format!(
                "example {path:?}: returned {word:#x}, expected {expected:#x}"
            ));
        }
    }
    wrong
}
